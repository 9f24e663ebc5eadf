/* The same work as the core's entry points, in C, with the same tests and the same answers: the benchmark compares the
 * core with it. The answer array is that of c/jugyvaros.h. */
#ifndef CORE_H
#define CORE_H

#include <stddef.h>
#include <stdint.h>

size_t core_write(size_t k, size_t d, size_t n, uint32_t *table, size_t table_length, size_t *answer,
                  size_t answer_length);
size_t core_test(size_t k, size_t d, size_t n, const uint32_t *table, size_t table_length, size_t *answer,
                 size_t answer_length);
size_t core_run(size_t k, size_t d, size_t n, const uint32_t *table, size_t table_length, const uint8_t *ballots,
                size_t ballots_length, const uint8_t *tape, size_t tape_length, uint8_t *wires, size_t wires_length,
                uint8_t *board, size_t board_length, size_t *answer, size_t answer_length);
size_t core_count(size_t k, size_t d, size_t n, const uint8_t *ballots, size_t ballots_length, size_t *answer,
                  size_t answer_length);

#endif
