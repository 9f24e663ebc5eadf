/* An independent reference implementation in C: what an entry point must answer and leave behind. It is written to be
 * simple. `struct said` holds an answer; only a count sets its closing bytes. */
#ifndef REFERENCE_H
#define REFERENCE_H

#include <stddef.h>
#include <stdint.h>

struct said {
    size_t reason, place, gates, conditional;
    uint8_t closing[8];
};

int shape_within(size_t k, size_t d, size_t n);

/* I, the number of ballot bytes. */
size_t ballot_bytes(size_t k, size_t d, size_t n);

/* The bound on G: [bound] and [judgment-bound], or [ranking-bound] for rankings. */
size_t gate_bound(size_t k, size_t d, size_t n);

struct said reference_test(size_t k, size_t d, size_t n, const uint32_t *table, size_t length);

/* The tests of a list and then of the ballots, with which every call that runs a list on ballots begins. */
struct said reference_jury(size_t k, size_t d, size_t n, const uint32_t *table, size_t length, const uint8_t *ballots,
                           size_t ballots_length);

struct said reference_run(size_t k, size_t d, size_t n, const uint32_t *table, size_t length, const uint8_t *ballots,
                          size_t ballots_length, const uint8_t *tape, size_t tape_length, uint8_t *wires,
                          size_t wires_length, uint8_t *board, size_t board_length);

struct said reference_count(size_t k, size_t d, size_t n, const uint8_t *ballots, size_t length);

#endif
