/* A random jury for the benchmark's programs, the same in every run of a shape, with the own list of that shape. */
#ifndef JURY_H
#define JURY_H

#include "../c/jugyvaros.h"
#include "../tests/library_c/random_jury.h"
#include <stdio.h>

enum { SEED = 12345 };

struct jury {
    size_t k, d, n, gates, marks, inputs;
    uint32_t *table;
    uint8_t *ballots, *tape, *wires, *board;
};

static inline void fail_at(const struct jury *j, const char *why) {
    fprintf(stderr, "bench: %s at %zu %zu %zu\n", why, j->k, j->d, j->n);
    exit(1);
}

/* New ballots, a new tape and a new board, for the same list and the same wire table. */
static inline void draw(struct jury *j, uint64_t seed) {
    j->ballots = lent(j->inputs), j->tape = lent(j->marks), j->board = filled(j->marks + j->k, 0);
    start_random(seed);
    random_ballots(j->ballots, j->k, j->d, j->n);
    random_bits(j->tape, j->marks);
}

static inline struct jury jury_of(const size_t *shape) {
    size_t answer[JUGY_MEASURE_ANSWER];
    struct jury j = {.k = shape[0], .d = shape[1], .n = shape[2]};
    if (jugy_measure(j.k, j.d, j.n, answer, JUGY_MEASURE_ANSWER))
        fail_at(&j, "not measured");
    j.gates = answer[2], j.marks = answer[3], j.inputs = answer[4];
    j.table = filled(16 * j.gates, 0), j.wires = filled(j.inputs + j.gates, 0);
    if (jugy_write(j.k, j.d, j.n, j.table, 4 * j.gates, answer, JUGY_MEASURE_ANSWER))
        fail_at(&j, "not written");
    draw(&j, SEED);
    return j;
}

static inline size_t run(const struct jury *j) {
    size_t answer[JUGY_RUN_ANSWER];
    return jugy_run(j->k, j->d, j->n, j->table, 4 * j->gates, j->ballots, j->inputs, j->tape, j->marks, j->wires,
                    j->inputs + j->gates, j->board, j->marks + j->k, answer, JUGY_RUN_ANSWER);
}

static inline void print_shape(const struct jury *j) { printf("%zu %zu %zu", j->k, j->d, j->n); }

static inline void free_drawn(const struct jury *j) { free(j->ballots), free(j->tape), free(j->board); }

static inline void free_jury(const struct jury *j) { free(j->table), free(j->wires), free_drawn(j); }

#endif
