/* A random dealing of ballots among trustees, for the tests and the benchmark. */
#ifndef DEALING_H
#define DEALING_H

#include "lent.h"

/* Shares a bit among t trustees. The table has a piece for each of them; the share goes to place `at` of the piece. */
static inline void split(uint8_t bit, size_t t, uint8_t *table, size_t size, size_t at) {
    for (size_t p = 0; p + 1 < t; p++) {
        table[p * size + at] = (uint8_t)below(2);
        bit ^= table[p * size + at];
    }
    table[(t - 1) * size + at] = bit;
}

/* Each trustee gets I bytes of ballot shares, and 3 C bytes of triples. */
static inline void deal(size_t t, const uint8_t *ballots, size_t I, size_t C, uint8_t *shares, uint8_t *triples) {
    for (size_t x = 0; x < I; x++)
        split(ballots[x], t, shares, I, x);
    for (size_t i = 0; i < C; i++) {
        uint8_t u = (uint8_t)below(2), v = (uint8_t)below(2);
        split(u, t, triples, 3 * C, 3 * i);
        split(v, t, triples, 3 * C, 3 * i + 1);
        split(u & v, t, triples, 3 * C, 3 * i + 2);
    }
}

#endif
