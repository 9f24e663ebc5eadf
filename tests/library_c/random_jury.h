/* Random ballots, tapes and lists, from the random numbers of lent.h. */
#ifndef RANDOM_JURY_H
#define RANDOM_JURY_H

#include "kinds.h"
#include "lent.h"

/* A juror's ballot from the ranks of k candidates: smaller is better, and equal ranks are a tie. */
static inline void put_ranking(uint8_t *ballot, const uint32_t *ranks, size_t k) {
    for (size_t i = 0; i < k * k; i++)
        ballot[i] = ranks[i / k] < ranks[i % k];
}

/* Good ballots: a 1 in each row of grades; if d is 0, every juror ranks all candidates, with ties. */
static inline void random_ballots(uint8_t *ballots, size_t k, size_t d, size_t n) {
    memset(ballots, 0, n * k * d);
    for (size_t row = 0; d && row < n * k; row++)
        ballots[row * d + below(d)] = 1;
    for (size_t ballot = 0; !d && ballot < n; ballot++) {
        uint32_t ranks[8];
        for (size_t i = 0; i < k; i++)
            ranks[i] = below(k);
        put_ranking(ballots + ballot * k * k, ranks, k);
    }
}

/* Whether at least three candidates are ranked: then a ballot that only puts 0 before 1 leaves a third tied with both,
 * which is reason 12. */
static inline int can_have_gap(size_t k, size_t d, size_t ballots_length) {
    return d == 0 && k > 2 && k <= 8 && ballots_length >= k * k;
}

static inline void random_bits(uint8_t *bits, size_t length) {
    for (size_t i = 0; i < length; i++)
        bits[i] = (uint8_t)below(2);
}

/* An earlier wire: now and then the last one, so that there are long chains. */
static inline uint32_t random_wire(size_t own) { return below(4) ? below(own) : (uint32_t)(own - 1); }

/* A list of this many gates, of all kinds, that the test accepts. */
static inline void random_list(uint32_t *table, size_t inputs, size_t gates) {
    for (size_t g = 0; g < gates; g++) {
        table[4 * g] = below(KINDS);
        for (uint32_t i = 0; i < 3; i++)
            table[4 * g + 1 + i] = i < kind_operands[table[4 * g]] ? random_wire(inputs + g) : 0;
    }
}

/* C of a list that the test accepts. */
static inline size_t marks_in(const uint32_t *table, size_t gates) {
    size_t marks = 0;
    for (size_t g = 0; g < gates; g++)
        marks += kind_conditional[table[4 * g]];
    return marks;
}

/* Mostly this length, now and then one more or one less. */
static inline size_t about(size_t length) { return below(12) ? length : below(2) || !length ? length + 1 : length - 1; }

#endif
