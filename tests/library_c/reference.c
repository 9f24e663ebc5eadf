#include "reference.h"
#include "kinds.h"
#include <string.h>

int shape_within(size_t k, size_t d, size_t n) {
    return k >= 1 && k <= 8 && (d == 0 || (d >= 2 && d <= 7)) && n >= 1 && n <= 255;
}

size_t ballot_bytes(size_t k, size_t d, size_t n) { return n * k * (d == 0 ? k : d); }

/* w, the number of binary digits of n. */
static size_t digits(size_t n) {
    size_t w = 0;
    for (; n; n >>= 1)
        w++;
    return w;
}

size_t gate_bound(size_t k, size_t d, size_t n) {
    size_t w = digits(n);
    if (d == 0)
        return 2 * k * k * n * w + k * k * k * (12 * w + 4) + k * k * (20 * w + 20) + 2;
    return 2 * k * d * n * w + k * d * (30 * w + 20) + k * k * (20 * w + 6 * d + 20) + 2 + k * d * (400 * w + 400);
}

static struct said refused(size_t reason, size_t place) {
    struct said s = {reason, place, 0, 0, {0}};
    return s;
}

static int gate_is_bad(const uint32_t *gate, size_t own) {
    if (gate[0] >= KINDS)
        return 1;
    for (uint32_t i = 0; i < 3; i++) {
        if (i < kind_operands[gate[0]] && gate[1 + i] >= own)
            return 1;
        if (i >= kind_operands[gate[0]] && gate[1 + i] != 0)
            return 1;
    }
    return 0;
}

struct said reference_test(size_t k, size_t d, size_t n, const uint32_t *table, size_t length) {
    if (!shape_within(k, d, n))
        return refused(1, 0);
    if (length % 4 || length / 4 < k || length / 4 > 1048576)
        return refused(2, 0);
    struct said s = {0, 0, length / 4, 0, {0}};
    for (size_t g = 0; g < length / 4; g++) {
        if (gate_is_bad(table + 4 * g, ballot_bytes(k, d, n) + g))
            return refused(3, g);
        s.conditional += kind_conditional[table[4 * g]];
    }
    return s;
}

/* Reasons 11 and 12 of rankings whose bytes are bits. */
static struct said test_rankings(size_t k, size_t n, const uint8_t *ballots) {
    for (size_t b = 0; b < n; b++)
        for (size_t i = 0; i < k; i++)
            for (size_t j = 0; j < k; j++)
                if (ballots[(b * k + i) * k + j] && ballots[(b * k + j) * k + i])
                    return refused(11, (b * k + i) * k + j);
    for (size_t b = 0; b < n; b++)
        for (size_t i = 0; i < k; i++)
            for (size_t j = 0; j < k; j++)
                for (size_t l = 0; l < k; l++)
                    if (l != i && l != j && ballots[(b * k + i) * k + j] && !ballots[(b * k + i) * k + l] &&
                        !ballots[(b * k + l) * k + j])
                        return refused(12, b);
    return refused(0, 0);
}

/* Reasons 4 to 6, or 4, 5, 11 and 12 for rankings; 0 if the ballots are accepted. */
static struct said test_ballots(size_t k, size_t d, size_t n, const uint8_t *ballots, size_t length) {
    if (length != ballot_bytes(k, d, n))
        return refused(4, 0);
    for (size_t i = 0; i < length; i++)
        if (ballots[i] > 1)
            return refused(5, i);
    if (d == 0)
        return test_rankings(k, n, ballots);
    for (size_t row = 0; row < n * k; row++) {
        int ones = 0;
        for (size_t g = 0; g < d; g++)
            ones += ballots[row * d + g];
        if (ones != 1)
            return refused(6, row);
    }
    return refused(0, 0);
}

struct said reference_jury(size_t k, size_t d, size_t n, const uint32_t *table, size_t length, const uint8_t *ballots,
                           size_t ballots_length) {
    struct said s = reference_test(k, d, n, table, length);
    if (s.reason)
        return s;
    struct said t = test_ballots(k, d, n, ballots, ballots_length);
    return t.reason ? t : s;
}

static uint8_t value(uint32_t kind, uint8_t a, uint8_t b, uint8_t c) {
    switch (kind) {
    case 0:
        return 0;
    case 1:
        return 1;
    case 2:
        return a;
    case 3:
        return a ? 0 : 1;
    case 4:
        return a && b;
    case 5:
        return a || b;
    case 6:
        return a != b;
    default:
        return a ? b : c;
    }
}

struct said reference_run(size_t k, size_t d, size_t n, const uint32_t *table, size_t length, const uint8_t *ballots,
                          size_t ballots_length, const uint8_t *tape, size_t tape_length, uint8_t *wires,
                          size_t wires_length, uint8_t *board, size_t board_length) {
    struct said s = reference_jury(k, d, n, table, length, ballots, ballots_length);
    if (s.reason)
        return s;
    if (tape_length != s.conditional)
        return refused(7, 0);
    for (size_t i = 0; i < tape_length; i++)
        if (tape[i] > 1)
            return refused(8, i);
    if (wires_length != ballots_length + s.gates)
        return refused(9, 0);
    if (board_length != s.conditional + k)
        return refused(10, 0);
    memcpy(wires, ballots, ballots_length);
    size_t shown = 0;
    for (size_t g = 0; g < s.gates; g++) {
        const uint32_t *gate = table + 4 * g;
        uint32_t used = kind_operands[gate[0]];
        uint8_t a = used > 0 ? wires[gate[1]] : 0, b = used > 1 ? wires[gate[2]] : 0, c = used > 2 ? wires[gate[3]] : 0;
        if (kind_conditional[gate[0]]) {
            board[shown] = (a + tape[shown]) % 2;
            shown++;
        }
        wires[ballots_length + g] = value(gate[0], a, b, c);
    }
    for (size_t i = 0; i < k; i++)
        board[shown + i] = wires[wires_length - k + i];
    memset(wires, 0, wires_length);
    return s;
}

static size_t median_of(const size_t *counts, size_t d, size_t n) {
    size_t running = 0;
    for (size_t g = 0; g < d; g++) {
        running += counts[g];
        if (2 * running >= n)
            return g;
    }
    return d;
}

/* A candidate's sequence of medians: after each, one grade of its kind is struck. */
static void sequence_of(const size_t *counts, size_t d, size_t n, size_t *sequence) {
    size_t left[7];
    for (size_t g = 0; g < d; g++)
        left[g] = counts[g];
    for (size_t i = 0; i < n; i++) {
        sequence[i] = median_of(left, d, n - i);
        left[sequence[i]]--;
    }
}

static int comes_before(const size_t *a, const size_t *b, size_t n) {
    for (size_t i = 0; i < n; i++)
        if (a[i] != b[i])
            return a[i] < b[i];
    return 0;
}

/* The strongest path from i to j, by trying all paths. Bit l of `met` says whether candidate l has been visited. */
static size_t strongest(size_t k, size_t links[8][8], size_t i, size_t j, unsigned met) {
    size_t best = links[i][j];
    for (size_t l = 0; l < k; l++) {
        if (l == j || met >> l & 1)
            continue;
        size_t rest = strongest(k, links, l, j, met | 1u << l);
        size_t path = links[i][l] < rest ? links[i][l] : rest;
        if (path > best)
            best = path;
    }
    return best;
}

/* The closing bytes of rankings, by Schulze's rule. */
static void count_rankings(size_t k, size_t n, const uint8_t *ballots, uint8_t *closing) {
    size_t preferred[8][8] = {{0}}, links[8][8] = {{0}};
    for (size_t b = 0; b < n; b++)
        for (size_t i = 0; i < k; i++)
            for (size_t j = 0; j < k; j++)
                preferred[i][j] += ballots[(b * k + i) * k + j];
    for (size_t i = 0; i < k; i++)
        for (size_t j = 0; j < k; j++)
            links[i][j] = preferred[i][j] > preferred[j][i] ? preferred[i][j] : 0;
    for (size_t i = 0; i < k; i++) {
        closing[i] = 1;
        for (size_t j = 0; j < k; j++)
            if (j != i && strongest(k, links, j, i, 1u << j) > strongest(k, links, i, j, 1u << i))
                closing[i] = 0;
    }
}

struct said reference_count(size_t k, size_t d, size_t n, const uint8_t *ballots, size_t length) {
    if (!shape_within(k, d, n))
        return refused(1, 0);
    struct said s = test_ballots(k, d, n, ballots, length);
    if (s.reason)
        return s;
    if (d == 0) {
        count_rankings(k, n, ballots, s.closing);
        return s;
    }
    size_t counts[8][7] = {{0}};
    for (size_t i = 0; i < length; i++)
        counts[i / d % k][i % d] += ballots[i];
    size_t sequences[8][255];
    for (size_t i = 0; i < k; i++)
        sequence_of(counts[i], d, n, sequences[i]);
    for (size_t i = 0; i < k; i++) {
        s.closing[i] = 1;
        for (size_t j = 0; j < k; j++)
            if (comes_before(sequences[j], sequences[i], n))
                s.closing[i] = 0;
    }
    return s;
}
