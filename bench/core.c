#include "core.h"
#include "../tests/library_c/kinds.h"
#include <string.h>

struct outcome {
    size_t reason, place, gates, conditional;
};

static struct outcome refused(size_t reason, size_t place) { return (struct outcome){reason, place, 0, 0}; }

static size_t put(struct outcome s, size_t *answer) {
    answer[0] = s.reason;
    answer[1] = s.place;
    answer[2] = s.gates;
    answer[3] = s.conditional;
    return s.reason;
}

static int within(size_t k, size_t d, size_t n) { return 1 <= k && k <= 8 && 2 <= d && d <= 7 && 1 <= n && n <= 255; }

/* ---- writing: the circuit of crates/graded_circuit, gate for gate */

enum { ZERO, ONE, COPY, NOT, AND, OR, XOR, CHOICE };

enum { MOST_CANDIDATES = 8, MOST_GRADES = 7, MOST_DIGITS = 8 };

/* The counters have another type than the table's numbers. So the compiler knows that a store into the table does not
 * change them, and keeps them in registers. */
struct writer {
    uint32_t *next;
    size_t wire, conditional;
};

/* A sum has `digits` low digits and a top digit; a median grade's number has `places` low digits and a top digit. */
struct plan {
    uint32_t k, d, n, inputs, digits, places, offset, worst;
};

/* Each function that emits gates returns the wire of its result, or of the result's first digit. */
static inline uint32_t emit(struct writer *w, uint32_t kind, uint32_t a, uint32_t b, uint32_t c) {
    w->next[0] = kind;
    w->next[1] = a;
    w->next[2] = b;
    w->next[3] = c;
    w->next += 4;
    w->conditional += kind_conditional[kind];
    return (uint32_t)w->wire++;
}

static uint32_t full_adder(struct writer *w, uint32_t s, uint32_t u, uint32_t v) {
    uint32_t n = emit(w, XOR, s, u, 0);
    emit(w, XOR, n, v, 0);
    emit(w, CHOICE, n, v, s);
    return n + 1;
}

static uint32_t half_adder(struct writer *w, uint32_t s, uint32_t u, uint32_t e) {
    uint32_t n = emit(w, XOR, s, u, 0);
    emit(w, e ? NOT : COPY, n, 0, 0);
    emit(w, e ? OR : AND, s, u, 0);
    return n + 1;
}

static uint32_t increment(struct writer *w, uint32_t s) {
    uint32_t n = emit(w, NOT, s, 0, 0);
    emit(w, COPY, n, 0, 0);
    emit(w, COPY, s, 0, 0);
    return n + 1;
}

static uint32_t chain(struct writer *w, uint32_t kind, uint32_t last, uint32_t at, uint32_t stride, uint32_t left) {
    for (; left > 0; left--, at += stride)
        last = emit(w, kind, last, at, 0);
    return last;
}

static uint32_t choose(struct writer *w, uint32_t f, uint32_t x, uint32_t y, uint32_t digits) {
    uint32_t n = (uint32_t)w->wire;
    for (uint32_t i = 0; i < digits; i++)
        emit(w, CHOICE, f, x + i, y + i);
    return n;
}

/* Bits are counted by levels of adders: the carries of one level are the bits of the next. */
static uint32_t level(struct writer *w, uint32_t s, uint32_t at, uint32_t stride, uint32_t e, uint32_t left) {
    for (; left > 1; left -= 2, at += 2 * stride)
        s = full_adder(w, s, at, at + stride);
    if (left == 1)
        return half_adder(w, s, at, e);
    return e ? increment(w, s) : s;
}

static uint32_t adders_of(uint32_t count, uint32_t e) { return (count + e + 1) / 2; }

/* Puts the wire of each digit into `sums`, the lowest first. */
static void count_levels(struct writer *w, uint32_t at, uint32_t stride, uint32_t count, uint32_t extra,
                         uint32_t levels, uint32_t *sums) {
    for (uint32_t i = 0; i < levels; i++, extra /= 2) {
        uint32_t n = (uint32_t)w->wire;
        sums[i] = level(w, at, at + stride, stride, extra % 2, count - 1);
        at = n + 2;
        stride = 3;
        count = adders_of(count - 1, extra % 2);
    }
    sums[levels] = at;
}

/* A word of the key: gates of kind `low` for the low digits, and a gate of kind `top` for the top digit. */
static void key_word(struct writer *w, const uint32_t *sums, uint32_t digits, uint32_t low, uint32_t top) {
    for (uint32_t i = 0; i < digits; i++)
        emit(w, low, sums[i], 0, 0);
    emit(w, top, sums[digits], 0, 0);
}

/* The wires that a running sum counts: where they begin, and how far apart they are. */
struct row {
    uint32_t at, stride;
};

/* For each ballot, whether it gives one of the grades so far or the next one. It gives only one grade, so this is a sum
 * modulo 2. */
static struct row next_row(struct writer *w, struct row before, uint32_t bits, uint32_t stride, uint32_t n) {
    struct row next = {(uint32_t)w->wire, 1};
    for (uint32_t i = 0; i < n; i++)
        emit(w, XOR, before.at + i * before.stride, bits + i * stride, 0);
    return next;
}

/* A candidate's running sums, and its key: for each sum, the low digits and whether the median grade is worse. The last
 * sum follows from the count of the worst grade. */
static uint32_t candidate(struct writer *w, const struct plan *p, uint32_t c) {
    const uint32_t bits = c * p->d, stride = p->k * p->d, digits = p->digits, last = p->d - 2;
    uint32_t sums[MOST_GRADES][MOST_DIGITS];
    struct row rows[MOST_GRADES] = {{bits, stride}};
    for (uint32_t g = 1; g < last; g++)
        rows[g] = next_row(w, rows[g - 1], bits + g, stride, p->n);
    for (uint32_t g = 0; g < last; g++)
        count_levels(w, rows[g].at, rows[g].stride, p->n, p->offset, digits, sums[g]);
    count_levels(w, bits + p->d - 1, stride, p->n, p->worst, digits, sums[last]);
    uint32_t key = (uint32_t)w->wire;
    for (uint32_t g = 0; g < last; g++)
        key_word(w, sums[g], digits, COPY, NOT);
    key_word(w, sums[last], digits, NOT, COPY);
    return key;
}

/* For each digit, whether x and y differ in it. */
static uint32_t differences(struct writer *w, uint32_t x, uint32_t y, uint32_t digits) {
    uint32_t n = (uint32_t)w->wire;
    for (uint32_t i = 0; i < digits; i++)
        emit(w, XOR, x + i, y + i, 0);
    return n;
}

/* Whether x and y differ, whether their high halves differ, and where the wires for single digits begin. The high half
 * is the `high` highest digits, which are compared separately; if `high` is 0, there is only one half. */
struct difference {
    uint32_t any, in_high, digits;
};

static struct difference unequal(struct writer *w, uint32_t x, uint32_t y, uint32_t digits, uint32_t high) {
    uint32_t n = differences(w, x, y, digits), low = digits - high, in_low = chain(w, OR, n, n + 1, 1, low - 1);
    if (high == 0)
        return (struct difference){in_low, n, n};
    uint32_t in_high = chain(w, OR, n + low, n + low + 1, 1, high - 1);
    return (struct difference){emit(w, OR, in_high, in_low, 0), in_high, n};
}

/* Whether x and y differ, and if they do, whether x is larger or comes first. */
struct order {
    uint32_t differ, first;
};

/* x's digit at the highest place at which x and y differ, or its lowest digit if they are equal. */
static uint32_t above(struct writer *w, uint32_t differ, uint32_t x, uint32_t digits) {
    uint32_t last = x;
    for (uint32_t i = 1; i < digits; i++)
        last = emit(w, CHOICE, differ + i, x + i, last);
    return last;
}

static struct order versus(struct writer *w, uint32_t x, uint32_t y, uint32_t digits, uint32_t high) {
    struct difference differ = unequal(w, x, y, digits, high);
    uint32_t low = digits - high, first = above(w, differ.digits, x, low);
    if (high > 0) {
        uint32_t of_high = above(w, differ.digits + low, x + low, high);
        first = emit(w, CHOICE, differ.in_high, of_high, first);
    }
    return (struct order){differ.any, first};
}

/* Which of two rows of wires has more ones, if in each row all ones come first. The number of ones is compared digit by
 * digit: the lowest is the sum modulo 2 of all wires, the next one that of every second wire, and so on. */
static struct order compare_ones(struct writer *w, uint32_t x, uint32_t y, uint32_t stride, uint32_t count,
                                 uint32_t digits) {
    struct order so_far = {0, 0};
    for (uint32_t i = 0; i < digits; i++, count /= 2) {
        uint32_t left = chain(w, XOR, x, x + stride, stride, count - 1);
        uint32_t right = chain(w, XOR, y, y + stride, stride, count - 1), differ = emit(w, XOR, left, right, 0);
        if (i == 0) {
            so_far = (struct order){differ, left};
        } else {
            uint32_t either = emit(w, OR, so_far.differ, differ, 0);
            so_far = (struct order){either, emit(w, CHOICE, differ, left, so_far.first)};
        }
        x += stride;
        y += stride;
        stride *= 2;
    }
    return so_far;
}

/* One word of each of two keys. */
struct words {
    uint32_t x, y;
};

static struct words words_of(const struct plan *p, struct words keys, uint32_t grade) {
    uint32_t at = grade * (p->digits + 1);
    return (struct words){keys.x + at, keys.y + at};
}

static struct words either(struct writer *w, uint32_t f, struct words one, struct words other, uint32_t digits) {
    uint32_t x = choose(w, f, one.x, other.x, digits), y = choose(w, f, one.y, other.y, digits);
    return (struct words){x, y};
}

/* The words of the two grades nearest to the median at which the keys differ: one below it, one from it on. */
static void nearest(struct writer *w, const struct plan *p, struct words keys, uint32_t high, struct words *down,
                    struct words *up) {
    const uint32_t last = p->d - 2, digits = p->digits;
    uint32_t below[MOST_GRADES], from[MOST_GRADES];
    for (uint32_t g = 1; g < last; g++) {
        struct words here = words_of(p, keys, g);
        uint32_t differ = unequal(w, here.x, here.y, digits, high).any;
        below[g] = emit(w, AND, differ, here.x + digits, 0);
        from[g] = emit(w, XOR, differ, below[g], 0);
    }
    *down = keys;
    for (uint32_t g = 1; g < last; g++)
        *down = either(w, below[g], words_of(p, keys, g), *down, digits);
    *up = words_of(p, keys, last);
    for (uint32_t g = last - 1; g > 0; g--)
        *up = either(w, from[g], words_of(p, keys, g), *up, digits);
}

/* The carry out of the high half of a sum: that of the low half if all digits of x and y differ, else the digit at the
 * highest place at which they are equal. */
static uint32_t high_reach(struct writer *w, uint32_t x, uint32_t y, uint32_t carry, uint32_t digits) {
    uint32_t n = differences(w, x, y, digits), own = x;
    for (uint32_t i = 1; i < digits; i++)
        own = emit(w, CHOICE, n + i, own, x + i);
    uint32_t passes = chain(w, AND, n, n + 1, 1, digits - 1);
    return emit(w, CHOICE, passes, carry, own);
}

/* Whether the sum of x, y and the bit e has one digit more than x and y. */
static uint32_t reach(struct writer *w, uint32_t x, uint32_t y, uint32_t e, uint32_t digits) {
    uint32_t low = digits / 2, carry = emit(w, e ? OR : AND, x, y, 0);
    if (digits == 1)
        return carry;
    for (uint32_t i = 1; i < low; i++) {
        uint32_t differ = emit(w, XOR, x + i, y + i, 0);
        carry = emit(w, CHOICE, differ, carry, x + i);
    }
    return high_reach(w, x + low, y + low, carry, digits - low);
}

/* If the medians differ, they decide. Otherwise the upper of the two nearest differences decides, or the lower if there
 * is no upper one. If there are both, and they point in opposite directions, the one that is struck first decides. */
static struct order resolve(struct writer *w, struct order medians, struct order lower, struct order upper,
                            uint32_t lower_first) {
    uint32_t both_differ = emit(w, AND, lower.differ, upper.differ, 0);
    uint32_t just_one = emit(w, XOR, lower.differ, upper.differ, 0);
    uint32_t one_differs = emit(w, XOR, just_one, both_differ, 0);
    uint32_t by_upper = emit(w, CHOICE, upper.differ, upper.first, lower.first);
    uint32_t opposite = emit(w, XOR, lower.first, upper.first, 0);
    uint32_t same_medians = emit(w, NOT, medians.differ, 0, 0);
    uint32_t opposite_there = emit(w, AND, opposite, same_medians, 0);
    uint32_t both_and_opposite = emit(w, AND, both_differ, opposite_there, 0);
    uint32_t by_lower = emit(w, AND, both_and_opposite, lower_first, 0);
    uint32_t first = emit(w, CHOICE, medians.differ, medians.first, by_upper);
    uint32_t differ = emit(w, OR, medians.differ, one_differs, 0);
    return (struct order){differ, emit(w, XOR, first, by_lower, 0)};
}

/* If the medians are equal, the two nearest differences decide. A chosen word is compared in halves, because all its
 * digits are known at once. */
static struct order tie_break(struct writer *w, const struct plan *p, struct words keys, struct order medians,
                            uint32_t high) {
    const uint32_t digits = p->digits, best = keys.x + digits, last = words_of(p, keys, p->d - 2).x + digits;
    const uint32_t cut = p->d == 3 ? high : digits / 2;
    struct words down, up;
    nearest(w, p, keys, high, &down, &up);
    struct order lower = versus(w, down.x, down.y, digits, cut), upper = versus(w, up.x, up.y, digits, cut);
    uint32_t reach_x = reach(w, down.x, up.x, p->n % 2, digits);
    uint32_t reach_y = reach(w, down.y, up.y, p->n % 2, digits);
    uint32_t reached = emit(w, CHOICE, lower.first, reach_x, reach_y);
    uint32_t all_from_median = emit(w, NOT, best, 0, 0);
    uint32_t both_sides = emit(w, XOR, best, last, 0);
    uint32_t lower_first = emit(w, CHOICE, both_sides, reached, all_from_median);
    return resolve(w, medians, lower, upper, lower_first);
}

/* In every case the last two wires are the answer. */
static struct order below_medians(struct writer *w, const struct plan *p, struct words keys, struct order medians,
                                  uint32_t high) {
    if (p->d > 2 && p->digits > 0)
        return tie_break(w, p, keys, medians, high);
    uint32_t differ, first;
    if (p->digits == 0) {
        differ = emit(w, COPY, medians.differ, 0, 0);
        first = emit(w, COPY, medians.first, 0, 0);
    } else {
        struct order sums = versus(w, keys.x, keys.y, p->digits, high);
        differ = emit(w, OR, medians.differ, sums.differ, 0);
        first = emit(w, CHOICE, medians.differ, medians.first, sums.first);
    }
    return (struct order){differ, first};
}

static struct order contest(struct writer *w, const struct plan *p, struct words keys, uint32_t high) {
    const uint32_t digits = p->digits;
    struct order medians =
        compare_ones(w, keys.y + digits, keys.x + digits, digits + 1, p->d - 1, p->places + 1);
    return below_medians(w, p, keys, medians, high);
}

/* A group of candidates: the key of the best, and, if there are several, a wire for each that says whether it is as
 * good. */
struct group {
    uint32_t size, key, won;
};

static void keep_winners(struct writer *w, struct group g, uint32_t stays) {
    if (g.size == 1)
        emit(w, COPY, stays, 0, 0);
    else
        for (uint32_t i = 0; i < g.size; i++)
            emit(w, AND, g.won + i, stays, 0);
}

/* With more than two candidates a key was chosen by an earlier merge, and is compared in halves. The key of the result
 * is not chosen here, because the last merge needs none. */
static struct order merge(struct writer *w, const struct plan *p, struct group x, struct group y, struct group *both) {
    uint32_t high = x.size + y.size > 2 ? p->digits / 2 : 0;
    struct order keys = contest(w, p, (struct words){x.key, y.key}, high);
    uint32_t x_first = emit(w, AND, keys.differ, keys.first, 0);
    uint32_t y_stays = emit(w, NOT, x_first, 0, 0);
    uint32_t x_stays = emit(w, XOR, keys.differ, y_stays, 0);
    *both = (struct group){x.size + y.size, 0, (uint32_t)w->wire};
    keep_winners(w, x, x_stays);
    keep_winners(w, y, y_stays);
    return keys;
}

static uint32_t key_gates(const struct plan *p) { return (p->d - 1) * (p->digits + 1); }

static struct group best_of(struct writer *w, const struct plan *p, const uint32_t *keys, uint32_t size) {
    if (size == 1)
        return (struct group){1, keys[0], 0};
    struct group x = best_of(w, p, keys, size / 2), y = best_of(w, p, keys + size / 2, size - size / 2), both;
    struct order order = merge(w, p, x, y, &both);
    if (size < p->k)
        both.key = choose(w, order.first, x.key, y.key, key_gates(p));
    return both;
}

static void circuit(struct writer *w, const struct plan *p) {
    uint32_t keys[MOST_CANDIDATES];
    for (uint32_t c = 0; c < p->k; c++)
        keys[c] = candidate(w, p, c);
    best_of(w, p, keys, p->k);
}

/* G only, for the test of the table's length: each function counts the gates of the part that it is named after. */
static size_t levels_gates(uint32_t count, uint32_t extra, uint32_t levels) {
    size_t gates = 0;
    for (uint32_t i = 0; i < levels; i++, extra /= 2) {
        count = adders_of(count - 1, extra % 2);
        gates += 3 * count;
    }
    return gates;
}

static size_t candidate_gates(const struct plan *p) {
    size_t rows = p->d == 2 ? 0 : p->d - 3;
    return rows * p->n + (p->d - 2) * levels_gates(p->n, p->offset, p->digits)
           + levels_gates(p->n, p->worst, p->digits) + key_gates(p);
}

static size_t versus_gates(uint32_t digits) { return 3 * digits - 2; }

static size_t reach_gates(uint32_t digits) { return 3 * digits - digits / 2 - 2; }

static size_t below_medians_gates(const struct plan *p) {
    if (p->digits == 0)
        return 2;
    if (p->d == 2)
        return versus_gates(p->digits) + 2;
    size_t side = 2 * p->digits + 1, chosen = 4 * p->digits, resolved = 16;
    return (p->d - 3) * (side + chosen) + 2 * versus_gates(p->digits) + 2 * reach_gates(p->digits) + resolved;
}

static size_t contest_gates(const struct plan *p) {
    size_t medians = 0;
    for (uint32_t count = p->d - 1; count > 0; count /= 2)
        medians += 2 * count + 1;
    return medians - 2 + below_medians_gates(p);
}

static size_t flag_gates(uint32_t size) {
    return size == 1 ? 0 : flag_gates(size / 2) + flag_gates(size - size / 2) + size;
}

static size_t list_gates(const struct plan *p) {
    return p->k * candidate_gates(p) + (p->k - 1) * (contest_gates(p) + 3) + flag_gates(p->k)
           + (p->k - 2) * key_gates(p);
}

static uint32_t low_digits(uint32_t m) {
    uint32_t digits = 0;
    for (; m > 1; m /= 2)
        digits++;
    return digits;
}

static struct plan plan_of(uint32_t k, uint32_t d, uint32_t n) {
    uint32_t digits = low_digits(n), most = 1u << digits;
    return (struct plan){k, d, n, n * k * d, digits, low_digits(d - 1), most - (n + 1) / 2, most - 1 - n / 2};
}

size_t core_write(size_t k, size_t d, size_t n, uint32_t *table, size_t table_length, size_t *answer,
                  size_t answer_length) {
    if (answer_length < 4)
        return 255;
    if (!within(k, d, n))
        return put(refused(1, 0), answer);
    struct plan p = plan_of((uint32_t)k, (uint32_t)d, (uint32_t)n);
    if (table_length / 4 < (k == 1 ? 1 : list_gates(&p)))
        return put(refused(2, 0), answer);
    struct writer w = {table, p.inputs, 0};
    if (k == 1)
        emit(&w, ONE, 0, 0, 0);
    else
        circuit(&w, &p);
    return put((struct outcome){0, 0, w.wire - p.inputs, w.conditional}, answer);
}

/* ---- testing */

static int good_operand(int used, uint32_t x, size_t own) { return used ? x < own : x == 0; }

static struct outcome test(size_t k, size_t d, size_t n, const uint32_t *table, size_t length) {
    if (!within(k, d, n))
        return refused(1, 0);
    size_t gates = length / 4, own = n * k * d;
    if (length % 4 || gates < k || gates > 1048576)
        return refused(2, 0);
    struct outcome s = {0, 0, gates, 0};
    for (size_t g = 0; g < gates; g++, own++) {
        const uint32_t *gate = table + 4 * g;
        if (gate[0] >= KINDS)
            return refused(3, g);
        uint32_t count = kind_operands[gate[0]];
        if (!good_operand(count > 0, gate[1], own) || !good_operand(count > 1, gate[2], own)
            || !good_operand(count > 2, gate[3], own))
            return refused(3, g);
        s.conditional += kind_conditional[gate[0]];
    }
    return s;
}

size_t core_test(size_t k, size_t d, size_t n, const uint32_t *table, size_t table_length, size_t *answer,
                 size_t answer_length) {
    if (answer_length < 4)
        return 255;
    return put(test(k, d, n, table, table_length), answer);
}

/* ---- running */

static size_t first_above_one(const uint8_t *bytes, size_t length) {
    for (size_t i = 0; i < length; i++)
        if (bytes[i] > 1)
            return i;
    return length;
}

/* Reasons 4 to 6, or reason 0 if the ballots are accepted. */
static struct outcome test_ballots(size_t k, size_t d, size_t n, const uint8_t *ballots, size_t length) {
    if (length != n * k * d)
        return refused(4, 0);
    size_t bad = first_above_one(ballots, length);
    if (bad < length)
        return refused(5, bad);
    for (size_t row = 0; row < n * k; row++) {
        size_t ones = 0;
        for (size_t g = 0; g < d; g++)
            ones += ballots[row * d + g] == 1;
        if (ones != 1)
            return refused(6, row);
    }
    return refused(0, 0);
}

static uint8_t value(uint32_t kind, uint8_t a, uint8_t b, uint8_t c) {
    switch (kind) {
    case 0: return 0;
    case 1: return 1;
    case 2: return a;
    case 3: return a == 0;
    case 4: return a < b ? a : b;
    case 5: return a < b ? b : a;
    case 6: return a != b;
    default: return a == 0 ? c : b;
    }
}

/* Reasons 7 to 10 of a run whose list has been tested; if none applies, the outcome of that test. */
static struct outcome test_buffers(struct outcome s, size_t k, size_t inputs, const uint8_t *tape, size_t tape_length,
                             size_t wires_length, size_t board_length) {
    if (tape_length != s.conditional)
        return refused(7, 0);
    size_t bad = first_above_one(tape, tape_length);
    if (bad < tape_length)
        return refused(8, bad);
    if (wires_length != inputs + s.gates)
        return refused(9, 0);
    return board_length == s.conditional + k ? s : refused(10, 0);
}

/* Evaluates the gates on the ballots, which are the first wires; fills the board and empties the wires. */
static void evaluate(struct outcome s, size_t k, size_t inputs, const uint32_t *table, const uint8_t *tape,
                     uint8_t *wires, uint8_t *board) {
    size_t shown = 0;
    for (size_t g = 0; g < s.gates; g++) {
        const uint32_t *gate = table + 4 * g;
        uint8_t a = wires[gate[1]];
        wires[inputs + g] = value(gate[0], a, wires[gate[2]], wires[gate[3]]);
        if (kind_conditional[gate[0]]) {
            board[shown] = (a + tape[shown]) % 2;
            shown++;
        }
    }
    memcpy(board + shown, wires + inputs + s.gates - k, k);
    memset(wires, 0, inputs + s.gates);
}

size_t core_run(size_t k, size_t d, size_t n, const uint32_t *table, size_t table_length, const uint8_t *ballots,
                size_t ballots_length, const uint8_t *tape, size_t tape_length, uint8_t *wires, size_t wires_length,
                uint8_t *board, size_t board_length, size_t *answer, size_t answer_length) {
    if (answer_length < 4)
        return 255;
    struct outcome s = test(k, d, n, table, table_length);
    if (s.reason)
        return put(s, answer);
    struct outcome b = test_ballots(k, d, n, ballots, ballots_length);
    if (b.reason)
        return put(b, answer);
    s = test_buffers(s, k, ballots_length, tape, tape_length, wires_length, board_length);
    if (s.reason)
        return put(s, answer);
    memcpy(wires, ballots, ballots_length);
    evaluate(s, k, ballots_length, table, tape, wires, board);
    return put(s, answer);
}

/* ---- counting */

/* Whether a candidate with the counts a comes before one with the counts b. Of the two differences of running sums that
 * are nearest to half of n, one below it and one from it on, the one that is struck first decides. */
static int comes_before(const uint16_t *a, const uint16_t *b, size_t d, size_t n) {
    size_t x = 0, y = 0, lower_x = 0, lower_y = 0;
    for (size_t g = 0; g < d; g++) {
        x += a[g];
        y += b[g];
        if (x == y)
            continue;
        if (n <= 2 * x || n <= 2 * y) {
            if (lower_x > lower_y)
                return x >= y || lower_x + x >= n;
            if (lower_x < lower_y)
                return x > y && lower_y + y < n;
            return x > y;
        }
        lower_x = x;
        lower_y = y;
    }
    return lower_x > lower_y;
}

size_t core_count(size_t k, size_t d, size_t n, const uint8_t *ballots, size_t ballots_length, size_t *answer,
                  size_t answer_length) {
    if (answer_length < 10)
        return 255;
    struct outcome s = within(k, d, n) ? test_ballots(k, d, n, ballots, ballots_length) : refused(1, 0);
    answer[0] = s.reason;
    answer[1] = s.place;
    for (size_t i = 0; i < 8; i++)
        answer[2 + i] = 0;
    if (s.reason)
        return s.reason;
    uint16_t counts[8][7] = {{0}};
    for (size_t b = 0; b < n; b++)
        for (size_t c = 0; c < k; c++)
            for (size_t g = 0; g < d; g++)
                counts[c][g] += ballots[(b * k + c) * d + g];
    size_t first = 0;
    for (size_t c = 1; c < k; c++)
        if (comes_before(counts[c], counts[first], d, n))
            first = c;
    for (size_t c = 0; c < k; c++)
        answer[2 + c] = !memcmp(counts[c], counts[first], d * sizeof *counts[c]);
    return 0;
}
