#include "trustees_reference.h"
#include "kinds.h"
#include "lent.h"

enum { MOST_TRUSTEES = 5 };

/* What one trustee knows and does. */
struct trustee {
    int is_first;
    uint8_t *held;          /* its share of every wire so far */
    const uint8_t *triples; /* its shares of u, v and u v for each conditional gate */
    uint8_t *says;          /* what it publishes */
};

static struct said refused(size_t reason) { return (struct said){reason, 0, 0, 0, {0}}; }

/* The sum modulo 2, over all pieces, of the bits at one place. */
static uint8_t sum(const uint8_t *pieces, size_t size, size_t trustees, size_t at) {
    size_t total = 0;
    for (size_t p = 0; p < trustees; p++)
        total += pieces[p * size + at];
    return total % 2;
}

/* Whether every share is a bit, the shares of a ballot byte add up to it, and those of u v to the product of the sums
 * for u and v. */
static int deals(size_t trustees, const uint8_t *ballots, size_t inputs, size_t conditional, const uint8_t *shares,
                 const uint8_t *triples) {
    size_t size = 3 * conditional;
    for (size_t i = 0; i < trustees * inputs; i++)
        if (shares[i] > 1)
            return 0;
    for (size_t i = 0; i < trustees * size; i++)
        if (triples[i] > 1)
            return 0;
    for (size_t i = 0; i < inputs; i++)
        if (sum(shares, inputs, trustees, i) != ballots[i])
            return 0;
    for (size_t i = 0; i < size; i += 3)
        if (sum(triples, size, trustees, i + 2) !=
            sum(triples, size, trustees, i) * sum(triples, size, trustees, i + 1))
            return 0;
    return 1;
}

/* A trustee's shares of the two factors of a conditional gate: of a; and of b, or of b plus c if the kind is 7. */
static void factors(const struct trustee *who, const uint32_t *gate, uint8_t *factor) {
    factor[0] = who->held[gate[1]];
    factor[1] = gate[0] == 7 ? (who->held[gate[2]] + who->held[gate[3]]) % 2 : who->held[gate[2]];
}

/* A trustee's share of the product, from the two opened sums. */
static uint8_t product(const struct trustee *who, size_t i, const uint8_t *opened) {
    const uint8_t *triple = who->triples + 3 * i;
    uint8_t bit = triple[2] + opened[0] * triple[1] + opened[1] * triple[0];
    return (who->is_first ? bit + opened[0] * opened[1] : bit) % 2;
}

/* A trustee's share of a gate's wire; z is its share of the product, if the gate has one. */
static uint8_t own_bit(const struct trustee *who, const uint32_t *gate, uint8_t z) {
    const uint8_t *held = who->held;
    switch (gate[0]) {
    case 0: return 0;
    case 1: return who->is_first ? 1 : 0;
    case 2: return held[gate[1]];
    case 3: return who->is_first ? 1 - held[gate[1]] : held[gate[1]];
    case 4: return z;
    case 5: return (held[gate[1]] + held[gate[2]] + z) % 2; /* a or b is a plus b plus their product */
    case 6: return (held[gate[1]] + held[gate[2]]) % 2;
    default: return (held[gate[3]] + z) % 2; /* c plus a times (b plus c) */
    }
}

/* All trustees publish their masked factors of conditional gate i; the sums are opened. */
static void publish(struct trustee *trustees, size_t t, const uint32_t *gate, size_t i, uint8_t *opened) {
    opened[0] = opened[1] = 0;
    for (size_t p = 0; p < t; p++) {
        uint8_t factor[2];
        factors(&trustees[p], gate, factor);
        for (size_t j = 0; j < 2; j++) {
            trustees[p].says[2 * i + j] = (factor[j] + trustees[p].triples[3 * i + j]) % 2;
            opened[j] = (opened[j] + trustees[p].says[2 * i + j]) % 2;
        }
    }
}

static void evaluate(struct trustee *trustees, size_t t, const uint32_t *table, size_t gates, size_t inputs) {
    size_t i = 0;
    for (size_t g = 0; g < gates; g++) {
        const uint32_t *gate = table + 4 * g;
        int is_conditional = kind_conditional[gate[0]];
        uint8_t opened[2] = {0, 0};
        if (is_conditional)
            publish(trustees, t, gate, i, opened);
        for (size_t p = 0; p < t; p++)
            trustees[p].held[inputs + g] =
                own_bit(&trustees[p], gate, is_conditional ? product(&trustees[p], i, opened) : 0);
        i += is_conditional;
    }
}

struct said reference_trustees(size_t k, size_t d, size_t n, const uint32_t *table, size_t table_length,
                               const uint8_t *ballots, size_t ballots_length, size_t trustees, const uint8_t *shares,
                               size_t shares_length, const uint8_t *triples, size_t triples_length, uint8_t *wires,
                               size_t wires_length, uint8_t *published, size_t published_length) {
    struct said s = reference_jury(k, d, n, table, table_length, ballots, ballots_length);
    if (s.reason)
        return s;
    if (trustees < 2 || trustees > MOST_TRUSTEES)
        return refused(16);
    size_t inputs = ballots_length, all = inputs + s.gates, each = 2 * s.conditional + k;
    if (shares_length != trustees * inputs || triples_length != trustees * 3 * s.conditional ||
        wires_length != trustees * all || published_length != trustees * each)
        return refused(17);
    if (!deals(trustees, ballots, inputs, s.conditional, shares, triples))
        return refused(18);
    struct trustee who[MOST_TRUSTEES];
    for (size_t p = 0; p < trustees; p++) {
        who[p] = (struct trustee){p == 0, lent(all), triples + p * 3 * s.conditional, published + p * each};
        memcpy(who[p].held, shares + p * inputs, inputs);
    }
    evaluate(who, trustees, table, s.gates, inputs);
    for (size_t p = 0; p < trustees; p++) {
        memcpy(who[p].says + 2 * s.conditional, who[p].held + all - k, k);
        free(who[p].held);
    }
    for (size_t j = 0; j < k; j++)
        s.closing[j] = sum(published, each, trustees, 2 * s.conditional + j);
    memset(wires, 0, wires_length);
    return s;
}
