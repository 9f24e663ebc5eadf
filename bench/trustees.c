/* The tally by trustees: the library compared with the same work in C.
 *     trustees    prints TRUSTEES K D N GATES CORE_NS C_NS RATIO, a line for each, timed as timing.h says
 * First it compares what both publish. It includes all of core.c, for the tests of list, ballots and bits. */
#include "core.c"
#include "../tests/library_c/dealing.h"
#include "jury.h"
#include "timing.h"

static inline uint8_t opened(const uint8_t *table, size_t size, size_t t, size_t at) {
    uint8_t sum = 0;
    for (size_t p = 0; p < t; p++)
        sum ^= table[p * size + at];
    return sum;
}

static int dealing_is_good(size_t t, size_t I, size_t C, const uint8_t *ballots, const uint8_t *shares,
                           const uint8_t *triples) {
    if (first_above_one(shares, t * I) < t * I || first_above_one(triples, t * 3 * C) < t * 3 * C)
        return 0;
    for (size_t x = 0; x < I; x++)
        if (opened(shares, I, t, x) != ballots[x])
            return 0;
    for (size_t i = 0; i < C; i++)
        if (opened(triples, 3 * C, t, 3 * i + 2) !=
            (opened(triples, 3 * C, t, 3 * i) & opened(triples, 3 * C, t, 3 * i + 1)))
            return 0;
    return 1;
}

static inline uint8_t share_of_kind(size_t p, uint32_t kind, uint8_t a, uint8_t b, uint8_t c, uint8_t z) {
    switch (kind) {
    case 1: return p == 0;
    case 2: return a;
    case 3: return a ^ (p == 0);
    case 4: return z;
    case 5: return a ^ b ^ z;
    case 6: return a ^ b;
    case 7: return c ^ z;
    default: return 0;
    }
}

__attribute__((noinline)) static int tally(size_t k, size_t d, size_t n, const uint32_t *table, size_t gates,
                                           const uint8_t *ballots, size_t t, const uint8_t *shares,
                                           const uint8_t *triples, uint8_t *wires, uint8_t *published,
                                           size_t *closing) {
    struct outcome s = test(k, d, n, table, 4 * gates);
    size_t I = n * k * d, C = s.conditional, W = I + gates, D = 3 * C, P = 2 * C + k, i = 0;
    if (s.reason || test_ballots(k, d, n, ballots, I).reason || !dealing_is_good(t, I, C, ballots, shares, triples))
        return 0;
    for (size_t p = 0; p < t; p++)
        memcpy(wires + p * W, shares + p * I, I);
    for (size_t g = 0; g < gates; g++) {
        uint32_t kind = table[4 * g], a = table[4 * g + 1], b = table[4 * g + 2], c = table[4 * g + 3];
        if (kind_conditional[kind]) {
            uint8_t e = 0, f = 0;
            for (size_t p = 0; p < t; p++) {
                const uint8_t *w = wires + p * W, *u = triples + p * D + 3 * i;
                uint8_t x = w[a] ^ u[0], y = (kind == 7 ? w[b] ^ w[c] : w[b]) ^ u[1];
                published[p * P + 2 * i] = x;
                published[p * P + 2 * i + 1] = y;
                e ^= x;
                f ^= y;
            }
            for (size_t p = 0; p < t; p++) {
                uint8_t *w = wires + p * W;
                const uint8_t *u = triples + p * D + 3 * i;
                uint8_t z = u[2] ^ (e & u[1]) ^ (f & u[0]) ^ (p ? 0 : e & f);
                w[I + g] = share_of_kind(p, kind, w[a], w[b], w[c], z);
            }
            i++;
        } else
            for (size_t p = 0; p < t; p++) {
                uint8_t *w = wires + p * W;
                w[I + g] = share_of_kind(p, kind, w[a], w[b], w[c], 0);
            }
    }
    memset(closing, 0, 8 * sizeof *closing);
    for (size_t p = 0; p < t; p++)
        memcpy(published + p * P + 2 * C, wires + p * W + W - k, k);
    for (size_t j = 0; j < k; j++)
        closing[j] = opened(published, P, t, 2 * C + j);
    memset(wires, 0, t * W);
    return 1;
}

static const size_t shapes[][3] = {{2, 3, 3}, {5, 6, 100}, {8, 7, 255}};

static struct jury j;
static size_t trustees, sizes[4], closing[2][8];
static uint8_t *shares, *triples, *wires, *published[2];

enum { IN_C, CORE, WAYS };

static size_t call(int way) {
    size_t answer[JUGY_TRUSTEES_ANSWER], reason;
    if (way == IN_C)
        return !tally(j.k, j.d, j.n, j.table, j.gates, j.ballots, trustees, shares, triples, wires, published[way],
                      closing[way]);
    reason = jugy_trustees(j.k, j.d, j.n, j.table, 4 * j.gates, j.ballots, j.inputs, trustees, shares, sizes[0],
                           triples, sizes[1], wires, sizes[2], published[way], sizes[3], answer, JUGY_TRUSTEES_ANSWER);
    memcpy(closing[way], answer + 4, sizeof closing[way]);
    return reason;
}

static void times(size_t t) {
    struct timing of[WAYS];
    size_t each[4] = {j.inputs, 3 * j.marks, j.inputs + j.gates, 2 * j.marks + j.k};
    trustees = t;
    for (int i = 0; i < 4; i++)
        sizes[i] = t * each[i];
    shares = lent(sizes[0]), triples = lent(sizes[1]), wires = filled(sizes[2], 0);
    deal(t, j.ballots, j.inputs, j.marks, shares, triples);
    for (int way = 0; way < WAYS; way++) {
        published[way] = filled(sizes[3], 7);
        if (call(way))
            fail_at(&j, "refused");
    }
    if (memcmp(published[IN_C], published[CORE], sizes[3]) || memcmp(closing[IN_C], closing[CORE], sizeof *closing))
        fail_at(&j, "the two differ");
    take_turns(call, WAYS, MOST_ROUNDS, 5e-4, of);
    printf("%zu ", t), print_shape(&j);
    print_times(j.gates, of[CORE].least, of[IN_C].least, of[CORE].ratio);
    printf("\n");
    free(shares), free(triples), free(wires), free(published[IN_C]), free(published[CORE]);
}

int main(void) {
    for (size_t s = 0; s < sizeof shapes / sizeof *shapes; s++) {
        j = jury_of(shapes[s]);
        times(2);
        times(5);
        free_jury(&j);
    }
    return 0;
}
