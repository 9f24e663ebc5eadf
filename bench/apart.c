/* A trustee on its own machine compared with the single call, timed as timing.h says.
 *     apart K D N    prints the microseconds of jugy_trustees for 3 trustees, of one trustee's start and rounds 0 to R,
 *                    and of jugy_levels
 * A trustee makes a call for each round, with all the tests, so its work costs more than a third of the single call. */
#include "jury.h"
#include "../tests/library_c/dealing.h"
#include "timing.h"
#include <string.h>

enum { TRUSTEES = 3 };

enum { TOGETHER, APART, LEVELS, WAYS };

static struct jury j;
static size_t own, each, rounds;
static uint32_t *levels;
static uint8_t *shares, *triples, *wires, *published, *all_wires, *all_published, *heard;

static size_t together(void) {
    size_t answer[JUGY_TRUSTEES_ANSWER];
    return jugy_trustees(j.k, j.d, j.n, j.table, 4 * j.gates, j.ballots, j.inputs, TRUSTEES, shares,
                         TRUSTEES * j.inputs, triples, TRUSTEES * 3 * j.marks, all_wires, TRUSTEES * own, all_published,
                         TRUSTEES * each, answer, JUGY_TRUSTEES_ANSWER);
}

/* Trustee p, with the final sums of the single call in every round: a round does not read sums that are not due yet. */
static size_t alone(size_t p) {
    size_t answer[JUGY_LEVELS_ANSWER];
    const uint8_t *mine = triples + 3 * j.marks * p;
    size_t reason = jugy_trustee_start(j.k, j.d, j.n, j.table, 4 * j.gates, TRUSTEES, p, shares + j.inputs * p,
                                       j.inputs, mine, 3 * j.marks, wires, own, published, each, answer,
                                       JUGY_LEVELS_ANSWER);
    for (size_t r = 0; r <= rounds && !reason; r++)
        reason = jugy_trustee_round(j.k, j.d, j.n, j.table, 4 * j.gates, TRUSTEES, p, r, levels, j.gates, mine,
                                    3 * j.marks, heard, 2 * j.marks, wires, own, published, each, answer,
                                    JUGY_LEVELS_ANSWER);
    return reason;
}

static size_t call(int way) {
    size_t answer[JUGY_LEVELS_ANSWER];
    if (way == TOGETHER)
        return together();
    if (way == APART)
        return alone(0);
    return jugy_levels(j.k, j.d, j.n, j.table, 4 * j.gates, levels, j.gates, answer, JUGY_LEVELS_ANSWER);
}

int main(int count, char **words) {
    size_t answer[JUGY_LEVELS_ANSWER];
    struct timing of[WAYS];
    if (count != 4)
        return 2;
    j = jury_of((size_t[]){strtoul(words[1], 0, 10), strtoul(words[2], 0, 10), strtoul(words[3], 0, 10)});
    own = j.inputs + j.gates, each = 2 * j.marks + j.k;
    levels = (uint32_t *)filled(4 * j.gates, 0);
    shares = lent(TRUSTEES * j.inputs), triples = lent(TRUSTEES * 3 * j.marks);
    wires = filled(own, 0), published = filled(each, 0), heard = filled(2 * j.marks, 0);
    all_wires = filled(TRUSTEES * own, 0), all_published = filled(TRUSTEES * each, 0);
    deal(TRUSTEES, j.ballots, j.inputs, j.marks, shares, triples);
    if (jugy_levels(j.k, j.d, j.n, j.table, 4 * j.gates, levels, j.gates, answer, JUGY_LEVELS_ANSWER) || together())
        fail_at(&j, "refused");
    rounds = answer[4];
    for (size_t p = 0; p < TRUSTEES; p++)
        for (size_t i = 0; i < 2 * j.marks; i++)
            heard[i] ^= all_published[p * each + i];
    for (size_t p = 0; p < TRUSTEES; p++)
        if (alone(p) || memcmp(published, all_published + p * each, each))
            fail_at(&j, "one trustee publishes other bits than in the single call");
    take_turns(call, WAYS, 21, 1e-3, of);
    printf("%zu %zu %zu: 3 trustees in one call %.1f us; one of them apart %.1f us in %zu rounds; levels %.1f us\n",
           j.k, j.d, j.n, 1e6 * of[TOGETHER].least, 1e6 * of[APART].least, rounds + 1, 1e6 * of[LEVELS].least);
    return 0;
}
