/* Compares the calls on an urn with the tests' reference in C.
 *   urn times    prints OP K D SLOTS BALLOTS CORE_NS C_NS RATIO, a line for each, timed as timing.h says
 *   urn counts   makes one call of each, with a callgrind dump labelled OP-K-D-SLOTS-WHO
 * First it compares the answers and urns of both. Half of the slots hold ballots; the withdrawn juror is the last in
 * the chain. After each timed call, the slots that it may have changed are restored, for both alike. */
#include "../c/jugyvaros.h"
#include "../tests/library_c/urn_reference.h"
#include "timing.h"
#include <string.h>

static const size_t slot_counts[] = {2, 100, 256};

enum { EMPTY, ADMIT, WITHDRAW, PREVIEW_ADMIT, PREVIEW_WITHDRAW, OPS };
static const char *const ops[OPS] = {"empty", "admit", "withdraw", "preview_admit", "preview_withdraw"};

enum { IN_C, CORE, WAYS };
static const char *const names[WAYS] = {"c", "core"};

enum { K = 5, D = 5, SIZE = 2 + K * D, LAST_JUROR = 1, NEW_JUROR = 255 };

static size_t slots, ballots, length, answer[JUGY_URN_ANSWER];
static uint8_t urn[256 * SIZE], before[256 * SIZE], ballot[K * D];
static int op;

static size_t call(int way) {
    int in_c = way == IN_C;
    switch (op) {
    case EMPTY: return (in_c ? urn_empty : jugy_empty_urn)(K, D, urn, length, answer, JUGY_URN_ANSWER);
    case ADMIT:
        return (in_c ? urn_admit : jugy_admit)(K, D, urn, length, NEW_JUROR, ballot, K * D, answer, JUGY_URN_ANSWER);
    case WITHDRAW: return (in_c ? urn_withdraw : jugy_withdraw)(K, D, urn, length, LAST_JUROR, answer, JUGY_URN_ANSWER);
    case PREVIEW_ADMIT:
        return (in_c ? urn_preview_admit : jugy_preview_admit)(K, D, urn, length, NEW_JUROR, ballot, K * D, answer,
                                                               JUGY_URN_ANSWER);
    default:
        return (in_c ? urn_preview_withdraw : jugy_preview_withdraw)(K, D, urn, length, LAST_JUROR, answer,
                                                                     JUGY_URN_ANSWER);
    }
}

/* Restores slot 0 and, after an admission, the slot that it took; after a withdrawal, slot 1, which held the last
 * juror's ballot, and slot 2, which is before it in the chain. */
static void put_back(void) {
    size_t touched[3] = {0, op == ADMIT ? before[1] : 1, 2};
    if (op == ADMIT || op == WITHDRAW)
        for (int i = 0; i < 3; i++)
            if (touched[i] < slots)
                memcpy(urn + touched[i] * SIZE, before + touched[i] * SIZE, SIZE);
}

static size_t call_and_put_back(int way) {
    size_t reason = call(way);
    put_back();
    return reason;
}

static void fail(const char *why) {
    fprintf(stderr, "bench/urn: %s, %s at %zu slots\n", why, ops[op], slots);
    exit(1);
}

static void set_up(size_t count) {
    slots = count, length = slots * SIZE, ballots = op == ADMIT || op == PREVIEW_ADMIT ? (slots - 1) / 2 : slots / 2;
    for (size_t row = 0; row < K; row++)
        memset(ballot + row * D, 0, D), ballot[row * D + row % D] = 1;
    if (urn_empty(K, D, urn, length, answer, JUGY_URN_ANSWER))
        fail("no urn");
    for (size_t juror = LAST_JUROR; juror < LAST_JUROR + ballots; juror++)
        if (urn_admit(K, D, urn, length, juror, ballot, K * D, answer, JUGY_URN_ANSWER))
            fail("not admitted");
    memcpy(before, urn, length);
    size_t outcome[JUGY_URN_ANSWER];
    uint8_t after[sizeof urn];
    if (call(IN_C))
        fail("C refuses");
    memcpy(outcome, answer, sizeof outcome), memcpy(after, urn, length), memcpy(urn, before, length);
    if (call(CORE))
        fail("the core refuses");
    if (memcmp(outcome, answer, sizeof outcome) || memcmp(after, urn, length))
        fail("the two differ");
    put_back();
    if (op != EMPTY && memcmp(urn, before, length))
        fail("not put back");
}

static void times(size_t count) {
    struct timing of[WAYS];
    set_up(count);
    take_turns(call_and_put_back, WAYS, MOST_ROUNDS, 2e-4, of);
    printf("%s %d %d %zu", ops[op], K, D, slots);
    print_times(ballots, of[CORE].least, of[IN_C].least, of[CORE].ratio);
    printf("\n");
}

static void counts(size_t count) {
    for (int way = 0; way < WAYS; way++) {
        char label[64];
        set_up(count);
        snprintf(label, sizeof label, "%s-%d-%d-%zu-%s", ops[op], K, D, slots, names[way]);
        counted(call, way, label);
    }
}

int main(int argc, char **argv) {
    void (*each)(size_t) = argc == 2 && !strcmp(argv[1], "times")    ? times
                           : argc == 2 && !strcmp(argv[1], "counts") ? counts
                                                                     : NULL;
    if (!each)
        return 2;
    for (op = 0; op < OPS; op++)
        for (size_t i = 0; i < sizeof slot_counts / sizeof *slot_counts; i++)
            each(slot_counts[i]);
    return 0;
}
