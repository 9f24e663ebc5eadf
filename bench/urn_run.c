/* Compares a run on an urn with the same work in C.
 *     urn_run    prints K D N GATES CORE_NS C_NS RATIO RUN_RATIO, a line for each, timed as timing.h says; RUN_RATIO
 *                compares jugy_run on the same ballots with the same C
 * First it compares the wire tables and boards of all. The urn has one free slot, and its chain goes through the slots
 * backwards. It includes all of core.c, for the tests and the gates; the tests' reference looks through the urn. */
#include "core.c"
#include "../tests/library_c/urn_reference.h"
#include "jury.h"
#include "timing.h"

static const size_t shapes[][3] = {{2, 3, 3}, {3, 4, 10}, {5, 5, 31}, {5, 6, 100}, {8, 7, 254}};

static size_t core_run_urn(size_t k, size_t d, size_t n, const uint32_t *table, size_t table_length, const uint8_t *urn,
                           size_t urn_length, const uint8_t *tape, size_t tape_length, uint8_t *wires,
                           size_t wires_length, uint8_t *board, size_t board_length, size_t *answer,
                           size_t answer_length) {
    if (answer_length < 4)
        return 255;
    if (!within(k, d, n))
        return put(refused(1, 0), answer);
    size_t ballots = urn_ballots(k, d, urn, urn_length), inputs = n * k * d;
    if (ballots == UNSOUND_URN)
        return put(refused(13, 0), answer);
    struct outcome s = test(k, d, n, table, table_length);
    if (s.reason)
        return put(s, answer);
    if (ballots != n)
        return put(refused(4, 0), answer);
    s = test_buffers(s, k, inputs, tape, tape_length, wires_length, board_length);
    if (s.reason)
        return put(s, answer);
    uint8_t *to = wires;
    for (size_t slot = urn[0]; slot; slot = urn[slot * (2 + k * d)], to += k * d)
        memcpy(to, urn + slot * (2 + k * d) + 2, k * d);
    evaluate(s, k, inputs, table, tape, wires, board);
    return put(s, answer);
}

static struct jury j;
static size_t length;
static uint8_t *urn;

enum { IN_C, CORE, PLAIN, WAYS };

static size_t call(int way) {
    size_t answer[JUGY_RUN_ANSWER];
    if (way == PLAIN)
        return run(&j);
    return (way == IN_C ? core_run_urn : jugy_run_urn)(j.k, j.d, j.n, j.table, 4 * j.gates, urn, length, j.tape,
                                                       j.marks, j.wires, j.inputs + j.gates, j.board, j.marks + j.k,
                                                       answer, JUGY_RUN_ANSWER);
}

static void set_up(const size_t *shape) {
    size_t outcome[JUGY_URN_ANSWER];
    j = jury_of(shape);
    length = (j.n + 2) * (2 + j.k * j.d), urn = lent(length);
    if (jugy_empty_urn(j.k, j.d, urn, length, outcome, JUGY_URN_ANSWER))
        fail_at(&j, "no urn");
    /* the last to be admitted comes first */
    for (size_t i = j.n; i--;)
        if (jugy_admit(j.k, j.d, urn, length, i + 1, j.ballots + i * j.k * j.d, j.k * j.d, outcome, JUGY_URN_ANSWER))
            fail_at(&j, "not admitted");
    uint8_t *board = NULL, *zeros = filled(j.inputs + j.gates, 0);
    for (int way = 0; way < WAYS; way++) {
        memset(j.wires, 7, j.inputs + j.gates), memset(j.board, 7, j.marks + j.k);
        if (call(way))
            fail_at(&j, "refused");
        if (memcmp(j.wires, zeros, j.inputs + j.gates))
            fail_at(&j, "not emptied");
        if (!board)
            board = copy_of(j.board, j.marks + j.k);
        if (memcmp(board, j.board, j.marks + j.k))
            fail_at(&j, "another board");
    }
    free(board), free(zeros);
}

int main(void) {
    for (size_t s = 0; s < sizeof shapes / sizeof *shapes; s++) {
        struct timing of[WAYS];
        set_up(shapes[s]);
        take_turns(call, WAYS, MOST_ROUNDS, 2e-4, of);
        print_shape(&j);
        print_times(j.gates, of[CORE].least, of[IN_C].least, of[CORE].ratio);
        printf(" %.4f\n", of[PLAIN].ratio);
        free(urn), free_jury(&j);
    }
    return 0;
}
