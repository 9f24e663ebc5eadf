/* Compares write, test, run and count of the core with the same work in C (core.c).
 *   bench same    compares the results of both for every graded shape
 *   bench times   prints OP K D N GATES CORE_NS C_NS RATIO, a line for each, timed as timing.h says
 *   bench counts  makes one call of each, with a callgrind dump labelled OP-K-D-N-WHO
 * Before it times or counts, it compares the results. */
#include "core.h"
#include "jury.h"
#include "timing.h"

static const size_t shapes[][3] = {{2, 3, 3}, {3, 4, 10}, {5, 5, 31}, {5, 6, 100}, {8, 7, 255}};

enum { WRITE, TEST, RUN, COUNT, OPS };
static const char *const ops[OPS] = {"write", "test", "run", "count"};

enum { IN_C, CORE, WAYS };
static const char *const names[WAYS] = {"c", "core"};

static struct jury j;
static size_t answer[JUGY_COUNT_ANSWER];
static int op;

static size_t call(int way) {
    int in_c = way == IN_C;
    switch (op) {
    case WRITE: return (in_c ? core_write : jugy_write)(j.k, j.d, j.n, j.table, 4 * j.gates, answer, JUGY_WRITE_ANSWER);
    case TEST: return (in_c ? core_test : jugy_test)(j.k, j.d, j.n, j.table, 4 * j.gates, answer, JUGY_TEST_ANSWER);
    case RUN:
        return (in_c ? core_run : jugy_run)(j.k, j.d, j.n, j.table, 4 * j.gates, j.ballots, j.inputs, j.tape, j.marks,
                                            j.wires, j.inputs + j.gates, j.board, j.marks + j.k, answer,
                                            JUGY_RUN_ANSWER);
    default: return (in_c ? core_count : jugy_count)(j.k, j.d, j.n, j.ballots, j.inputs, answer, JUGY_COUNT_ANSWER);
    }
}

/* Makes the call with a zeroed answer array and board, and used wires; if it writes the list, that is zeroed too. */
static void call_afresh(int way) {
    if (op == WRITE)
        memset(j.table, 0, 16 * j.gates);
    memset(j.wires, 7, j.inputs + j.gates), memset(j.board, 0, j.marks + j.k), memset(answer, 0, sizeof answer);
    if (call(way))
        fail_at(&j, way == IN_C ? "C refuses" : "the core refuses");
}

/* Both must leave the same list, answer, wires and board. */
static void set_up(const size_t *shape) {
    j = jury_of(shape);
    for (op = 0; op < OPS; op++) {
        call_afresh(IN_C);
        size_t *outcome = copy_of(answer, sizeof answer);
        uint32_t *table = copy_of(j.table, 16 * j.gates);
        uint8_t *wires = copy_of(j.wires, j.inputs + j.gates), *board = copy_of(j.board, j.marks + j.k);
        call_afresh(CORE);
        if (memcmp(outcome, answer, sizeof answer) || memcmp(table, j.table, 16 * j.gates)
            || memcmp(wires, j.wires, j.inputs + j.gates) || memcmp(board, j.board, j.marks + j.k))
            fail_at(&j, "the two differ");
        free(outcome), free(table), free(wires), free(board);
    }
}

static void same(void) {
    size_t count = 0;
    for (size_t k = 1; k <= 8; k++)
        for (size_t d = 2; d <= 7; d++)
            for (size_t n = 1; n <= 255; n++, count++) {
                set_up((size_t[]){k, d, n});
                free_jury(&j);
            }
    printf("bench: the same lists, answers, wires and boards at %zu shapes\n", count);
}

static void times(void) {
    struct timing of[WAYS];
    take_turns(call, WAYS, MOST_ROUNDS, 5e-4, of);
    printf("%s ", ops[op]), print_shape(&j);
    print_times(j.gates, of[CORE].least, of[IN_C].least, of[CORE].ratio);
    printf("\n");
}

static void counts(void) {
    for (int way = 0; way < WAYS; way++) {
        char label[64];
        snprintf(label, sizeof label, "%s-%zu-%zu-%zu-%s", ops[op], j.k, j.d, j.n, names[way]);
        counted(call, way, label);
    }
}

static void at_each_shape(void (*measure)(void)) {
    for (size_t s = 0; s < sizeof shapes / sizeof *shapes; s++) {
        set_up(shapes[s]);
        for (op = 0; op < OPS; op++)
            measure();
        free_jury(&j);
    }
}

int main(int argc, char **argv) {
    if (argc == 2 && strcmp(argv[1], "same") == 0)
        same();
    else if (argc == 2 && strcmp(argv[1], "times") == 0)
        at_each_shape(times);
    else if (argc == 2 && strcmp(argv[1], "counts") == 0)
        at_each_shape(counts);
    else
        return 2;
    return 0;
}
