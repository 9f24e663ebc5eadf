/* Compares eight juries in rounds of 1, 64 and 4,096 gates with eight undivided runs.
 *     dispatch    prints GATES_PER_ROUND GATES DISPATCH_NS UNDIVIDED_NS RATIO, a line for each, timed as timing.h says
 * First it compares the boards. */
#include "jury.h"
#include "timing.h"

enum { JURIES = 8 };
static const size_t shapes[JURIES][3] = {{8, 7, 255}, {4, 5, 99}, {2, 3, 3},  {5, 5, 25},
                                         {1, 2, 1},   {3, 7, 60}, {6, 4, 40}, {2, 2, 200}};

enum { UNDIVIDED, WAYS = 4 };
static const size_t gates_per_round[WAYS] = {[1] = 1, 64, 4096};

static struct jury juries[JURIES];
static size_t stated[4 * JURIES], gates, inputs, marks, shown;
static uint32_t *lists;
static uint8_t *ballots, *tapes, *wires, *boards;

static size_t call(int way) {
    size_t answer[JUGY_DISPATCH_ANSWER], reason = 0;
    if (way != UNDIVIDED)
        return jugy_dispatch(JURIES, gates_per_round[way], stated, 4 * JURIES, lists, 4 * gates, ballots, inputs, tapes,
                             marks, wires, inputs + gates, boards, shown, answer, JUGY_DISPATCH_ANSWER);
    for (int i = 0; i < JURIES; i++)
        reason |= run(&juries[i]);
    return reason;
}

static void set_up(void) {
    for (int i = 0; i < JURIES; i++) {
        const struct jury *j = &juries[i];
        juries[i] = jury_of(shapes[i]);
        gates += j->gates, inputs += j->inputs, marks += j->marks, shown += j->marks + j->k;
    }
    lists = lent(16 * gates), ballots = lent(inputs), tapes = lent(marks), wires = filled(inputs + gates, 0),
    boards = lent(shown);
    uint32_t *list = lists;
    uint8_t *ballot = ballots, *tape = tapes;
    for (int i = 0; i < JURIES; i++) {
        const struct jury *j = &juries[i];
        memcpy(stated + 4 * i, (size_t[]){j->k, j->d, j->n, j->gates}, 4 * sizeof *stated);
        memcpy(list, j->table, 16 * j->gates), memcpy(ballot, j->ballots, j->inputs), memcpy(tape, j->tape, j->marks);
        list += 4 * j->gates, ballot += j->inputs, tape += j->marks;
    }
}

/* The boards of every way must be those of the undivided runs. */
static void compare(void) {
    for (int way = 0; way < WAYS; way++) {
        const uint8_t *board = boards;
        memset(boards, 9, shown);
        if (call(way))
            fail_at(juries, "refused");
        for (int i = 0; way != UNDIVIDED && i < JURIES; board += juries[i].marks + juries[i].k, i++)
            if (memcmp(board, juries[i].board, juries[i].marks + juries[i].k))
                fail_at(&juries[i], "the boards differ");
    }
}

int main(void) {
    struct timing of[WAYS];
    set_up();
    compare();
    take_turns(call, WAYS, MOST_ROUNDS, 0, of);
    for (int way = 1; way < WAYS; way++) {
        printf("%zu", gates_per_round[way]);
        print_times(gates, of[way].least, of[UNDIVIDED].least, of[way].ratio);
        printf("\n");
    }
    return 0;
}
