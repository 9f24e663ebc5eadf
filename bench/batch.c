/* Compares a run for 64 juries with 64 calls of jugy_run, one for each jury. Every call makes all its tests and empties
 * its wire table. The juries are packed into numbers beforehand, which is not timed.
 *   batch    prints K D N GATES BATCH_NS SINGLES_NS RATIO, a line for each, timed as timing.h says; the ratio says how
 *            many times faster the batch is
 * First it compares the boards. */
#include "jury.h"
#include "timing.h"

static const size_t shapes[][3] = {{2, 3, 3},   {3, 4, 10}, {5, 5, 31}, {5, 6, 100},
                                   {8, 7, 255}, {3, 0, 10}, {5, 0, 31}, {8, 0, 255}};

enum { JURIES = 64 };
enum { BATCH, SINGLES, WAYS };

static struct jury juries[JURIES]; /* all with the same list and wire table */
static uint64_t *words, *tape, *wires, *board;

static size_t call(int way) {
    const struct jury *j = juries;
    size_t answer[JUGY_RUN_ANSWER], reason = 0;
    if (way == BATCH)
        return jugy_run_batch(j->k, j->d, j->n, j->table, 4 * j->gates, words, j->inputs, tape, j->marks, wires,
                              j->inputs + j->gates, board, j->marks + j->k, answer, JUGY_RUN_ANSWER);
    for (int i = 0; i < JURIES; i++)
        reason |= run(&juries[i]);
    return reason;
}

/* Puts the bytes of jury i into bit i of the words. */
static void pack(uint64_t *to, const uint8_t *bytes, size_t length, int i) {
    for (size_t x = 0; x < length; x++)
        to[x] |= (uint64_t)bytes[x] << i;
}

static void set_up(const size_t *shape) {
    const struct jury *j = juries;
    juries[0] = jury_of(shape);
    words = filled(8 * j->inputs, 0), tape = filled(8 * j->marks, 0);
    wires = filled(8 * (j->inputs + j->gates), 0), board = filled(8 * (j->marks + j->k), 0);
    for (int i = 0; i < JURIES; i++) {
        if (i > 0)
            juries[i] = juries[0], draw(&juries[i], SEED + (uint64_t)i);
        pack(words, juries[i].ballots, j->inputs, i);
        pack(tape, juries[i].tape, j->marks, i);
    }
    for (int way = 0; way < WAYS; way++)
        if (call(way))
            fail_at(j, "refused");
    for (int i = 0; i < JURIES; i++)
        for (size_t x = 0; x < j->marks + j->k; x++)
            if ((board[x] >> i & 1) != juries[i].board[x])
                fail_at(j, "the two differ");
}

static void take_down(void) {
    for (int i = 1; i < JURIES; i++)
        free_drawn(&juries[i]);
    free_jury(&juries[0]), free(words), free(tape), free(wires), free(board);
}

int main(void) {
    for (size_t s = 0; s < sizeof shapes / sizeof *shapes; s++) {
        struct timing of[WAYS];
        set_up(shapes[s]);
        take_turns(call, WAYS, MOST_ROUNDS, 1e-4, of);
        print_shape(&juries[0]);
        print_times(juries[0].gates, of[BATCH].least, of[SINGLES].least, of[SINGLES].ratio);
        printf("\n");
        take_down();
    }
    return 0;
}
