/* The run for 64 juries on heap buffers of exactly the lent length, for valgrind: random lists, graded and ranked,
 * without faults and with up to two. Each jury of an accepted call is compared with the reference's single run. The
 * reason and place of a refusal are compared with the reference's tests of each jury, and the buffers with copies. */
#include "../../c/jugyvaros.h"
#include "random_jury.h"
#include "reference.h"
#include "seen.h"

enum { JURIES = 64 };
enum { BALLOTS, TAPE, WIRES, BOARD, TABLES };

static void fail(const char *why) {
    printf("batch_test: %s\n", why);
    exit(1);
}

/* What is lent to one call. */
struct call {
    size_t k, d, n, table_length, lengths[TABLES], answer_length;
    uint32_t *table;
    uint64_t *tables[TABLES];
};

static struct call good_call(void) {
    struct call c = {
        .k = 1 + below(3), .d = below(3) ? 2 + below(3) : 0, .n = 1 + below(3), .answer_length = JUGY_RUN_ANSWER};
    size_t inputs = ballot_bytes(c.k, c.d, c.n), gates = c.k + below(30);
    c.table_length = 4 * gates, c.table = lent(16 * gates);
    random_list(c.table, inputs, gates);
    size_t marks = marks_in(c.table, gates), lengths[TABLES] = {inputs, marks, inputs + gates, marks + c.k};
    memcpy(c.lengths, lengths, sizeof lengths);
    uint8_t *jury = lent(inputs);
    c.tables[BALLOTS] = filled(8 * inputs, 0);
    for (int j = 0; j < JURIES; j++) {
        random_ballots(jury, c.k, c.d, c.n);
        for (size_t i = 0; i < inputs; i++)
            c.tables[BALLOTS][i] |= (uint64_t)jury[i] << j;
    }
    for (int i = TAPE; i < TABLES; i++)
        c.tables[i] = noise(8 * c.lengths[i]);
    free(jury);
    return c;
}

/* Makes the first ballot of a jury say only that 0 is before 1. */
static void put_gap(uint64_t *ballots, size_t k, uint64_t jury) {
    for (size_t i = 0; i < k * k; i++)
        ballots[i] &= ~jury;
    ballots[1] |= jury;
}

static void damage(struct call *c) {
    int i = (int)below(TABLES);
    switch (below(6)) {
    case 0: c->n = below(2) ? 0 : 256; break;
    case 1: c->table_length -= 1 + below(3); break;
    case 2: c->table[4 * below(c->table_length / 4)] = KINDS; break;
    case 3:
        free(c->tables[i]);
        c->lengths[i] += c->lengths[i] && below(2) ? (size_t)-1 : 1;
        c->tables[i] = noise(8 * c->lengths[i]);
        break;
    case 4:
        if (can_have_gap(c->k, c->d, c->lengths[BALLOTS]) && below(2))
            put_gap(c->tables[BALLOTS], c->k, (uint64_t)1 << below(JURIES));
        else if (c->lengths[BALLOTS])
            c->tables[BALLOTS][below(c->lengths[BALLOTS])] ^= (uint64_t)1 << below(JURIES);
        break;
    default: c->answer_length = below(JUGY_RUN_ANSWER); break;
    }
}

/* The bytes of jury j. */
static uint8_t *lane(const struct call *c, int table, int j) {
    uint8_t *bytes = lent(c->lengths[table]);
    for (size_t i = 0; i < c->lengths[table]; i++)
        bytes[i] = c->tables[table][i] >> j & 1;
    return bytes;
}

/* The first reason in checking order over all juries, and the first jury that has it. */
static struct said first_fault(const struct call *c) {
    struct said first = {0, 0, 0, 0, {0}};
    for (int j = 0; j < JURIES; j++) {
        uint8_t *ballots = lane(c, BALLOTS, j);
        size_t reason = reference_count(c->k, c->d, c->n, ballots, c->lengths[BALLOTS]).reason;
        if (reason && (!first.reason || reason < first.reason))
            first.reason = reason, first.place = reason == 4 ? 0 : (size_t)j;
        free(ballots);
    }
    return first;
}

static struct said expected(const struct call *c) {
    struct said s = reference_test(c->k, c->d, c->n, c->table, c->table_length);
    if (s.reason)
        return s;
    struct said fault = first_fault(c);
    size_t inputs = ballot_bytes(c->k, c->d, c->n);
    if (fault.reason)
        return fault;
    size_t reason = c->lengths[TAPE] != s.conditional           ? JUGY_TAPE_LENGTH
                    : c->lengths[WIRES] != inputs + s.gates     ? JUGY_WIRES_LENGTH
                    : c->lengths[BOARD] != s.conditional + c->k ? JUGY_BOARD_LENGTH
                                                                : JUGY_ACCEPTED;
    return reason ? (struct said){reason, 0, 0, 0, {0}} : s;
}

/* Fills wires and board with the results of the reference's single runs. */
static void run_juries(struct call *c) {
    memset(c->tables[WIRES], 0, 8 * c->lengths[WIRES]);
    memset(c->tables[BOARD], 0, 8 * c->lengths[BOARD]);
    for (int j = 0; j < JURIES; j++) {
        uint8_t *ballots = lane(c, BALLOTS, j), *tape = lane(c, TAPE, j);
        uint8_t *wires = lent(c->lengths[WIRES]), *board = lent(c->lengths[BOARD]);
        if (reference_run(c->k, c->d, c->n, c->table, c->table_length, ballots, c->lengths[BALLOTS], tape,
                          c->lengths[TAPE], wires, c->lengths[WIRES], board, c->lengths[BOARD])
                .reason)
            fail("a single run is refused");
        for (size_t i = 0; i < c->lengths[BOARD]; i++)
            c->tables[BOARD][i] |= (uint64_t)board[i] << j;
        free(ballots), free(tape), free(wires), free(board);
    }
}

static void one_call(size_t faults) {
    struct call c = good_call();
    for (; faults; faults--)
        damage(&c);
    uint64_t *wires = copy_of(c.tables[WIRES], 8 * c.lengths[WIRES]),
             *board = copy_of(c.tables[BOARD], 8 * c.lengths[BOARD]);
    size_t size = c.answer_length * sizeof(size_t), *answer = filled(size, 9), *old = copy_of(answer, size);
    size_t status = seen(jugy_run_batch(c.k, c.d, c.n, c.table, c.table_length, c.tables[BALLOTS], c.lengths[BALLOTS],
                                        c.tables[TAPE], c.lengths[TAPE], wires, c.lengths[WIRES], board,
                                        c.lengths[BOARD], answer, c.answer_length));
    if (c.answer_length < JUGY_RUN_ANSWER) {
        if (status != JUGY_SHORT_ANSWER || memcmp(answer, old, size))
            fail("a short answer array");
    } else {
        struct said s = expected(&c);
        size_t right[JUGY_RUN_ANSWER] = {s.reason, s.place, s.gates, s.conditional};
        if (status != s.reason || memcmp(right, answer, size))
            fail("another answer");
    }
    if (!status)
        run_juries(&c);
    if (memcmp(wires, c.tables[WIRES], 8 * c.lengths[WIRES]) || memcmp(board, c.tables[BOARD], 8 * c.lengths[BOARD]))
        fail(status ? "a refusal changes a buffer" : "a jury differs from its single run, or a wire is left");
    for (int i = 0; i < TABLES; i++)
        free(c.tables[i]);
    free(c.table), free(wires), free(board), free(answer), free(old);
}

int main(int count, char **arguments) {
    int rounds = count > 1 ? atoi(arguments[1]) : 400;
    for (int r = 0; r < rounds; r++)
        one_call(r % 4 ? r % 3 : 0);
    ALL_SEEN("batch_test", 0, 1, 2, 3, 4, 6, 7, 9, 10, 11, 12, JUGY_SHORT_ANSWER);
    return 0;
}
