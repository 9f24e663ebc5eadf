/* The dispatcher on heap buffers of exactly the lent length, for valgrind: up to eight random juries, without faults
 * and with up to two. Status and answer, and boards and wires of an accepted call, are compared with the reference's
 * runs of each jury on the pieces that the headers name. A refused call must change nothing. */
#include "../../c/jugyvaros.h"
#include "random_jury.h"
#include "reference.h"
#include "seen.h"

enum { MOST = 8, STATED = 4 };
enum { LISTS, BALLOTS, TAPES, WIRES, BOARDS, TABLES };

static void fail(const char *what) {
    printf("dispatch_test: %s\n", what);
    exit(1);
}

/* What is lent to one call. Lengths count items, which are numbers in the lists and bytes elsewhere. */
struct call {
    size_t juries, gates_per_round, statements_length, lengths[TABLES], answer_length;
    size_t *statements;
    void *tables[TABLES];
};

static size_t item(int table) { return table == LISTS ? sizeof(uint32_t) : 1; }

/* Appends items to a table. */
static void append(struct call *c, int table, const void *items, size_t count) {
    size_t old = c->lengths[table] * item(table), more = count * item(table);
    uint8_t *longer = lent(old + more);
    memcpy(longer, c->tables[table], old);
    memcpy(longer + old, items, more);
    free(c->tables[table]);
    c->tables[table] = longer;
    c->lengths[table] += count;
}

static void add_jury(struct call *c, size_t *statement) {
    size_t k = 1 + below(3), d = below(3) ? 2 + below(3) : 0, n = 1 + below(4), said[JUGY_MEASURE_ANSWER];
    size_t inputs = ballot_bytes(k, d, n), gates = k + below(30);
    int is_own = below(2) && !jugy_measure(k, d, n, said, JUGY_MEASURE_ANSWER);
    if (is_own)
        gates = said[2];
    uint32_t *table = lent(16 * gates);
    if (is_own)
        jugy_write(k, d, n, table, 4 * gates, said, JUGY_WRITE_ANSWER);
    else
        random_list(table, inputs, gates);
    size_t marks = marks_in(table, gates);
    uint8_t *ballots = lent(inputs), *tape = lent(marks), *rest = filled(inputs + gates + marks + k, 9);
    random_ballots(ballots, k, d, n);
    if (!below(50) && can_have_gap(k, d, inputs))
        memset(ballots, 0, k * k), ballots[1] = 1;
    random_bits(tape, marks);
    append(c, LISTS, table, 4 * gates);
    append(c, BALLOTS, ballots, inputs);
    append(c, TAPES, tape, marks);
    append(c, WIRES, rest, inputs + gates);
    append(c, BOARDS, rest, marks + k);
    memcpy(statement, (size_t[]){k, d, n, gates}, STATED * sizeof *statement);
    free(table), free(ballots), free(tape), free(rest);
}

/* A good call, except that now and then a ranking has fault 12. */
static struct call good_call(void) {
    struct call c = {.juries = 1 + below(MOST), .gates_per_round = 1 + below(below(2) ? 5 : 400)};
    c.statements_length = STATED * c.juries;
    c.statements = lent(c.statements_length * sizeof *c.statements);
    for (int i = 0; i < TABLES; i++)
        c.tables[i] = lent(0);
    for (size_t j = 0; j < c.juries; j++)
        add_jury(&c, c.statements + STATED * j);
    for (int i = 0; !below(3) && i < TABLES; i++)
        append(&c, i, (uint8_t[12]){9}, below(4));
    c.answer_length = JUGY_DISPATCH_ANSWER;
    return c;
}

/* Removes the last items of a buffer. */
static void shorten(void **buffer, size_t *length, size_t size, size_t by) {
    *length -= by < *length ? by : *length;
    void *shorter = copy_of(*buffer, *length * size);
    free(*buffer);
    *buffer = shorter;
}

static void damage(struct call *c) {
    int table = (int)below(TABLES);
    uint8_t *bytes = c->tables[below(2) ? BALLOTS : TAPES];
    size_t length = bytes == c->tables[BALLOTS] ? c->lengths[BALLOTS] : c->lengths[TAPES], *statement = c->statements;
    switch (below(9)) {
    case 0: c->juries = below(2) ? 0 : MOST + 1 + below(300); break;
    case 1: c->gates_per_round = below(2) ? 0 : 65537 + below(9); break;
    case 2: shorten(&c->tables[table], &c->lengths[table], item(table), 1 + below(4)); break;
    case 3:
        if (c->lengths[LISTS])
            ((uint32_t *)c->tables[LISTS])[below(c->lengths[LISTS])] = below(2) ? KINDS : below(200);
        break;
    case 4:
    case 5:
        if (length)
            bytes[below(length)] ^= (uint8_t)(1 + below(3));
        break;
    case 6: shorten((void **)&c->statements, &c->statements_length, sizeof *statement, 1 + below(5)); break;
    case 7:
        if (c->statements_length)
            statement[below(c->statements_length)] = below(12);
        break;
    default: c->answer_length = below(JUGY_DISPATCH_ANSWER); break;
    }
}

static size_t stated(const struct call *c, size_t at) { return at < c->statements_length ? c->statements[at] : 0; }

/* Where a jury's piece of a table begins, and its length: 0 if the table is too short for it. */
static void *piece(const struct call *c, int table, size_t *from, size_t *length) {
    uint8_t *begin = (uint8_t *)c->tables[table] + *from * item(table);
    if (*from > c->lengths[table] || c->lengths[table] - *from < *length)
        *length = 0, begin = c->tables[table];
    *from += *length;
    return begin;
}

/* The reference's run on a jury's pieces. If it is accepted, it fills in the jury's wires and board. */
static struct said run_jury(const struct call *c, size_t jury, size_t *from) {
    size_t k = stated(c, STATED * jury), d = stated(c, STATED * jury + 1), n = stated(c, STATED * jury + 2);
    size_t gates = stated(c, STATED * jury + 3), lengths[TABLES] = {4 * gates, ballot_bytes(k, d, n), 0, 0, 0};
    const uint32_t *table = piece(c, LISTS, &from[LISTS], &lengths[LISTS]);
    struct said tested = reference_test(k, d, n, table, lengths[LISTS]);
    if (tested.reason)
        return tested;
    lengths[TAPES] = tested.conditional, lengths[WIRES] = lengths[BALLOTS] + gates,
    lengths[BOARDS] = tested.conditional + k;
    uint8_t *pieces[TABLES];
    for (int i = BALLOTS; i < TABLES; i++)
        pieces[i] = piece(c, i, &from[i], &lengths[i]);
    return reference_run(k, d, n, table, lengths[LISTS], pieces[BALLOTS], lengths[BALLOTS], pieces[TAPES],
                         lengths[TAPES], pieces[WIRES], lengths[WIRES], pieces[BOARDS], lengths[BOARDS]);
}

/* Works out the whole answer array. If the call is refused, wires and boards of the juries before the bad one are
 * filled in too, but not compared. */
static void expect(const struct call *c, size_t *right) {
    size_t from[TABLES] = {0};
    memset(right, 0, JUGY_DISPATCH_ANSWER * sizeof *right);
    if (c->juries < 1 || c->juries > MOST)
        right[0] = JUGY_JURIES;
    else if (c->gates_per_round < 1 || c->gates_per_round > 65536)
        right[0] = JUGY_GATES_PER_ROUND;
    for (size_t j = 0; !right[0] && j < c->juries; j++)
        right[0] = run_jury(c, j, from).reason, right[1] = right[0] ? j : 0;
    for (size_t j = 0; !right[0] && j < c->juries; j++)
        right[2 + j] = (stated(c, STATED * j + 3) + c->gates_per_round - 1) / c->gates_per_round;
}

static size_t answered(const struct call *c, uint8_t *wires, uint8_t *boards, size_t *answer) {
    return seen(jugy_dispatch(c->juries, c->gates_per_round, c->statements, c->statements_length, c->tables[LISTS],
                              c->lengths[LISTS], c->tables[BALLOTS], c->lengths[BALLOTS], c->tables[TAPES],
                              c->lengths[TAPES], wires, c->lengths[WIRES], boards, c->lengths[BOARDS], answer,
                              c->answer_length));
}

static void one_call(size_t faults) {
    struct call c = good_call();
    for (; faults; faults--)
        damage(&c);
    uint8_t *lent_tables[2], *before[2];
    for (int i = 0; i < 2; i++) {
        lent_tables[i] = copy_of(c.tables[WIRES + i], c.lengths[WIRES + i]);
        before[i] = copy_of(lent_tables[i], c.lengths[WIRES + i]);
    }
    size_t size = c.answer_length * sizeof(size_t), *answer = filled(size, 9), *old = copy_of(answer, size);
    size_t status = answered(&c, lent_tables[0], lent_tables[1], answer), right[JUGY_DISPATCH_ANSWER];
    if (c.answer_length < JUGY_DISPATCH_ANSWER) {
        if (status != JUGY_SHORT_ANSWER || memcmp(answer, old, size))
            fail("a short answer array");
    } else {
        expect(&c, right);
        if (status != right[0] || memcmp(right, answer, size))
            fail("another answer");
    }
    for (int i = 0; i < 2; i++) {
        if (memcmp(lent_tables[i], status ? before[i] : c.tables[WIRES + i], c.lengths[WIRES + i]))
            fail(status ? "a refusal changes a buffer" : "other wires or boards");
        free(lent_tables[i]), free(before[i]);
    }
    for (int i = 0; i < TABLES; i++)
        free(c.tables[i]);
    free(c.statements), free(answer), free(old);
}

int main(int count, char **words) {
    int rounds = count > 1 ? atoi(words[1]) : 1000;
    for (int r = 0; r < rounds; r++)
        one_call(r % 4 ? r % 3 : 0);
    ALL_SEEN("dispatch_test", 0, 1, 2, 3, 4, 5, 6, 7, 8, 9, 10, 11, 12, 19, 20, JUGY_SHORT_ANSWER);
    return 0;
}
