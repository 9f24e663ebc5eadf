/* The trustees' tally on heap buffers of exactly the lent length, for valgrind: own lists and random ones, graded and
 * ranked, without faults and with up to two. Status, answer, wires and every published bit are compared with the
 * reference, and the sums of own lists with the plain count. */
#include "../../c/jugyvaros.h"
#include "dealing.h"
#include "random_jury.h"
#include "seen.h"
#include "trustees_reference.h"

enum { SHARES, TRIPLES, WIRES, PUBLISHED, TABLES };

static void fail(const char *what) {
    printf("trustees_test: %s\n", what);
    exit(1);
}

/* What is lent to one call. A length may be wrong for the call, but every buffer is as long as its length says. */
struct call {
    size_t k, d, n, trustees, table_length, ballots_length, lengths[TABLES], answer_length;
    uint32_t *table;
    uint8_t *ballots, *tables[TABLES];
    int is_own;
};

/* A good call. */
static struct call good_call(void) {
    struct call c = {.k = 1 + below(4), .d = below(3) ? 2 + below(4) : 0, .n = 1 + below(5), .trustees = 2 + below(4)};
    size_t inputs = ballot_bytes(c.k, c.d, c.n), gates = c.k + below(40), measured[JUGY_MEASURE_ANSWER];
    c.is_own = below(2);
    if (c.is_own && !jugy_measure(c.k, c.d, c.n, measured, JUGY_MEASURE_ANSWER))
        gates = measured[2];
    c.table_length = 4 * gates, c.table = lent(16 * gates);
    c.ballots_length = inputs, c.ballots = lent(inputs);
    if (c.is_own)
        jugy_write(c.k, c.d, c.n, c.table, c.table_length, measured, JUGY_MEASURE_ANSWER);
    else
        random_list(c.table, inputs, gates);
    random_ballots(c.ballots, c.k, c.d, c.n);
    size_t t = c.trustees, marks = marks_in(c.table, gates);
    size_t each[TABLES] = {inputs, 3 * marks, inputs + gates, 2 * marks + c.k};
    for (int i = 0; i < TABLES; i++)
        c.lengths[i] = t * each[i], c.tables[i] = filled(c.lengths[i], 7);
    deal(t, c.ballots, inputs, marks, c.tables[SHARES], c.tables[TRIPLES]);
    c.answer_length = JUGY_TRUSTEES_ANSWER;
    return c;
}

/* Makes a buffer longer or shorter by one item. */
static void *another_length(void *buffer, size_t *length, size_t item) {
    size_t other = *length && below(2) ? *length - 1 : *length + 1;
    void *longer = filled(other * item, 0);
    memcpy(longer, buffer, (other < *length ? other : *length) * item);
    free(buffer);
    *length = other;
    return longer;
}

static void damage(struct call *c) {
    size_t gates = c->table_length / 4, i = below(TABLES), byte = below(c->ballots_length);
    switch (below(12)) {
    case 0: c->k = below(2) ? 0 : 9; break;
    case 1: c->table = another_length(c->table, &c->table_length, 4); break;
    case 2: c->table[4 * below(gates)] = KINDS + below(3); break;
    case 3: c->ballots = another_length(c->ballots, &c->ballots_length, 1); break;
    case 4:
        if (c->ballots_length)
            c->ballots[byte] = (uint8_t)(2 + below(254));
        break;
    case 5:
        if (can_have_gap(c->k, c->d, c->ballots_length))
            memset(c->ballots, 0, c->k * c->k), c->ballots[1] = 1;
        else if (c->ballots_length)
            c->ballots[byte] ^= 1;
        break;
    case 6: c->trustees = below(2) ? 1 - below(2) : 6 + below(200); break;
    case 7: c->tables[i] = another_length(c->tables[i], &c->lengths[i], 1); break;
    case 8:
        if (c->lengths[SHARES])
            c->tables[SHARES][below(c->lengths[SHARES])] ^= (uint8_t)(1 + below(3));
        break;
    case 9:
    case 10:
        if (c->lengths[TRIPLES])
            c->tables[TRIPLES][below(c->lengths[TRIPLES])] ^= (uint8_t)(1 + below(3));
        break;
    default: c->answer_length = below(JUGY_TRUSTEES_ANSWER); break;
    }
}

static size_t answered(const struct call *c, uint8_t *wires, uint8_t *published, size_t *answer) {
    return seen(jugy_trustees(c->k, c->d, c->n, c->table, c->table_length, c->ballots, c->ballots_length, c->trustees,
                              c->tables[SHARES], c->lengths[SHARES], c->tables[TRIPLES], c->lengths[TRIPLES], wires,
                              c->lengths[WIRES], published, c->lengths[PUBLISHED], answer, c->answer_length));
}

static struct said expected(const struct call *c) {
    return reference_trustees(c->k, c->d, c->n, c->table, c->table_length, c->ballots, c->ballots_length, c->trustees,
                              c->tables[SHARES], c->lengths[SHARES], c->tables[TRIPLES], c->lengths[TRIPLES],
                              c->tables[WIRES], c->lengths[WIRES], c->tables[PUBLISHED], c->lengths[PUBLISHED]);
}

/* Compares the answer array with the reference's answer, and for an own list also with the plain count. */
static void compare_answer(const struct call *c, struct said s, const size_t *answer) {
    size_t right[JUGY_TRUSTEES_ANSWER] = {s.reason, s.place, s.gates, s.conditional}, counted[JUGY_COUNT_ANSWER];
    for (int i = 0; !s.reason && i < 8; i++)
        right[4 + i] = s.closing[i];
    if (memcmp(right, answer, sizeof right))
        fail("another answer");
    if (!s.reason && c->is_own) {
        jugy_count(c->k, c->d, c->n, c->ballots, c->ballots_length, counted, JUGY_COUNT_ANSWER);
        if (memcmp(counted + 2, answer + 4, 8 * sizeof *answer))
            fail("the sums are not the closing bytes");
    }
}

static void one_call(size_t faults) {
    struct call c = good_call();
    for (; faults; faults--)
        damage(&c);
    uint8_t *wires = copy_of(c.tables[WIRES], c.lengths[WIRES]),
            *published = copy_of(c.tables[PUBLISHED], c.lengths[PUBLISHED]);
    size_t *answer = filled(c.answer_length * sizeof *answer, 9),
           *before = copy_of(answer, c.answer_length * sizeof *answer);
    size_t status = answered(&c, wires, published, answer);
    if (c.answer_length < JUGY_TRUSTEES_ANSWER) {
        if (status != JUGY_SHORT_ANSWER || memcmp(answer, before, c.answer_length * sizeof *answer))
            fail("a short answer array");
    } else {
        struct said s = expected(&c);
        if (status != s.reason)
            fail("another status");
        compare_answer(&c, s, answer);
    }
    /* the reference has filled in its own copies if the call is accepted, otherwise they are unchanged */
    if (memcmp(wires, c.tables[WIRES], c.lengths[WIRES]))
        fail("other wires");
    if (memcmp(published, c.tables[PUBLISHED], c.lengths[PUBLISHED]))
        fail("other published bits");
    for (int i = 0; i < TABLES; i++)
        free(c.tables[i]);
    free(c.table), free(c.ballots), free(wires), free(published), free(answer), free(before);
}

int main(int count, char **words) {
    int rounds = count > 1 ? atoi(words[1]) : 1000;
    for (int r = 0; r < rounds; r++)
        one_call(r % 4 ? r % 3 : 0);
    ALL_SEEN("trustees_test", 0, 1, 2, 3, 4, 5, 6, 11, 12, 16, 17, 18, JUGY_SHORT_ANSWER);
    return 0;
}
