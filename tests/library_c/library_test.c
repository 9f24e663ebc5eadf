/* The five exported functions against the reference, on exact-size heap buffers.
 *   library_test edges          each entry point, accepted and for each reason
 *   library_test shapes         every shape: measured, its list written, tested, and run on a jury
 *   library_test random N SEED  N random juries, each with calls of every kind, good and damaged, with right and wrong
 *                               lengths
 * It prints how many calls it compared, and ends with 1 at the first difference, or if a reason never occurred. */
#include "../../c/jugyvaros.h"
#include "random_jury.h"
#include "reference.h"
#include "seen.h"

static const char *what = "";

#define CHECK(test)                                                                                                  \
    do {                                                                                                             \
        if (!(test)) {                                                                                               \
            printf("library_test: line %d, %s: %s\n", __LINE__, what, #test);                                        \
            exit(1);                                                                                                 \
        }                                                                                                            \
    } while (0)

static int same(const void *a, const void *b, size_t bytes) { return bytes == 0 || memcmp(a, b, bytes) == 0; }

/* ---- one call each, compared with the reference: the answer array, which may be too short or too long, and everything
 * that is lent */

/* Compares a status and an answer array with the expected ones, of `needed` numbers; `rest` has those from 2 on. */
static void compare(struct said s, const size_t *rest, size_t needed, size_t status, const size_t *answer,
                    const size_t *before, size_t length) {
    seen(status);
    if (length < needed) {
        CHECK(status == JUGY_SHORT_ANSWER);
        CHECK(same(answer, before, length * sizeof *answer));
        return;
    }
    CHECK(status == s.reason);
    CHECK(answer[0] == s.reason && answer[1] == s.place);
    for (size_t i = 2; i < needed; i++)
        CHECK(answer[i] == (s.reason && needed < 10 ? 0 : rest[i - 2]));
    CHECK(same(answer + needed, before + needed, (length - needed) * sizeof *answer));
}

/* The length of an answer array: mostly what is needed, sometimes shorter or longer. */
static size_t answer_length(size_t needed) {
    uint32_t way = below(8);
    return way == 0 ? below(needed) : way == 1 ? needed + below(5) : needed;
}

static struct said call_test(size_t k, size_t d, size_t n, const uint32_t *list, size_t length, size_t al) {
    what = "test";
    uint32_t *table = copy_of(list, length * 4);
    size_t *answer = noise(al * sizeof *answer), *before = copy_of(answer, al * sizeof *answer);
    size_t status = jugy_test(k, d, n, table, length, answer, al);
    struct said s = reference_test(k, d, n, list, length);
    size_t rest[2] = {s.gates, s.conditional};
    compare(s, rest, 4, status, answer, before, al);
    CHECK(same(table, list, length * 4));
    free(table), free(answer), free(before);
    return s;
}

static struct said call_count(size_t k, size_t d, size_t n, const uint8_t *ballots, size_t length, size_t al) {
    what = "count";
    uint8_t *given = copy_of(ballots, length);
    size_t *answer = noise(al * sizeof *answer), *before = copy_of(answer, al * sizeof *answer);
    size_t status = jugy_count(k, d, n, given, length, answer, al);
    struct said s = reference_count(k, d, n, ballots, length);
    size_t rest[8];
    for (int i = 0; i < 8; i++)
        rest[i] = s.closing[i];
    compare(s, rest, 10, status, answer, before, al);
    CHECK(same(given, ballots, length));
    free(given), free(answer), free(before);
    return s;
}

static struct said call_run(size_t k, size_t d, size_t n, const uint32_t *list, size_t length, const uint8_t *ballots,
                            size_t ballots_length, const uint8_t *masks, size_t tape_length, size_t wires_length,
                            size_t board_length, size_t al, uint8_t *closing) {
    what = "run";
    uint32_t *table = copy_of(list, length * 4);
    uint8_t *given = copy_of(ballots, ballots_length), *tape = copy_of(masks, tape_length);
    uint8_t *wires = noise(wires_length), *board = noise(board_length);
    uint8_t *expected_wires = copy_of(wires, wires_length), *expected_board = copy_of(board, board_length);
    size_t *answer = noise(al * sizeof *answer), *before = copy_of(answer, al * sizeof *answer);
    size_t status = jugy_run(k, d, n, table, length, given, ballots_length, tape, tape_length, wires, wires_length,
                             board, board_length, answer, al);
    struct said s;
    if (al < 4)
        s = (struct said){JUGY_SHORT_ANSWER, 0, 0, 0, {0}};
    else /* if it refuses, it leaves the expected wires and board as they were */
        s = reference_run(k, d, n, list, length, ballots, ballots_length, masks, tape_length, expected_wires,
                          wires_length, expected_board, board_length);
    size_t rest[2] = {s.gates, s.conditional};
    compare(s, rest, 4, status, answer, before, al);
    CHECK(same(wires, expected_wires, wires_length));
    CHECK(same(board, expected_board, board_length));
    CHECK(same(table, list, length * 4) && same(given, ballots, ballots_length) && same(tape, masks, tape_length));
    if (closing && s.reason == 0)
        memcpy(closing, board + board_length - k, k);
    free(table), free(given), free(tape), free(wires), free(board), free(expected_wires), free(expected_board);
    free(answer), free(before);
    return s;
}

/* Measures a shape; call_write compares G, C and I with what writing answers. */
static struct said call_measure(size_t k, size_t d, size_t n, size_t al) {
    what = "measure";
    size_t *answer = noise(al * sizeof *answer), *before = copy_of(answer, al * sizeof *answer);
    size_t status = jugy_measure(k, d, n, answer, al);
    struct said s = {shape_within(k, d, n) ? 0 : 1, 0, 0, 0, {0}};
    size_t rest[3] = {0, 0, ballot_bytes(k, d, n)};
    if (s.reason == 0 && al >= 5) {
        s.gates = rest[0] = answer[2];
        s.conditional = rest[1] = answer[3];
    }
    compare(s, rest, 5, status, answer, before, al);
    free(answer), free(before);
    return s;
}

/* Writes the own list into a table of some length, over noise. The reference writes no lists, so the core's list is
 * compared with the measure, the bound and the test, and by the callers with the rule. Returns the table if the call
 * is accepted. */
static uint32_t *call_write(size_t k, size_t d, size_t n, size_t length, struct said measured, size_t al) {
    what = "write";
    uint32_t *table = noise(length * 4), *before_table = copy_of(table, length * 4);
    size_t *answer = noise(al * sizeof *answer), *before = copy_of(answer, al * sizeof *answer);
    size_t status = jugy_write(k, d, n, table, length, answer, al);
    struct said s = measured;
    if (s.reason == 0 && length < 4 * measured.gates)
        s = (struct said){2, 0, 0, 0, {0}};
    size_t rest[2] = {s.gates, s.conditional};
    compare(s, rest, 4, status, answer, before, al);
    int wrote = al >= 4 && s.reason == 0;
    if (wrote) {
        CHECK(measured.gates <= gate_bound(k, d, n));
        CHECK(same(table + 4 * measured.gates, before_table + 4 * measured.gates, (length - 4 * measured.gates) * 4));
        struct said t = reference_test(k, d, n, table, 4 * measured.gates);
        CHECK(t.reason == 0 && t.gates == measured.gates && t.conditional == measured.conditional);
    } else
        CHECK(same(table, before_table, length * 4));
    free(before_table), free(answer), free(before);
    if (wrote)
        return table;
    free(table);
    return NULL;
}

/* ---- ballots that nearly tie, more often than those of random_jury.h */

/* Rankings with ties: each juror's ranks differ a little from ranks that all jurors share. */
static void close_rankings(uint8_t *b, size_t k, size_t n) {
    uint32_t shared[8], ranks[8], spread = 1 + below(2 * k);
    for (size_t i = 0; i < k; i++)
        shared[i] = below(k);
    for (size_t ballot = 0; ballot < n; ballot++) {
        for (size_t i = 0; i < k; i++)
            ranks[i] = shared[i] + below(spread);
        put_ranking(b + ballot * k * k, ranks, k);
    }
}

static void close_ballots(uint8_t *b, size_t k, size_t d, size_t n) {
    if (d == 0) {
        close_rankings(b, k, n);
        return;
    }
    /* a few grades only, so that medians are often equal */
    size_t favourite = below(d), spread = 1 + below(d);
    memset(b, 0, n * k * d);
    for (size_t row = 0; row < n * k; row++)
        b[row * d + (favourite + below(spread)) % d] = 1;
}

/* ---- runs, good and damaged */

/* A length near the right one. */
static size_t near(size_t length) {
    switch (below(4)) {
    case 0: return length + 1 + below(9);
    case 1: return below(length + 1);
    case 2: return length ? length - 1 : 1;
    default: return length + 1;
    }
}

/* One run of a list on ballots, with up to two things damaged. */
static void damaged_run(size_t k, size_t d, size_t n, const uint32_t *list, size_t gates) {
    size_t inputs = ballot_bytes(k, d, n), conditional = marks_in(list, gates), length = 4 * gates;
    size_t ballots_length = inputs, tape_length = conditional, wires_length = inputs + gates;
    size_t board_length = conditional + k;
    size_t al = answer_length(4);
    uint32_t *t = filled((length + 16) * 4, 0);
    uint8_t *b = filled(inputs + 16, 0), *m = lent(conditional + 16);
    memcpy(t, list, length * 4);
    close_ballots(b, k, d, n);
    random_bits(m, conditional + 16);
    for (uint32_t faults = below(3); faults > 0; faults--) {
        size_t g = below(gates);
        switch (below(14)) {
        case 0: t[4 * g] = KINDS + (below(2) ? 0 : below(1u << 31)); break;
        case 1: t[4 * g + 1 + below(3)] = (uint32_t)(inputs + g); break;
        case 2: t[4 * g + 1 + below(3)] = (uint32_t)(inputs + g + below(1u << 31)); break;
        case 3: t[4 * g] = below(4), t[4 * g + 3] = 1; break;
        case 4: length = near(4 * gates) > 4 * gates + 16 ? 4 * gates : near(4 * gates); break;
        case 5: length = 4 * below(k + 1) > 4 * gates ? 4 * gates : 4 * (k - 1 < gates ? k - 1 : gates); break;
        case 6: ballots_length = near(inputs); break;
        case 7: b[below(inputs)] = (uint8_t)(2 + below(254)); break;
        case 8: memset(b + below(inputs), 0, 1 + below(8)); break;
        case 9: b[below(inputs)] ^= 1; break;
        case 10: tape_length = near(conditional); break;
        case 11: m[below(conditional + 1)] = (uint8_t)(2 + below(254)); break;
        case 12: wires_length = near(wires_length); break;
        default: board_length = near(board_length); break;
        }
        if (length > 4 * gates + 16)
            length = 4 * gates;
        if (ballots_length > inputs + 16)
            ballots_length = inputs;
        if (tape_length > conditional + 16)
            tape_length = conditional;
    }
    /* now and then a shape that is not this list's */
    size_t k2 = below(12) ? k : below(10), d2 = below(12) ? d : below(9), n2 = below(12) ? n : below(258);
    call_test(k2, d2, n2, t, length, answer_length(4));
    call_count(k2, d2, n2, b, ballots_length, answer_length(10));
    call_run(k2, d2, n2, t, length, b, ballots_length, m, tape_length, wires_length, board_length, al, NULL);
    free(t), free(b), free(m);
}

/* The own list of a shape, measured and written; NULL outside the limits. */
static uint32_t *own_list(size_t k, size_t d, size_t n, struct said *measured) {
    *measured = call_measure(k, d, n, 5);
    if (measured->reason)
        return NULL;
    return call_write(k, d, n, 4 * measured->gates, *measured, 4);
}

static void good_run(size_t k, size_t d, size_t n, const uint32_t *list, size_t gates, int own) {
    size_t inputs = ballot_bytes(k, d, n), conditional = marks_in(list, gates);
    uint8_t *b = lent(inputs), *m = lent(conditional), closing[8] = {0};
    close_ballots(b, k, d, n);
    random_bits(m, conditional);
    struct said s =
        call_run(k, d, n, list, 4 * gates, b, inputs, m, conditional, inputs + gates, conditional + k, 4, closing);
    CHECK(s.reason == 0 && s.gates == gates && s.conditional == conditional);
    struct said c = call_count(k, d, n, b, inputs, 10);
    CHECK(c.reason == 0);
    what = "closing bytes";
    if (own)
        CHECK(same(closing, c.closing, k));
    free(b), free(m);
}

/* ---- the edges */

static int refuses(struct said s, size_t reason, size_t place) { return s.reason == reason && s.place == place; }

static void edges(void) {
    struct said m;
    /* reason 1: each number just outside its limits */
    static const size_t outside[][3] = {{0, 3, 3}, {9, 3, 3}, {2, 1, 3}, {2, 8, 3}, {2, 3, 0}, {2, 3, 256},
                                        {SIZE_MAX, 3, 3}, {2, SIZE_MAX, 3}, {2, 3, SIZE_MAX},
                                        {SIZE_MAX, SIZE_MAX, SIZE_MAX}};
    uint32_t none[4] = {1, 0, 0, 0};
    for (size_t i = 0; i < sizeof outside / sizeof *outside; i++) {
        size_t k = outside[i][0], d = outside[i][1], n = outside[i][2];
        CHECK(own_list(k, d, n, &m) == NULL && m.reason == 1);
        call_write(k, d, n, 16, m, 4);
        CHECK(call_test(k, d, n, none, 4, 4).reason == 1);
        CHECK(call_count(k, d, n, (uint8_t *)none, 6, 10).reason == 1);
        CHECK(call_run(k, d, n, none, 4, (uint8_t *)none, 6, (uint8_t *)none, 0, 1, 1, 4, NULL).reason == 1);
    }
    /* every length of answer array up to what is needed, and one more */
    for (size_t al = 0; al <= 11; al++) {
        m = call_measure(2, 3, 3, al);
        struct said whole = call_measure(2, 3, 3, 5);
        free(call_write(2, 3, 3, 4 * whole.gates, whole, al));
        call_test(2, 3, 3, none, 4, al);
        call_count(2, 3, 3, (uint8_t *)none, 6, al);
        call_run(2, 3, 3, none, 4, (uint8_t *)none, 6, (uint8_t *)none, 0, 1, 1, al, NULL);
    }
    /* the jury of [rehearsal]: its list written into tables of lengths around the right one, and run */
    uint32_t *list = own_list(2, 3, 3, &m);
    CHECK(list != NULL);
    for (size_t length = 0; length <= 8; length++)
        free(call_write(2, 3, 3, length, m, 4));
    for (size_t more = 0; more <= 8; more++)
        free(call_write(2, 3, 3, 4 * m.gates - 4 + more, m, 4));
    size_t g = m.gates, c = m.conditional;
    uint8_t tape[8192] = {0}, ballots[18] = {1, 0, 0, 0, 1, 0, 0, 1, 0, 0, 1, 0, 0, 1, 0, 0, 0, 1}, closing[8] = {9, 9};
    CHECK(c < sizeof tape);
    CHECK(call_run(2, 3, 3, list, 4 * g, ballots, 18, tape, c, 18 + g, c + 2, 4, closing).reason == 0);
    CHECK(closing[0] == 1 && closing[1] == 0);
    CHECK(call_count(2, 3, 3, ballots, 18, 10).reason == 0);
    /* reason 2: part of a gate, one gate too few, none */
    CHECK(call_test(2, 3, 3, list, 4 * g - 1, 4).reason == 2);
    CHECK(call_test(2, 3, 3, list, 4, 4).reason == 2);
    CHECK(call_test(2, 3, 3, list, 0, 4).reason == 2);
    CHECK(call_run(2, 3, 3, list, 4, ballots, 18, tape, c, 18 + g, c + 2, 4, NULL).reason == 2);
    /* reason 3: gate 0 uses wire I, which is its own (I - 1 is allowed); kind 8; an unused operand that is not 0 */
    uint32_t two[8] = {2, 18, 0, 0, 3, 18, 0, 0};
    CHECK(refuses(call_test(2, 3, 3, two, 8, 4), 3, 0));
    two[1] = 17;
    CHECK(call_test(2, 3, 3, two, 8, 4).reason == 0);
    two[4] = KINDS;
    CHECK(refuses(call_test(2, 3, 3, two, 8, 4), 3, 1));
    two[4] = 3, two[6] = 1;
    CHECK(refuses(call_run(2, 3, 3, two, 8, ballots, 18, tape, 0, 20, 2, 4, NULL), 3, 1));
    two[6] = 0;
    CHECK(call_run(2, 3, 3, two, 8, ballots, 18, tape, 0, 20, 2, 4, NULL).reason == 0);
    /* reasons 4 to 6, for a count and for a run */
    for (size_t length = 0; length < 18; length++) {
        CHECK(call_count(2, 3, 3, ballots, length, 10).reason == 4);
        CHECK(call_run(2, 3, 3, two, 8, ballots, length, tape, 0, 20, 2, 4, NULL).reason == 4);
    }
    uint8_t bad[18];
    memcpy(bad, ballots, 18);
    bad[17] = 2, bad[0] = 0; /* 5 before 6: the last ballot has a byte 2, row 0 no 1 */
    CHECK(refuses(call_count(2, 3, 3, bad, 18, 10), 5, 17));
    bad[17] = 1;
    CHECK(refuses(call_count(2, 3, 3, bad, 18, 10), 6, 0));
    bad[0] = 1, bad[16] = 1;
    CHECK(refuses(call_run(2, 3, 3, two, 8, bad, 18, tape, 0, 20, 2, 4, NULL), 6, 5));
    /* reasons 7 to 10 */
    CHECK(call_run(2, 3, 3, list, 4 * g, ballots, 18, tape, c - 1, 18 + g, c + 2, 4, NULL).reason == 7);
    CHECK(call_run(2, 3, 3, list, 4 * g, ballots, 18, tape, c + 1, 18 + g, c + 2, 4, NULL).reason == 7);
    tape[c - 1] = 2;
    CHECK(refuses(call_run(2, 3, 3, list, 4 * g, ballots, 18, tape, c, 18 + g, c + 2, 4, NULL), 8, c - 1));
    tape[c - 1] = 0;
    CHECK(call_run(2, 3, 3, list, 4 * g, ballots, 18, tape, c, 18 + g - 1, c + 2, 4, NULL).reason == 9);
    CHECK(call_run(2, 3, 3, list, 4 * g, ballots, 18, tape, c, 18 + g + 1, c + 2, 4, NULL).reason == 9);
    CHECK(call_run(2, 3, 3, list, 4 * g, ballots, 18, tape, c, 18 + g, c + 1, 4, NULL).reason == 10);
    CHECK(call_run(2, 3, 3, list, 4 * g, ballots, 18, tape, c, 18 + g, c + 3, 4, NULL).reason == 10);
    free(list);
    /* rankings: 11 comes before 12; its place is the earlier of two opposite bytes, and that of 12 is the ballot */
    list = own_list(3, 0, 2, &m);
    CHECK(list != NULL);
    g = m.gates, c = m.conditional;
    uint8_t ranked[18] = {0, 1, 1, 0, 0, 0, 0, 0, 0, 0, 0, 1, 0, 0, 1, 0, 0, 0}, none_before[9] = {0};
    CHECK(call_count(3, 0, 2, ranked, 18, 10).reason == 0);
    CHECK(call_count(3, 0, 2, ranked, 17, 10).reason == 4);
    ranked[9 + 6] = 1;
    CHECK(refuses(call_count(3, 0, 2, ranked, 18, 10), 11, 9 + 2));
    ranked[2] = 0; /* now the first ballot has fault 12 */
    CHECK(call_count(3, 0, 2, ranked, 18, 10).reason == 11);
    ranked[9 + 6] = 0;
    CHECK(refuses(call_count(3, 0, 2, ranked, 18, 10), 12, 0));
    memcpy(ranked + 9, none_before, 9);
    CHECK(refuses(call_run(3, 0, 2, list, 4 * g, ranked, 18, tape, c, 18 + g, c + 3, 4, NULL), 12, 0));
    ranked[2] = 1;
    CHECK(call_run(3, 0, 2, list, 4 * g, ranked, 18, tape, c, 18 + g, c + 3, 4, NULL).reason == 0);
    free(list);
    /* the smallest shape, and the largest number of gates and one more */
    list = own_list(1, 2, 1, &m);
    good_run(1, 2, 1, list, m.gates, 1);
    free(list);
    const size_t most = 1048576;
    list = filled(16 * (most + 1), 0);
    CHECK(call_test(1, 2, 1, list, 4 * most, 4).reason == 0);
    CHECK(call_test(1, 2, 1, list, 4 * most + 4, 4).reason == 2);
    free(list);
}

/* ---- every shape */

static void every_shape(void) {
    for (size_t k = 1; k <= 8; k++)
        for (size_t d = 0; d <= 7; d += d == 0 ? 2 : 1)
            for (size_t n = 1; n <= 255; n++) {
                struct said m;
                uint32_t *list = own_list(k, d, n, &m);
                CHECK(list != NULL);
                good_run(k, d, n, list, m.gates, 1);
                free(list);
            }
}

/* ---- random juries */

static void random_juries(size_t juries) {
    for (size_t i = 0; i < juries; i++) {
        /* mostly small, now and then of any size */
        uint32_t way = below(40);
        size_t k = 1 + below(way < 30 ? 4 : 8), d = 1 + below(way < 30 ? 4 : 7);
        size_t n = 1 + below(way < 30 ? 9 : way < 39 ? 40 : 255);
        if (d == 1)
            d = 0; /* a ranking */
        struct said m;
        uint32_t *list = own_list(k, d, n, &m);
        CHECK(list != NULL);
        call_measure(below(10), below(9), below(258), answer_length(5));
        free(call_write(k, d, n, near(4 * m.gates), m, answer_length(4)));
        good_run(k, d, n, list, m.gates, 1);
        good_run(k, d, n, list, m.gates, 1);
        damaged_run(k, d, n, list, m.gates);
        free(list);
        for (int j = 0; j < 4; j++) {
            size_t gates = k + below(below(10) ? 60 : 2000);
            uint32_t *other = lent(16 * gates);
            random_list(other, ballot_bytes(k, d, n), gates);
            good_run(k, d, n, other, gates, 0);
            damaged_run(k, d, n, other, gates);
            damaged_run(k, d, n, other, gates);
            free(other);
        }
    }
}

int main(int argc, char **argv) {
    if (argc == 2 && strcmp(argv[1], "edges") == 0)
        edges();
    else if (argc == 2 && strcmp(argv[1], "shapes") == 0)
        every_shape();
    else if (argc == 4 && strcmp(argv[1], "random") == 0) {
        start_random(strtoull(argv[3], NULL, 10));
        random_juries(strtoull(argv[2], NULL, 10));
    } else {
        printf("usage: library_test edges | shapes | random N SEED\n");
        return 2;
    }
    if (strcmp(argv[1], "shapes") == 0)
        ALL_SEEN("library_test shapes", 0);
    else
        ALL_SEEN("library_test", 0, 1, 2, 3, 4, 5, 6, 7, 8, 9, 10, 11, 12, JUGY_SHORT_ANSWER);
    return 0;
}
