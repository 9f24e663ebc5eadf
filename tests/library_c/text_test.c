/* Gate lists as text: the exported functions against the reference, on exact-size heap buffers.
 *     text_test short CHARACTERS   every text of up to CHARACTERS digits, spaces and line feeds
 *     text_test edits ROUNDS SEED  random lists written, read back, and read again after an edit of one character
 *     text_test faults             every pair of faults, and malformed lines
 *     text_test long               as many lines as a list may have, and one more */
#include "../../c/jugyvaros.h"
#include "random_jury.h"
#include "reference.h"
#include "seen.h"
#include "text_reference.h"

enum { OLD = 0xa5 }; /* what outputs hold before a call */

struct shape {
    size_t k, d, n;
};

static void fail(const char *what, const uint8_t *text, size_t length) {
    fprintf(stderr, "text_test: %s differs at a text of %zu characters: ", what, length);
    fwrite(text, 1, length < 200 ? length : 200, stderr);
    exit(1);
}

/* Reads a text with both; returns the library's answer. */
static struct text_said read_both(struct shape s, const uint8_t *text, size_t length, size_t room) {
    uint8_t *given = copy_of(text, length);
    uint32_t *output = filled(4 * room, OLD), *expected = filled(4 * room, OLD);
    size_t answer[3] = {7, 7, 7};
    size_t status = seen(jugy_read_text(s.k, s.d, s.n, given, length, output, room, answer, 3));
    struct text_said is = {answer[0], answer[1], answer[2]};
    struct text_said to_be = reference_read_text(s.k, s.d, s.n, text, length, expected, room);
    if (status != is.reason || memcmp(&is, &to_be, sizeof is) || memcmp(output, expected, 4 * room))
        fail("reading", text, length);
    free(given);
    free(output);
    free(expected);
    return is;
}

/* Writes a list with both; the text is in `text` if the call is accepted. */
static struct text_said write_both(struct shape s, const uint32_t *table, size_t length, size_t room, uint8_t *text) {
    uint32_t *given = copy_of(table, 4 * length);
    uint8_t *output = filled(room, OLD), *expected = filled(room, OLD);
    size_t answer[3] = {7, 7, 7};
    size_t status = seen(jugy_write_text(s.k, s.d, s.n, given, length, output, room, answer, 3));
    struct text_said is = {answer[0], answer[1], answer[2]};
    struct text_said to_be = reference_write_text(s.k, s.d, s.n, table, length, expected, room);
    if (status != is.reason || memcmp(&is, &to_be, sizeof is) || memcmp(output, expected, room))
        fail("writing", output, room < 200 ? room : 200);
    if (!is.reason && text)
        memcpy(text, output, is.length);
    free(given);
    free(output);
    free(expected);
    return is;
}

static void short_texts(size_t most) {
    static const char alphabet[] = "0123456789 \n";
    static const struct shape shapes[] = {{1, 2, 1}, {2, 2, 1}, {3, 7, 255}};
    uint8_t text[8];
    for (size_t length = 0; length <= most; length++) {
        size_t digits[8] = {0};
        for (;;) {
            for (size_t i = 0; i < length; i++)
                text[i] = (uint8_t)alphabet[digits[i]];
            for (size_t s = 0; s < 3; s++)
                read_both(shapes[s], text, length, 16);
            size_t i = 0;
            while (i < length && ++digits[i] == 12)
                digits[i++] = 0;
            if (i == length)
                break;
        }
    }
}

static void edits(size_t rounds, uint64_t seed) {
    static const char characters[] = "0123456789 \n\t\r+-x";
    static uint32_t table[4 * 40];
    static uint8_t text[4096];
    start_random(seed);
    for (size_t round = 0; round < rounds; round++) {
        struct shape s = {1 + below(8), below(4) ? 2 + below(6) : 0, 1 + below(255)};
        size_t gates = s.k + below(30), inputs = ballot_bytes(s.k, s.d, s.n);
        random_list(table, inputs, gates);
        struct text_said wrote = write_both(s, table, 4 * gates, 4096, text);
        if (wrote.reason)
            fail("a good list", text, 0);
        write_both(s, table, 4 * gates, wrote.length, text);
        write_both(s, table, 4 * gates, wrote.length - 1 - below(wrote.length), NULL);
        if (read_both(s, text, wrote.length, 4 * gates).reason ||
            read_both(s, text, wrote.length, 4 * gates + 3).reason)
            fail("a good text", text, wrote.length);
        read_both(s, text, wrote.length, below(4 * gates));
        for (int i = 0; i < 8; i++) {
            uint8_t edited[4096 + 1];
            size_t at = below(wrote.length), kept = wrote.length;
            uint8_t c = (uint8_t)characters[below(sizeof characters - 1)];
            memcpy(edited, text, kept);
            if (i % 3 == 0)
                edited[at] = c;
            else if (i % 3 == 1)
                memmove(edited + at, edited + at + 1, --kept - at);
            else {
                memmove(edited + at + 1, edited + at, kept++ - at);
                edited[at] = c;
            }
            read_both(s, edited, kept, 4 * gates + 8);
        }
        table[below(4 * gates)] = below(3) ? below(inputs + 40) : 4294967295u;
        write_both(s, table, 4 * gates - below(2), 4096, NULL);
    }
}

/* All combinations of faults: shape, number of lines, malformed line, gate and output; for grades or for rankings. */
static void read_faults(size_t grades) {
    static const char *bad_forms[] = {
        "",  " 0", "0 ", "00",    "01",  "2  0", "2 01", "2",   "2 0 0", "0 0",
        "8", "+0", "-1", "2\t0", "0\r", "2 0 ", "x",    "4 0", "7 0 0", "2 4294967296",
        "2 99999999999999999999999999999999999999999999999999"};
    for (int mask = 0; mask < 16; mask++)
        for (size_t f = 0; f < sizeof bad_forms / sizeof *bad_forms; f++) {
            struct shape s = {mask & 1 ? 9 : 2, grades, 1};
            char text[256] = "";
            strcat(text, mask & 8 ? "2 4\n" : "2 3\n"); /* wire 4 is the gate's own, graded or ranked */
            if (!(mask & 2)) {
                strcat(text, mask & 4 ? bad_forms[f] : "0");
                strcat(text, "\n");
            }
            for (size_t room = 0; room <= 9; room++)
                read_both(s, (const uint8_t *)text, strlen(text), room);
        }
}

/* The same for writing: shape, length of the table, gate and output. */
static void write_faults(size_t grades) {
    static const uint32_t second[][4] = {{3, 4, 0, 0}, {KINDS, 0, 0, 0}, {2, 5, 0, 0},
                                         {3, 4, 1, 0}, {7, 1, 2, 4}, {2, 4294967295u, 0, 0}};
    for (size_t g = 0; g < sizeof second / sizeof *second; g++)
        for (size_t k = 2; k <= 9; k += 7)
            for (size_t length = 0; length <= 12; length++)
                for (size_t room = 0; room <= 16; room++) {
                    uint32_t table[12] = {2, 3, 0, 0};
                    memcpy(table + 4, second[g], sizeof second[g]);
                    write_both((struct shape){k, grades, 1}, table, length, room, NULL);
                }
}

static void expect_read(const char *text, size_t reason) {
    if (read_both((struct shape){1, 2, 1}, (const uint8_t *)text, strlen(text), 4).reason != reason)
        fail("a reason", (const uint8_t *)text, strlen(text));
}

static void faults(void) {
    for (size_t grades = 0; grades <= 2; grades += 2) {
        read_faults(grades);
        write_faults(grades);
    }
    expect_read("2 1\n", 0);
    expect_read("2 4294967295\n", JUGY_GATE);
    expect_read("2 4294967296\n", JUGY_LINE);
    static const char *open_lines[] = {"0", "x", "2 0", "0\n0", "2 0\n2", "0\n0\n0", "\n\n", "", "\n", "0\n\n"};
    for (size_t i = 0; i < sizeof open_lines / sizeof *open_lines; i++)
        for (size_t k = 1; k <= 3; k++) {
            struct shape s = {k, 2, 1};
            read_both(s, (const uint8_t *)open_lines[i], strlen(open_lines[i]), 12);
        }
    uint8_t digits[404] = "2 ";
    memset(digits + 2, '9', 400);
    digits[402] = '\n';
    struct shape s = {1, 2, 1};
    read_both(s, digits, 403, 4);
    digits[2] = '1';
    memset(digits + 3, '0', 399);
    read_both(s, digits, 403, 4);
    size_t answer[3] = {1, 2, 3};
    uint32_t numbers[4] = {5, 5, 5, 5};
    uint8_t characters[4] = {5, 5, 5, 5};
    size_t read = seen(jugy_read_text(1, 2, 1, (const uint8_t *)"0\n", 2, numbers, 4, answer, 2));
    size_t wrote = seen(jugy_write_text(1, 2, 1, numbers, 4, characters, 4, answer, 2));
    if (read != JUGY_SHORT_ANSWER || wrote != read || numbers[0] != 5 || characters[0] != 5 || answer[0] != 1)
        fail("a short answer array", characters, 0);
}

static void longest(void) {
    size_t most = 1048576;
    struct shape s = {8, 7, 255};
    uint8_t *text = lent(4 * (most + 1));
    for (size_t lines = most; lines <= most + 1; lines++) {
        for (size_t i = 0; i < lines; i++)
            memcpy(text + 4 * i, i % 2 ? "3 7\n" : "2 5\n", 4);
        struct text_said said = read_both(s, text, 4 * lines, 4 * lines);
        if (said.reason != (lines > most ? 2 : 0))
            fail("the longest text", text, 0);
        uint32_t *table = filled(16 * lines, 0);
        for (size_t i = 0; i < lines; i++)
            table[4 * i] = 2 + i % 2, table[4 * i + 1] = i % 2 ? 7 : 5;
        if (write_both(s, table, 4 * lines, 4 * lines, NULL).reason != (lines > most ? 2 : 0))
            fail("the longest list", text, 0);
        free(table);
    }
    free(text);
}

int main(int argc, char **argv) {
    if (argc == 3 && !strcmp(argv[1], "short")) {
        short_texts((size_t)atoi(argv[2]));
        if (atoi(argv[2]) > 3)
            ALL_SEEN("text_test short", 0, 2, 3, 23);
        else
            ALL_SEEN("text_test short", 0, 2, 23);
    } else if (argc == 4 && !strcmp(argv[1], "edits")) {
        edits((size_t)atoi(argv[2]), (uint64_t)atoi(argv[3]));
        ALL_SEEN("text_test edits", 0, 2, 3, 23, 24);
    } else if (argc == 2 && !strcmp(argv[1], "faults")) {
        faults();
        ALL_SEEN("text_test faults", 0, 1, 2, 3, 23, 24, JUGY_SHORT_ANSWER);
    } else if (argc == 2 && !strcmp(argv[1], "long")) {
        longest();
        ALL_SEEN("text_test long", 0, 2);
    } else
        return 2;
    return 0;
}
