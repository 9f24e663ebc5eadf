/* Lists as text: the library compared with the same passes in C.
 *     text    prints OP K D N GATES CORE_NS C_NS RATIO CHARACTERS, a line for each, timed as timing.h says
 * First it compares the texts and lists of both. */
#include "../tests/library_c/kinds.h"
#include "jury.h"
#include "timing.h"

static const size_t shapes[][3] = {{2, 3, 3}, {5, 6, 100}, {8, 7, 255}, {5, 0, 31}};

static inline size_t digits(uint32_t n) {
    size_t count = 1;
    for (uint64_t bound = 10; bound <= n; bound *= 10)
        count++;
    return count;
}

static inline size_t put(uint32_t n, uint8_t *at) {
    size_t count = digits(n);
    uint8_t *p = at + count;
    do
        *--p = (uint8_t)('0' + n % 10);
    while (n /= 10);
    return count;
}

__attribute__((noinline)) static int gate_is_good(size_t own, const uint32_t *gate) {
    if (gate[0] >= KINDS)
        return 0;
    for (uint32_t i = 0; i < 3; i++)
        if (i < kind_operands[gate[0]] ? gate[1 + i] >= own : gate[1 + i] != 0)
            return 0;
    return 1;
}

__attribute__((noinline)) static size_t write_text(size_t inputs, const uint32_t *table, size_t gates, uint8_t *output,
                                                   size_t room) {
    size_t total = 0, at = 0;
    for (size_t g = 0; g < gates; g++)
        if (!gate_is_good(inputs + g, table + 4 * g))
            return 0;
    for (size_t g = 0; g < gates; g++) {
        total += digits(table[4 * g]) + 1;
        for (uint32_t i = 0; i < kind_operands[table[4 * g]]; i++)
            total += digits(table[4 * g + 1 + i]) + 1;
    }
    if (room < total)
        return 0;
    for (size_t g = 0; g < gates; g++) {
        at += put(table[4 * g], output + at);
        for (uint32_t i = 0; i < kind_operands[table[4 * g]]; i++) {
            output[at++] = ' ';
            at += put(table[4 * g + 1 + i], output + at);
        }
        output[at++] = '\n';
    }
    return at;
}

static inline int number(const uint8_t *text, size_t length, size_t *at, uint32_t *value) {
    size_t i = *at;
    if (i >= length || text[i] < '0' || text[i] > '9')
        return 0;
    uint64_t v = text[i++] - '0';
    if (v)
        for (; i < length && text[i] >= '0' && text[i] <= '9'; i++)
            if ((v = 10 * v + (text[i] - '0')) > 4294967295u)
                return 0;
    *value = (uint32_t)v;
    *at = i;
    return 1;
}

static inline int line(const uint8_t *text, size_t length, size_t *at, uint32_t *gate) {
    gate[1] = gate[2] = gate[3] = 0;
    if (!number(text, length, at, gate) || gate[0] >= KINDS)
        return 0;
    for (uint32_t i = 0; i < kind_operands[gate[0]]; i++) {
        if (*at >= length || text[*at] != ' ')
            return 0;
        ++*at;
        if (!number(text, length, at, gate + 1 + i))
            return 0;
    }
    return *at < length && text[(*at)++] == '\n';
}

__attribute__((noinline)) static size_t read_text(size_t inputs, size_t k, const uint8_t *text, size_t length,
                                                  uint32_t *output, size_t room) {
    size_t lines = 0, g = 0;
    uint32_t gate[4];
    for (size_t i = 0; i < length; i++)
        lines += text[i] == '\n';
    if (lines < k || lines > 1048576)
        return 0;
    for (size_t at = 0; at < length;)
        if (!line(text, length, &at, gate))
            return 0;
    for (size_t at = 0; at < length; g++)
        if (!line(text, length, &at, gate) || !gate_is_good(inputs + g, gate))
            return 0;
    if (room < 4 * lines)
        return 0;
    g = 0;
    for (size_t at = 0; at < length; g += 4)
        line(text, length, &at, output + g);
    return 4 * lines;
}

static struct jury j;
static uint32_t *numbers;
static uint8_t *text;
static size_t room, length;
static int reading;

enum { IN_C, CORE, WAYS };

static size_t call(int way) {
    size_t answer[JUGY_TEXT_ANSWER];
    if (way == CORE)
        return reading ? jugy_read_text(j.k, j.d, j.n, text, length, numbers, 4 * j.gates, answer, JUGY_TEXT_ANSWER)
                       : jugy_write_text(j.k, j.d, j.n, j.table, 4 * j.gates, text, room, answer, JUGY_TEXT_ANSWER);
    return reading ? read_text(j.inputs, j.k, text, length, numbers, 4 * j.gates) != 4 * j.gates
                   : write_text(j.inputs, j.table, j.gates, text, room) != length;
}

static void set_up(const size_t *shape) {
    size_t answer[JUGY_TEXT_ANSWER];
    j = jury_of(shape);
    room = 44 * j.gates, numbers = filled(16 * j.gates, 0), text = filled(room, 0);
    if (jugy_write_text(j.k, j.d, j.n, j.table, 4 * j.gates, text, room, answer, JUGY_TEXT_ANSWER))
        fail_at(&j, "no text");
    length = answer[2];
    uint8_t *expected = copy_of(text, room);
    if ((reading = 0, call(IN_C)) || memcmp(expected, text, room))
        fail_at(&j, "the two texts differ");
    for (int way = 0; way < WAYS; way++) {
        memset(numbers, 9, 16 * j.gates);
        if ((reading = 1, call(way)) || memcmp(numbers, j.table, 16 * j.gates))
            fail_at(&j, "not read back");
    }
    free(expected);
}

int main(void) {
    for (size_t s = 0; s < sizeof shapes / sizeof *shapes; s++) {
        set_up(shapes[s]);
        for (reading = 0; reading < 2; reading++) {
            struct timing of[WAYS];
            take_turns(call, WAYS, MOST_ROUNDS, 5e-4, of);
            printf("%s ", reading ? "read" : "write"), print_shape(&j);
            print_times(j.gates, of[CORE].least, of[IN_C].least, of[CORE].ratio);
            printf(" %zu\n", length);
        }
        free(numbers), free(text), free_jury(&j);
    }
    return 0;
}
