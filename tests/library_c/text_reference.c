#include "text_reference.h"
#include "kinds.h"
#include "reference.h"
#include <stdio.h>
#include <stdlib.h>
#include <string.h>

static struct text_said refused(size_t reason, size_t place) {
    struct text_said s = {reason, place, 0};
    return s;
}

static size_t print_line(const uint32_t *gate, char *line) {
    size_t at = (size_t)sprintf(line, "%u", (unsigned)gate[0]);
    for (uint32_t i = 0; i < kind_operands[gate[0]]; i++)
        at += (size_t)sprintf(line + at, " %u", (unsigned)gate[1 + i]);
    line[at++] = '\n';
    return at;
}

struct text_said reference_write_text(size_t k, size_t d, size_t n, const uint32_t *table, size_t length,
                                      uint8_t *output, size_t output_length) {
    struct said tested = reference_test(k, d, n, table, length);
    if (tested.reason)
        return refused(tested.reason, tested.place);
    char line[64];
    size_t total = 0;
    for (size_t g = 0; g < length / 4; g++)
        total += print_line(table + 4 * g, line);
    if (output_length < total)
        return refused(24, 0);
    size_t at = 0;
    for (size_t g = 0; g < length / 4; g++) {
        size_t long_ = print_line(table + 4 * g, line);
        memcpy(output + at, line, long_);
        at += long_;
    }
    struct text_said s = {0, 0, total};
    return s;
}

/* A line is a gate if the gate that strtoull finds in it prints as exactly the same characters. */
static int line_is_gate(const uint8_t *line, size_t length, uint32_t *gate) {
    char copy[64], again[64];
    if (length == 0 || length >= sizeof copy || line[length - 1] != '\n')
        return 0;
    memcpy(copy, line, length);
    copy[length - 1] = 0;
    if (strlen(copy) != length - 1)
        return 0;
    memset(gate, 0, 4 * sizeof *gate);
    char *rest = copy;
    for (uint32_t i = 0; i < 4; i++) {
        char *end;
        if (*rest < '0' || *rest > '9')
            return 0;
        unsigned long long value = strtoull(rest, &end, 10);
        if (value > 4294967295ull || (i == 0 && value >= KINDS))
            return 0;
        gate[i] = (uint32_t)value;
        rest = end;
        if (i == kind_operands[gate[0]])
            break;
        if (*rest++ != ' ')
            return 0;
    }
    return *rest == 0 && print_line(gate, again) == length && !memcmp(again, line, length);
}

static size_t line_end(const uint8_t *text, size_t length, size_t at) {
    while (at < length && text[at] != '\n')
        at++;
    return at < length ? at + 1 : at;
}

struct text_said reference_read_text(size_t k, size_t d, size_t n, const uint8_t *text, size_t length, uint32_t *output,
                                     size_t output_length) {
    if (!shape_within(k, d, n))
        return refused(1, 0);
    size_t lines = 0;
    for (size_t at = 0; at < length; at = line_end(text, length, at))
        lines++;
    if (lines < k || lines > 1048576)
        return refused(2, 0);
    uint32_t *numbers = malloc(16 * lines);
    size_t line = 0;
    for (size_t at = 0; at < length; line++) {
        size_t end = line_end(text, length, at);
        if (!line_is_gate(text + at, end - at, numbers + 4 * line)) {
            free(numbers);
            return refused(23, line);
        }
        at = end;
    }
    struct said tested = reference_test(k, d, n, numbers, 4 * lines);
    struct text_said s = {0, 0, 4 * lines};
    if (tested.reason)
        s = refused(tested.reason, tested.place);
    else if (output_length < 4 * lines)
        s = refused(24, 0);
    else
        memcpy(output, numbers, 16 * lines);
    free(numbers);
    return s;
}
