/* Counts the statuses of a program's calls. Each program names those that can occur, and ends with 1 if one of them
 * never occurred, or if another did. */
#ifndef SEEN_H
#define SEEN_H

#include <stdio.h>
#include <stdlib.h>

enum { STATUSES = 256 };

static size_t seen_statuses[STATUSES];

/* Counts a status, and returns it. */
static inline size_t seen(size_t status) {
    if (status < STATUSES)
        seen_statuses[status]++;
    return status;
}

static inline void all_seen(const char *program, const size_t *expected, size_t count) {
    size_t calls = 0, named = 0;
    for (size_t status = 0; status < STATUSES; status++)
        calls += seen_statuses[status];
    printf("%s: ok, %zu calls;", program, calls);
    for (size_t i = 0; i < count; i++) {
        printf(" %zu: %zu", expected[i], seen_statuses[expected[i]]);
        if (!seen_statuses[expected[i]]) {
            printf("\n%s: status %zu never occurred\n", program, expected[i]);
            exit(1);
        }
        named += seen_statuses[expected[i]];
    }
    printf("\n");
    if (named != calls) {
        printf("%s: a status occurred that is not one of these\n", program);
        exit(1);
    }
}

#define ALL_SEEN(program, ...)                                                                                         \
    all_seen(program, (const size_t[]){__VA_ARGS__}, sizeof(const size_t[]){__VA_ARGS__} / sizeof(size_t))

#endif
