/* Times and instruction counts for the benchmark's programs. Several ways do the same work, and each is compared with
 * way 0. A time is processor time, the least over many short rounds. In each round every way takes its turn, and a
 * ratio is the median over the rounds, so that a slow phase of the machine slows all ways alike. */
#ifndef TIMING_H
#define TIMING_H

#include <stdio.h>
#include <stdlib.h>
#include <time.h>
#include <valgrind/callgrind.h>

enum { MOST_WAYS = 4, MOST_ROUNDS = 201 };

/* Does the work once, in one of the ways; returns 0, or another number if the call is refused. */
typedef size_t work(int way);

/* One way's least time of a call, in seconds, and its ratio to way 0. */
struct timing {
    double least, ratio;
};

static inline double seconds(void) {
    struct timespec t;
    clock_gettime(CLOCK_PROCESS_CPUTIME_ID, &t);
    return (double)t.tv_sec + 1e-9 * (double)t.tv_nsec;
}

static inline double timed(work *call, int way, size_t calls) {
    double start = seconds();
    for (size_t i = 0; i < calls; i++)
        if (call(way)) {
            fprintf(stderr, "bench: a call is refused\n");
            exit(1);
        }
    return (seconds() - start) / (double)calls;
}

static inline int by_size(const void *a, const void *b) {
    double x = *(const double *)a, y = *(const double *)b;
    return (x > y) - (x < y);
}

/* In each round, every way makes as many calls as way 0 makes in `length` seconds, and at least one. */
static inline void take_turns(work *call, int ways, int rounds, double length, struct timing *timings) {
    double took[MOST_WAYS][MOST_ROUNDS], ratios[MOST_WAYS][MOST_ROUNDS];
    size_t calls = (size_t)(length / (timed(call, 0, 3) + 1e-8)) + 1;
    for (int round = 0; round < rounds; round++)
        for (int way = 0; way < ways; way++) {
            took[way][round] = timed(call, way, calls);
            ratios[way][round] = took[way][round] / took[0][round];
        }
    for (int way = 0; way < ways; way++) {
        qsort(took[way], (size_t)rounds, sizeof **took, by_size);
        qsort(ratios[way], (size_t)rounds, sizeof **ratios, by_size);
        timings[way] = (struct timing){took[way][0], ratios[way][rounds / 2]};
    }
}

/* Prints the rest of a line, after what was timed: the gates, the least times in nanoseconds, and the ratio. */
static inline void print_times(size_t gates, double time, double other, double ratio) {
    printf(" %zu %.1f %.1f %.4f", gates, 1e9 * time, 1e9 * other, ratio);
}

/* One call, whose instructions go into a callgrind dump with this label. */
static inline void counted(work *call, int way, const char *label) {
    CALLGRIND_ZERO_STATS;
    CALLGRIND_TOGGLE_COLLECT;
    call(way);
    CALLGRIND_TOGGLE_COLLECT;
    CALLGRIND_DUMP_STATS_AT(label);
}

#endif
