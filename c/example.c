/* Writes the list of a jury of two blends, three grades and three ballots, runs it and prints who wins.
 * Build: cc -o example c/example.c crates/jugyvaros/out/libjugyvaros.a
 * or, once installed: cc -o example example.c $(pkg-config --cflags --libs jugyvaros) */
#include <stdio.h>
#include <stdlib.h>
#include <sys/random.h>
#include "jugyvaros.h"

/* Ends the program if a call was refused. */
static void accepted(const char *call, size_t status, const size_t *answer) {
    if (status == 0)
        return;
    fprintf(stderr, "%s: refused %zu %zu\n", call, status, status == JUGY_SHORT_ANSWER ? 0 : answer[1]);
    exit(1);
}

static void *lent(size_t count, size_t size) {
    void *p = calloc(count ? count : 1, size);
    if (!p)
        exit(1);
    return p;
}

/* A fresh tape: secret random bits, which no other run may use. */
static uint8_t *random_bits(size_t count) {
    uint8_t *bits = lent(count, 1);
    for (size_t done = 0; done < count;) {
        ssize_t got = getrandom(bits + done, count - done, 0);
        if (got < 0)
            exit(1);
        done += (size_t)got;
    }
    for (size_t i = 0; i < count; i++)
        bits[i] %= 2;
    return bits;
}

int main(void) {
    const size_t k = 2, d = 3, n = 3;
    const uint8_t ballots[] = {1, 0, 0, 0, 1, 0, /* first ballot: blend 0 best, blend 1 middle */
                               0, 1, 0, 0, 1, 0, 0, 1, 0, 0, 0, 1};
    size_t answer[JUGY_MEASURE_ANSWER];

    accepted("measure", jugy_measure(k, d, n, answer, JUGY_MEASURE_ANSWER), answer);
    const size_t gates = answer[2], conditional = answer[3], inputs = answer[4];
    uint32_t *table = lent(4 * gates, sizeof *table);
    uint8_t *tape = random_bits(conditional);
    uint8_t *wires = lent(inputs + gates, 1);
    uint8_t *board = lent(conditional + k, 1);

    accepted("write", jugy_write(k, d, n, table, 4 * gates, answer, JUGY_WRITE_ANSWER), answer);
    accepted("run",
             jugy_run(k, d, n, table, 4 * gates, ballots, sizeof ballots, tape, conditional, wires, inputs + gates,
                      board, conditional + k, answer, JUGY_RUN_ANSWER),
             answer);

    printf("jury %zu %zu %zu: %zu gates, %zu conditional\n", k, d, n, gates, conditional);
    for (size_t i = 0; i < k; i++)
        if (board[conditional + i])
            printf("blend %zu wins\n", i);

    free(table);
    free(tape);
    free(wires);
    free(board);
    return 0;
}
