/* Runs a jury of rankings once, with random ballots and masks from a seed, so that callgrind can count the steps of
 * jugy_run: tests/library compares them. The list is the own one of five candidates and nine ballots. */
#include <stdio.h>

#include "../../c/jugyvaros.h"
#include "random_jury.h"

enum { K = 5, N = 9, INPUTS = N * K * K };

int main(int count, char **arguments) {
    size_t measures[5], answer[4];
    start_random(count > 1 ? strtoull(arguments[1], NULL, 10) : 1);
    if (jugy_measure(K, 0, N, measures, 5))
        return 1;
    size_t gates = measures[2], conditional = measures[3];
    uint32_t *table = lent(16 * gates);
    uint8_t *ballots = lent(INPUTS), *tape = lent(conditional), *wires = lent(INPUTS + gates);
    uint8_t *board = lent(conditional + K);
    if (jugy_write(K, 0, N, table, 4 * gates, answer, 4))
        return 1;
    random_ballots(ballots, K, 0, N);
    random_bits(tape, conditional);
    size_t reason = jugy_run(K, 0, N, table, 4 * gates, ballots, INPUTS, tape, conditional, wires, INPUTS + gates, board,
                             conditional + K, answer, 4);
    free(table), free(ballots), free(tape), free(wires), free(board);
    return reason != 0;
}
