/* Looks for gates of own lists on which no closing byte depends, from the last gate to the first.
 *   dead_gates ranked   looks through the own list of each ranked shape
 *   dead_gates graded   looks through the own list of each graded shape
 * It prints how many lists it looked through, and ends with 1 at the first list with such a gate. */
#include "../../c/jugyvaros.h"
#include "kinds.h"
#include <stdint.h>
#include <stdio.h>
#include <stdlib.h>
#include <string.h>

enum { MOST_GATES = 400000, MOST_WIRES = MOST_GATES + 255 * 64 };
static uint32_t table[4 * MOST_GATES];
static uint8_t needed[MOST_WIRES];

/* The number of gates on which no closing byte depends. There are `inputs` wires before the gates. */
static size_t dead(size_t inputs, size_t gates, size_t k) {
    size_t count = 0;
    memset(needed, 0, inputs + gates);
    for (size_t g = gates; g-- > 0;) {
        const uint32_t *gate = table + 4 * g;
        if (g + k < gates && !needed[inputs + g]) {
            count++;
            continue;
        }
        for (uint32_t i = 0; i < kind_operands[gate[0]]; i++)
            needed[gate[1 + i]] = 1;
    }
    return count;
}

int main(int argc, char **argv) {
    int ranked = argc == 2 && strcmp(argv[1], "ranked") == 0, graded = argc == 2 && strcmp(argv[1], "graded") == 0;
    size_t lists = 0;
    if (!ranked && !graded) {
        printf("usage: dead_gates ranked|graded\n");
        return 2;
    }
    for (size_t k = 1; k <= 8; k++)
        for (size_t d = ranked ? 0 : 2; d <= (ranked ? 0 : 7); d++)
            for (size_t n = 1; n <= 255; n++) {
                size_t answer[5] = {0}, inputs = n * k * (d == 0 ? k : d);
                if (jugy_measure(k, d, n, answer, 5) != 0 || answer[2] > MOST_GATES ||
                    inputs > MOST_WIRES - MOST_GATES) {
                    printf("dead_gates: %zu %zu %zu cannot be measured\n", k, d, n);
                    return 1;
                }
                size_t gates = answer[2], found;
                if (jugy_write(k, d, n, table, 4 * gates, answer, 4) != 0) {
                    printf("dead_gates: %zu %zu %zu cannot be written\n", k, d, n);
                    return 1;
                }
                found = dead(inputs, gates, k);
                if (found != 0) {
                    printf("dead_gates: %zu %zu %zu has %zu gates, %zu of them without effect\n", k, d, n, gates,
                           found);
                    return 1;
                }
                lists++;
            }
    printf("dead_gates: %zu %s lists, no gate without effect on a closing byte\n", lists, argv[1]);
    return 0;
}
