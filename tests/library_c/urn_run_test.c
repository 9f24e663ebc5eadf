/* Runs on an urn, on heap buffers of exactly the lent length, for valgrind. Ballots are admitted and withdrawn, and now
 * and then the urn is damaged; tables, tapes, wire tables and boards fit, or are one too long or too short. A run on a
 * sound urn is compared with jugy_run on the ballots of its chain. The urn never changes, and after a refusal no buffer
 * has changed. */
#include "../../c/jugyvaros.h"
#include "random_jury.h"
#include "reference.h"
#include "seen.h"

static void expect(int holds, const char *what) {
    if (!holds) {
        printf("urn_run_test: %s\n", what);
        exit(1);
    }
}

static void fill(size_t k, size_t d, uint8_t *urn, size_t length, size_t times) {
    size_t said[JUGY_URN_ANSWER];
    uint8_t *ballot = lent(k * d);
    for (size_t i = 0; i < times; i++) {
        random_ballots(ballot, k, d, 1);
        jugy_admit(k, d, urn, length, 1 + below(255), ballot, k * d, said, JUGY_URN_ANSWER);
        if (!below(3))
            jugy_withdraw(k, d, urn, length, 1 + below(255), said, JUGY_URN_ANSWER);
    }
    free(ballot);
}

/* The ballots of a sound urn, slot after slot along the chain, and their number. */
static uint8_t *chain_of(size_t k, size_t d, const uint8_t *urn, size_t *count) {
    uint8_t *ballots = lent(255 * k * d);
    *count = 0;
    for (size_t slot = urn[0]; slot; slot = urn[slot * (2 + k * d)])
        memcpy(ballots + (*count)++ * k * d, urn + slot * (2 + k * d) + 2, k * d);
    return ballots;
}

static int is_sound(size_t k, size_t d, const uint8_t *urn, size_t length) {
    size_t said[JUGY_URN_ANSWER];
    return jugy_preview_withdraw(k, d, urn, length, 0, said, JUGY_URN_ANSWER) == JUGY_JUROR;
}

static void one_call(size_t k, size_t d, size_t n, const uint8_t *urn, size_t length) {
    size_t said[JUGY_RUN_ANSWER], other[JUGY_RUN_ANSWER], gates = k + below(6), c = 0, count;
    size_t numbers = about(4 * gates);
    uint32_t *table = filled(4 * numbers, 0);
    for (size_t g = 0; g < gates && 4 * g + 3 < numbers; g++) {
        uint32_t own = (uint32_t)(n * k * d + g);
        table[4 * g] = 4 + below(3);
        table[4 * g + 1] = below(40) ? below(own) : own;
        table[4 * g + 2] = below(own);
        c += kind_conditional[table[4 * g]];
    }
    size_t tape_length = about(c), wires_length = about(n * k * d + gates), board_length = about(c + k);
    uint8_t *tape = filled(tape_length, (uint8_t)(below(30) ? below(2) : 2));
    uint8_t *wires = filled(wires_length, 7), *board = filled(board_length, 7), *before = copy_of(urn, length);
    size_t room = below(20) ? JUGY_RUN_ANSWER : below(JUGY_RUN_ANSWER);
    said[0] = seen(jugy_run_urn(k, d, n, table, numbers, urn, length, tape, tape_length, wires, wires_length, board,
                                board_length, said, room));
    expect(!memcmp(before, urn, length), "the urn is changed");
    if (room < JUGY_RUN_ANSWER) {
        expect(said[0] == JUGY_SHORT_ANSWER, "a short answer array is accepted");
    } else if (!shape_within(k, d, n) || d == 0) {
        expect(said[0] == JUGY_SHAPE, "a shape outside the limits is accepted");
    } else if (is_sound(k, d, urn, length)) {
        uint8_t *chain = chain_of(k, d, urn, &count), *ballots = copy_of(chain, count * k * d);
        uint8_t *run_wires = filled(wires_length, 7), *run_board = filled(board_length, 7);
        jugy_run(k, d, n, table, numbers, ballots, count * k * d, tape, tape_length, run_wires, wires_length, run_board,
                 board_length, other, JUGY_RUN_ANSWER);
        expect(!memcmp(said, other, sizeof said), "another answer than that of jugy_run on the ballots of the chain");
        expect(!memcmp(wires, run_wires, wires_length) && !memcmp(board, run_board, board_length), "other buffers");
        free(chain);
        free(ballots);
        free(run_wires);
        free(run_board);
    } else {
        expect(said[0] == JUGY_URN, "an unsound urn is not refused with its reason");
    }
    for (size_t i = 0; said[0] && i < wires_length; i++)
        expect(wires[i] == 7, "a refusal changes the wire table");
    for (size_t i = 0; said[0] && i < board_length; i++)
        expect(board[i] == 7, "a refusal changes the board");
    free(table);
    free(tape);
    free(wires);
    free(board);
    free(before);
}

int main(int count, char **words) {
    int rounds = count > 1 ? atoi(words[1]) : 100;
    for (int r = 0; r < rounds; r++) {
        size_t k = 1 + below(8), d = 2 + below(6), size = 2 + k * d, slots = below(9) ? 2 + below(8) : 1 + below(256),
               many;
        size_t length = slots * size + (below(8) ? 0 : below(3));
        uint8_t *urn = filled(length, 0), *chain;
        urn[1] = 1;
        for (size_t i = 1; i + 1 < slots; i++)
            urn[i * size] = (uint8_t)(i + 1);
        fill(k, d, urn, length, below(12));
        if (!below(4))
            urn[below(length)] = (uint8_t)below(256);
        many = 1;
        if (is_sound(k, d, urn, length)) {
            chain = chain_of(k, d, urn, &many);
            free(chain);
        }
        if (!below(8))
            many += 1;
        one_call(below(30) ? k : 9 * below(2), below(30) ? d : below(2), many, urn, length);
        free(urn);
    }
    ALL_SEEN("urn_run_test", 0, 1, 2, 3, 4, 7, 8, 9, 10, 13, JUGY_SHORT_ANSWER);
    return 0;
}
