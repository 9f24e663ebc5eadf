/* The counting core of tasting-jury units, for C. Link crates/jugyvaros/out/libjugyvaros.a, which tools/library builds;
 * `tools/library --install PREFIX` installs it below a folder, with a file for pkg-config. c/example.c is a small
 * program that uses it.
 *
 * A jury is counted by a boolean circuit, the gate list. Measure a shape (jugy_measure), write its own list
 * (jugy_write) and run it on the ballots (jugy_run). What the run leaves on the board may be published.
 *
 * Shape: candidates (k) 1 to 8, grades (d) 2 to 7, or 0 if jurors rank the candidates, ballots (n) 1 to 255. Other
 * numbers are refused with reason 1.
 *
 * Graded ballots: I = n k d bytes of 0 or 1. A ballot has a row for each candidate in order, and a row has a byte for
 * each grade, best first; exactly one byte of a row is 1. The byte of ballot b, candidate c and grade g is
 * ballots[(b k + c) d + g].
 *
 * Ranked ballots (d = 0): I = n k k bytes of 0 or 1. The byte of ballot b, row i and column j,
 * ballots[(b k + i) k + j], is 1 if the juror puts candidate i strictly before candidate j, and 0 if i is after j or
 * tied with it.
 *
 * Gates: four numbers each, kind, a, b, c; gate g is table[4 g] to table[4 g + 3]. The ballot bytes are wires 0 to
 * I - 1, and gate g makes wire I + g. Operands that a kind uses name earlier wires; the others are 0. G is the number
 * of gates in a list, and C is the number of conditional (non-linear) ones: each of these costs one opening.
 *
 *   kind  operands  value                conditional
 *   0     none      0                    no
 *   1     none      1                    no
 *   2     a         a                    no
 *   3     a         NOT a                no
 *   4     a b       a AND b              yes
 *   5     a b       a OR b               yes
 *   6     a b       a XOR b              no
 *   7     a b c     b if a is 1, else c  yes
 *
 * Answer: each function writes its answer into the array `answer` and also returns answer[0].
 *   answer[0]  the reason: JUGY_ACCEPTED, or the first reason that applies, in checking order
 *   answer[1]  where the fault is, counted from 0; 0 if the reason has no place or the call is accepted
 *   answer[2]  and after it: what the function's comment says; all 0 on a refusal
 * The rest of the array is not touched. A refusal changes the answer array and nothing else. If the answer array is
 * shorter than the function needs, it returns JUGY_SHORT_ANSWER and changes nothing, not even that array.
 *
 * What the caller must guarantee; the proofs rely on it, and no function can test it:
 *   - each pointer is valid, during the call, for as many elements as the length after it says: for reading if it is
 *     const, else for reading and writing; it is aligned for its type, and not NULL, even if the length is 0
 *   - a buffer that is not const overlaps no other buffer of the same call
 *   - during the call no other thread writes to the buffers, nor reads those that are not const
 * The functions hold no state: calls with different buffers may run at the same time. They allocate nothing, and call
 * nothing but C's memcpy and memset. */
#ifndef JUGYVAROS_H
#define JUGYVAROS_H

#include <stddef.h>
#include <stdint.h>

#ifdef __cplusplus
extern "C" {
#endif

/* The reasons, and what their place counts. A call makes the tests that apply to it, in the order 19, 20, 1, 13, 14, 2,
 * 23, 3, 24, 4, 5, 6 for grades or 11 and 12 for rankings, 15, 16 to 18, 7 to 10. */
#define JUGY_ACCEPTED 0
#define JUGY_SHAPE 1            /* k, d or n is outside its limits */
#define JUGY_TABLE 2            /* writing: the table is too short; otherwise: not k to 1,048,576 whole gates */
#define JUGY_GATE 3             /* a bad kind or operand; place: the gate */
#define JUGY_BALLOTS_LENGTH 4   /* the number of ballot bytes is not I */
#define JUGY_BALLOT_BYTE 5      /* a byte of a ballot is neither 0 nor 1; place: the byte */
#define JUGY_BALLOT_ROW 6       /* graded: a row has no 1, or more than one; place: the row, b k + c */
#define JUGY_TAPE_LENGTH 7      /* the tape's length is not C */
#define JUGY_TAPE_BYTE 8        /* a byte of the tape is neither 0 nor 1; place: the byte */
#define JUGY_WIRES_LENGTH 9     /* the wire table's length is not I + G */
#define JUGY_BOARD_LENGTH 10    /* the board's length is not C + k */
#define JUGY_NOT_ASYMMETRIC 11  /* ranked: two before each other, or one before itself; place: the first such byte */
#define JUGY_NOT_WEAK_ORDER 12  /* ranked: i is before j, a third is not after i and not before j; place: the ballot */
#define JUGY_URN 13             /* the urn is not sound */
#define JUGY_JUROR 14           /* the juror is not 1 to 255, or is already in (admission), or not in (withdrawal) */
#define JUGY_FULL_URN 15        /* the urn has no free slot */
#define JUGY_TRUSTEES 16        /* there are fewer than 2 or more than 5 trustees */
#define JUGY_PART_TABLES 17     /* one of the trustees' four tables has the wrong length */
#define JUGY_DEALING 18         /* a share is neither 0 nor 1, or shares do not add up to a ballot byte or product */
#define JUGY_JURIES 19          /* there are no juries, or more than 8 */
#define JUGY_GATES_PER_ROUND 20 /* gates_per_round is 0 or above 65,536 */
#define JUGY_LINE 23            /* a malformed line, an unknown kind, or a number of 2^32 or more; place: the line */
#define JUGY_OUTPUT 24          /* the output is too short */

/* Earlier names of 11 and 12, kept for one release. */
#define JUGY_BALLOT_CLASH JUGY_NOT_ASYMMETRIC
#define JUGY_BALLOT_GAP JUGY_NOT_WEAK_ORDER

/* What a function returns if its answer array is too short. No reason has this number. */
#define JUGY_SHORT_ANSWER 255

/* How long an answer array has to be. */
#define JUGY_MEASURE_ANSWER 5
#define JUGY_WRITE_ANSWER 4
#define JUGY_TEST_ANSWER 4
#define JUGY_RUN_ANSWER 4 /* jugy_run, jugy_run_urn and jugy_run_batch */
#define JUGY_COUNT_ANSWER 10
#define JUGY_TEXT_ANSWER 3
#define JUGY_URN_ANSWER 3
#define JUGY_TRUSTEES_ANSWER 12
#define JUGY_DISPATCH_ANSWER 10

/* Measures the shape's own list, the circuit that the core generates for it: answer[2] is G, its gates, answer[3] is
 * C, its conditional gates, answer[4] is I, the ballot bytes. Reason 1. */
size_t jugy_measure(size_t candidates, size_t grades, size_t ballot_count, size_t *answer, size_t answer_length);

/* Writes the shape's own list to the start of the gate table, which has at least 4 G numbers: answer[2] is G,
 * answer[3] is C. The table after the list is not touched. Reasons 1 and 2. */
size_t jugy_write(size_t candidates, size_t grades, size_t ballot_count, uint32_t *table, size_t table_length,
                  size_t *answer, size_t answer_length);

/* Tests a list for a shape, whoever wrote it: answer[2] is G, answer[3] is C. table_length is exactly 4 G; if the table
 * is longer, the numbers after the list are tested as gates too. Reasons 1 to 3. */
size_t jugy_test(size_t candidates, size_t grades, size_t ballot_count, const uint32_t *table, size_t table_length,
                 size_t *answer, size_t answer_length);

/* Runs a list on the ballots: answer[2] is G, answer[3] is C. Reasons 1 to 10, with 11 and 12 in place of 6 for
 * rankings.
 *   table    exactly 4 G numbers. A longer table padded with zeros is a different list: its last gates are constants
 *            0, so its closing bytes do not say who wins.
 *   ballots  I bytes
 *   tape     C bytes of 0 or 1, one for each conditional gate in order: random, secret, and never used again. If a
 *            tape is used twice, or is known, the board reveals what the wires hold.
 *   wires    I + G bytes, with any contents. While the function runs they hold the ballots and every wire in clear;
 *            afterwards they are all zero. Wipe ballots and tape yourself: whoever has the tape and the board can
 *            work out the opened wires.
 *   board    C + k bytes, with any contents. Afterwards board[i], for i below C, is wire a of conditional gate i,
 *            masked by tape[i]; board[C + i], for i below k, is candidate i's closing byte. With the shape's own list
 *            it is 1 if the candidate wins, by full majority judgment or, for rankings, by Schulze's rule, else 0;
 *            several may win. The board may be published: of the ballots it reveals only the closing bytes. */
size_t jugy_run(size_t candidates, size_t grades, size_t ballot_count, const uint32_t *table, size_t table_length,
                const uint8_t *ballots, size_t ballots_length, const uint8_t *tape, size_t tape_length, uint8_t *wires,
                size_t wires_length, uint8_t *board, size_t board_length, size_t *answer, size_t answer_length);

/* Runs a list for 64 juries of one shape at once (bit-slicing). Bit j of each 64-bit number, where bit 0 is the
 * lowest, belongs to jury j, and each jury gets what its own jugy_run would give: answer[2] is G, answer[3] is C.
 * Lengths count numbers, not bytes.
 *   table    exactly 4 G numbers, as for jugy_run
 *   ballots  I numbers: bit j of ballots[i] is ballot byte i of jury j
 *   tape     C numbers: bit j of tape[i] masks conditional gate i of jury j. Each bit is random, secret, and never
 *            used again
 *   wires    I + G numbers, with any contents; all zero afterwards
 *   board    C + k numbers, with any contents; afterwards bit j of board[C + i] is candidate i's closing byte in
 *            jury j
 * Reasons 1, 2, 3, 4, then 6 for grades or 11 and 12 for rankings, then 7, 9 and 10. The place of 6, 11 and 12 is the
 * first jury, 0 to 63, that has the fault. 5 and 8 never apply. All 64 juries are tested and run: if you have fewer,
 * fill up with copies. */
size_t jugy_run_batch(size_t candidates, size_t grades, size_t ballot_count, const uint32_t *table, size_t table_length,
                      const uint64_t *ballots, size_t ballots_length, const uint64_t *tape, size_t tape_length,
                      uint64_t *wires, size_t wires_length, uint64_t *board, size_t board_length, size_t *answer,
                      size_t answer_length);

/* Counts the ballots plainly, without a list, by full majority judgment or, for rankings, by Schulze's rule:
 * answer[2 + i], for i below 8, is 1 if candidate i wins, else 0, also if there is no candidate i. Several may win.
 * Reasons 1, 4, 5, then 6 or 11 and 12. */
size_t jugy_count(size_t candidates, size_t grades, size_t ballot_count, const uint8_t *ballots, size_t ballots_length,
                  size_t *answer, size_t answer_length);

/* Gate lists as text. Each gate is a line: its kind, then the operands that the kind uses, in decimal without leading
 * zeros, with single spaces between them and a line feed at the end. When a text is read, each line counts as a gate
 * for reasons 2 and 3; characters after the last line feed are a line too, and it is malformed. */

/* Writes the text of a list, whoever wrote it; table_length is exactly 4 G. answer[2] is the number of characters
 * written, at most 44 G. The rest of the output is not touched. Reasons 1, 2, 3, 24. */
size_t jugy_write_text(size_t candidates, size_t grades, size_t ballot_count, const uint32_t *table,
                       size_t table_length, uint8_t *output, size_t output_length, size_t *answer,
                       size_t answer_length);

/* Reads a text as a list for a shape: answer[2] is how many numbers were written, 4 for each line; unused operands are
 * 0. The rest of the output is not touched. Reasons 1, 2, 23, 3, 24. */
size_t jugy_read_text(size_t candidates, size_t grades, size_t ballot_count, const uint8_t *text, size_t text_length,
                      uint32_t *output, size_t output_length, size_t *answer, size_t answer_length);

/* An urn holds graded ballots while tasting goes on. It is a table that the caller keeps, in slots of 2 + k d bytes:
 *   slot 0           index of the first slot of the ballot chain, then of the free chain (0: the chain is empty), then
 *                    k d zeros
 *   a ballot's slot  index of the next slot in the ballot chain (0: this is the last), juror 1 to 255, k d ballot bytes
 *   a free slot      index of the next free slot (0: this is the last), 1 + k d zeros
 * Make it with jugy_empty_urn and change it only by admitting and withdrawing: every accepted call leaves it sound.
 * It is sound if
 *   - it has 2 to 256 whole slots
 *   - both chains end in 0, and each slot from 1 on is in one of them, once
 *   - the jurors of the ballot chain are numbers from 1 to 255, all different
 *   - each ballot would be accepted from a jury of one
 *   - slot 0 and the free slots have their zeros
 * Every call but jugy_empty_urn refuses an unsound urn with 13.
 *
 * The urn holds ballots in clear, each with its juror. These calls take k and d and no n; answer[2] is the number of
 * ballots afterwards. */

/* Makes a table with the length of an urn into an empty urn, whatever its bytes are: slots 1, 2 and so on are free, in
 * this order. Reasons 1, 13 (no urn has this length). */
size_t jugy_empty_urn(size_t candidates, size_t grades, uint8_t *urn, size_t urn_length, size_t *answer,
                      size_t answer_length);

/* Admits a juror's ballot: it goes into the first free slot, which becomes the first of the ballot chain. Reasons 1, 13
 * (unsound), 14 (the juror is 0, above 255 or already in), 4, 5, 6 (the ballot, as in a jury of one), 15 (no free
 * slot), in this order. */
size_t jugy_admit(size_t candidates, size_t grades, uint8_t *urn, size_t urn_length, size_t juror,
                  const uint8_t *ballot, size_t ballot_length, size_t *answer, size_t answer_length);

/* Withdraws a juror's ballot: its slot is zeroed and becomes the first free one. Reasons 1, 13, 14 (the juror is 0,
 * above 255 or not in). */
size_t jugy_withdraw(size_t candidates, size_t grades, uint8_t *urn, size_t urn_length, size_t juror, size_t *answer,
                     size_t answer_length);

/* What jugy_admit, or jugy_withdraw, would answer; the urn is not changed. The answer reveals whether the urn is sound
 * and, if so, how many ballots it has, whether this juror's is among them and whether a slot is free. Two urns that
 * agree in these get the same answer. */
size_t jugy_preview_admit(size_t candidates, size_t grades, const uint8_t *urn, size_t urn_length, size_t juror,
                          const uint8_t *ballot, size_t ballot_length, size_t *answer, size_t answer_length);
size_t jugy_preview_withdraw(size_t candidates, size_t grades, const uint8_t *urn, size_t urn_length, size_t juror,
                             size_t *answer, size_t answer_length);

/* Runs a list on the ballots in an urn, in the order of the ballot chain: answer[2] is G, answer[3] is C. It answers
 * and leaves what jugy_run does on these ballots. Reasons 1 (also for a ranking), 13 (unsound), 2, 3, 4 (ballot_count
 * is not the number of ballots in the urn), 7, 8, 9, 10, in this order. 5 and 6 never apply, because the ballots of a
 * sound urn are good.
 *   table  exactly 4 G numbers
 *   urn    s (2 + k d) bytes for s slots; not changed
 *   tape   C bytes of 0 or 1, as for jugy_run
 *   wires  I + G bytes, where I = n k d, with any contents; all zero afterwards
 *   board  C + k bytes, with any contents; afterwards as after jugy_run */
size_t jugy_run_urn(size_t candidates, size_t grades, size_t ballot_count, const uint32_t *table, size_t table_length,
                    const uint8_t *urn, size_t urn_length, const uint8_t *tape, size_t tape_length, uint8_t *wires,
                    size_t wires_length, uint8_t *board, size_t board_length, size_t *answer, size_t answer_length);

/* Trustees (secret sharing). Each of t trustees holds one bit of every wire, its share; the sum of all shares modulo 2
 * is the wire. For each conditional gate a dealer shares a Beaver triple: random secret bits u and v, and their
 * product. Each of the four tables has t pieces of one size, one for each trustee in order:
 *   ballot_shares  t I bytes: a trustee's share of each ballot byte
 *   triples        t 3 C bytes: for each conditional gate in order, its shares of u, of v and of u v
 *   wires          t (I + G) bytes, with any contents: while the function runs, each trustee's shares of all wires,
 *                  ballots first; afterwards all zero
 *   published      t (2 C + k) bytes, with any contents: for each conditional gate in order, a trustee's shares of
 *                  the first factor plus u and of the second plus v, then its shares of the k closing wires. This
 *                  may be published
 * Each byte of ballot_shares and triples is 0 or 1. Whoever sees all that is published, and the shares of all
 * trustees but one, learns of the ballots only the closing bytes. Use a dealing (ballot_shares and triples) for one
 * call only.
 *
 * This function takes the plain ballots and the pieces of all trustees, and does every trustee's work in one place.
 * So its caller knows the ballots, and so does the dealer: run it only where the jurors trust the unit, and let no
 * trustee call it. For trustees who keep their shares to themselves, see jugy_trustee_start below. */

/* Runs a list on ballots that trustees hold in shares: answer[2] is G, answer[3] is C, answer[4 + i], for i below 8, is
 * the sum modulo 2 of candidate i's closing bits, which is its closing byte in a plain run, or 0 if there is no
 * candidate i. Reasons 1 to 5, then 6 for grades or 11 and 12 for rankings, 16, 17, 18. */
size_t jugy_trustees(size_t candidates, size_t grades, size_t ballot_count, const uint32_t *table, size_t table_length,
                     const uint8_t *ballots, size_t ballots_length, size_t trustees, const uint8_t *ballot_shares,
                     size_t ballot_shares_length, const uint8_t *triples, size_t triples_length, uint8_t *wires,
                     size_t wires_length, uint8_t *published, size_t published_length, size_t *answer,
                     size_t answer_length);

/* Runs up to eight juries in rounds, so that a long one does not delay the others: in each round every unfinished
 * jury, in order, does up to gates_per_round of its gates.
 *   headers  4 numbers for each jury: candidates k, grades d (0 for a ranking), ballots n and gates G. If the array is
 *            too short, missing numbers count as 0; if it is longer, the rest is not read
 * In each of the five tables the juries' pieces follow each other, in jury order and without gaps. I is n k d, or n k k
 * for a ranking, and C is the number of conditional gates in the jury's list. For m juries, 0 to m - 1:
 *
 *   lists    | 4 G_0     | 4 G_1     | .. |  length 4 (G_0 + .. + G_(m-1)) or more, of numbers; operands are wires
 *                                            of this jury, counted from 0
 *   ballots  | I_0       | I_1       | .. |  length I_0 + .. + I_(m-1) or more
 *   tapes    | C_0       | C_1       | .. |  length C_0 + .. + C_(m-1) or more
 *   wires    | I_0 + G_0 | I_1 + G_1 | .. |  length (I_0 + G_0) + .. + (I_(m-1) + G_(m-1)) or more
 *   boards   | C_0 + k_0 | C_1 + k_1 | .. |  length (C_0 + k_0) + .. + (C_(m-1) + k_(m-1)) or more
 *
 * Tapes are as for jugy_run: each jury has its own random secret bits, which no other jury and no other call uses. A
 * piece begins where the one before it ends, as the headers say: a tape that is not C bytes long shifts the next
 * jury's tape, and no test can tell. Whatever follows the last pieces is not touched.
 *
 * answer[2 + j], for j below 8, is jury j's number of rounds, G_j / gates_per_round rounded up, or 0 if there is no
 * jury j. Each jury's board is that of jugy_run on its pieces, and its wires are all zero. Reasons 19 and 20, then
 * those of a run, one jury after another; the place is the jury. If a table is too short for a piece, the piece counts
 * as empty, which gives 2, 4, 7, 9 or 10. */
size_t jugy_dispatch(size_t juries, size_t gates_per_round, const size_t *headers, size_t headers_length,
                     const uint32_t *lists, size_t lists_length, const uint8_t *ballots, size_t ballots_length,
                     const uint8_t *tapes, size_t tapes_length, uint8_t *wires, size_t wires_length, uint8_t *boards,
                     size_t boards_length, size_t *answer, size_t answer_length);

/* Levels (beyond the customers' requests, as are reasons from 200 on). A wire's level is its multiplicative depth: 0
 * for a ballot byte; for a gate the largest level of its operands, plus one if it is conditional. R, the rounds of a
 * list, is its largest level: all conditional gates of one level can be opened together, so R rounds are enough. */
#define JUGY_LEVELS 200       /* the level table is not G numbers long, or its levels are not the list's */

/* How long an answer array has to be for reason, place, G, C and R. */
#define JUGY_LEVELS_ANSWER 5

/* Writes the level of each gate of a list, whoever wrote it: answer[2] is G, answer[3] is C, answer[4] is R, at most C.
 * Reasons 1, 2, 3, 200.
 *   table   exactly 4 G numbers
 *   levels  G numbers, with any contents; afterwards levels[g] is the level of gate g */
size_t jugy_levels(size_t candidates, size_t grades, size_t ballot_count, const uint32_t *table, size_t table_length,
                   uint32_t *levels, size_t levels_length, size_t *answer, size_t answer_length);

/* A trustee on its own machine (beyond the customers' requests). jugy_trustees takes the tables of all trustees; these
 * three calls take those of one, who learns nothing from the others but opened sums. The t trustees, 2 to 5, are
 * numbered from 0. Each starts; then all do the rounds 0, 1, .. R together. Before each round they are told the sums,
 * modulo 2, of what all have published so far. After round R the sums of the k closing bits are the closing bytes.
 * Together they publish what jugy_trustees does, in R + 1 exchanges. The caller keeps one trustee's tables between
 * calls:
 *   ballot_shares  I bytes, its share of each ballot byte
 *   triples        3 C bytes, its shares of u, v and u v for each conditional gate in order
 *   levels         G numbers, the list's levels, which jugy_levels writes
 *   heard          2 C bytes, the two opened sums of each conditional gate in order, 0 if not known yet
 *   wires          I + G bytes, its shares of all wires. They are secret; jugy_trustee_finish empties them
 *   published      2 C + k bytes: both masked factors of each conditional gate in order, 0 until the round before its
 *                  level; then the k closing bits, 0 until round R. This is what a trustee may send
 * Each byte of ballot_shares, triples and heard is 0 or 1. No single trustee can tell whether shares add up. Use a
 * dealing for one tally only. */
#define JUGY_ROUND 201        /* the round is above R */
#define JUGY_HEARD 202        /* the sums heard are not 2 C bits */

/* Trustee number `trustee` of `trustees` starts: wires are its ballot shares, then zeros; published is all zero.
 * answer[2] is G, answer[3] is C; JUGY_RUN_ANSWER numbers. Reasons 1, 2, 3, 16 (no such trustee), 17 (the length of a
 * table), 18 (a share above 1). */
size_t jugy_trustee_start(size_t candidates, size_t grades, size_t ballot_count, const uint32_t *table,
                          size_t table_length, size_t trustees, size_t trustee, const uint8_t *ballot_shares,
                          size_t ballot_shares_length, const uint8_t *triples, size_t triples_length, uint8_t *wires,
                          size_t wires_length, uint8_t *published, size_t published_length, size_t *answer,
                          size_t answer_length);

/* Does round `round`: each gate of this level gets the trustee's share of its wire, each conditional gate of the next
 * level publishes, and round R publishes the closing bits. answer[2] is G, answer[3] is C, answer[4] is R;
 * JUGY_LEVELS_ANSWER numbers. Reasons 1, 2, 3, 16, 17, 18 (of triples), 200 (not the list's levels), 201, 202. */
size_t jugy_trustee_round(size_t candidates, size_t grades, size_t ballot_count, const uint32_t *table,
                          size_t table_length, size_t trustees, size_t trustee, size_t round, const uint32_t *levels,
                          size_t levels_length, const uint8_t *triples, size_t triples_length, const uint8_t *heard,
                          size_t heard_length, uint8_t *wires, size_t wires_length, uint8_t *published,
                          size_t published_length, size_t *answer, size_t answer_length);

/* Empties the shares of the wires. answer[2] is G, answer[3] is C; JUGY_RUN_ANSWER numbers. Reasons 1, 2, 3, 17. */
size_t jugy_trustee_finish(size_t candidates, size_t grades, size_t ballot_count, const uint32_t *table,
                           size_t table_length, uint8_t *wires, size_t wires_length, size_t *answer,
                           size_t answer_length);

#ifdef __cplusplus
}
#endif

#endif
