/* The trustees' tally: an independent reference implementation in C, in which each trustee uses only what it holds and
 * what is opened. Arguments are those of c/jugyvaros.h; closing bytes are the opened sums. If the call is accepted,
 * `published` is filled and `wires` emptied; otherwise neither changes. */
#ifndef TRUSTEES_REFERENCE_H
#define TRUSTEES_REFERENCE_H

#include "reference.h"

struct said reference_trustees(size_t k, size_t d, size_t n, const uint32_t *table, size_t table_length,
                               const uint8_t *ballots, size_t ballots_length, size_t trustees, const uint8_t *shares,
                               size_t shares_length, const uint8_t *triples, size_t triples_length, uint8_t *wires,
                               size_t wires_length, uint8_t *published, size_t published_length);

#endif
