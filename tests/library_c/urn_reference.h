/* The calls on an urn: an independent reference implementation in C, for the tests and the benchmark. Arguments and
 * answer array are those of c/jugyvaros.h. */
#ifndef URN_REFERENCE_H
#define URN_REFERENCE_H

#include <stddef.h>
#include <stdint.h>

enum { UNSOUND_URN = 256 };

/* The number of ballots in an urn for a graded shape, or UNSOUND_URN. */
size_t urn_ballots(size_t k, size_t d, const uint8_t *urn, size_t length);

size_t urn_empty(size_t k, size_t d, uint8_t *urn, size_t length, size_t *answer, size_t answer_length);
size_t urn_admit(size_t k, size_t d, uint8_t *urn, size_t length, size_t juror, const uint8_t *ballot,
                 size_t ballot_length, size_t *answer, size_t answer_length);
size_t urn_withdraw(size_t k, size_t d, uint8_t *urn, size_t length, size_t juror, size_t *answer,
                    size_t answer_length);
size_t urn_preview_admit(size_t k, size_t d, const uint8_t *urn, size_t length, size_t juror, const uint8_t *ballot,
                         size_t ballot_length, size_t *answer, size_t answer_length);
size_t urn_preview_withdraw(size_t k, size_t d, const uint8_t *urn, size_t length, size_t juror, size_t *answer,
                            size_t answer_length);

#endif
