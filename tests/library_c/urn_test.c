/* Empty urns, admission and withdrawal on heap buffers of exactly the lent length, for valgrind: random calls on
 * sound and damaged urns of any length. Answer and urn of each call are compared with the reference's on a copy, and
 * the answer with the preview's. */
#include "../../c/jugyvaros.h"
#include "lent.h"
#include "seen.h"
#include "urn_reference.h"

static void fail(const char *what) {
    printf("urn_test: %s\n", what);
    exit(1);
}

/* Calls with an answer array that is too short: nothing may change. */
static void short_answers(size_t k, size_t d, uint8_t *urn, size_t length, const uint8_t *ballot,
                          size_t ballot_length) {
    size_t room = below(JUGY_URN_ANSWER), *answer = filled(room * sizeof *answer, 9),
           *old = copy_of(answer, room * sizeof *answer);
    uint8_t *copy = copy_of(urn, length);
    size_t statuses[] = {jugy_empty_urn(k, d, urn, length, answer, room),
                         jugy_admit(k, d, urn, length, 1, ballot, ballot_length, answer, room),
                         jugy_withdraw(k, d, urn, length, 1, answer, room),
                         jugy_preview_admit(k, d, urn, length, 1, ballot, ballot_length, answer, room),
                         jugy_preview_withdraw(k, d, urn, length, 1, answer, room)};
    for (size_t i = 0; i < sizeof statuses / sizeof *statuses; i++)
        if (seen(statuses[i]) != JUGY_SHORT_ANSWER)
            fail("a short answer array is accepted");
    if (memcmp(answer, old, room * sizeof *answer) || memcmp(copy, urn, length))
        fail("a call with a short answer array changes something");
    free(answer), free(old), free(copy);
}

static void one_call(size_t k, size_t d, uint8_t *urn, size_t length) {
    size_t said[JUGY_URN_ANSWER], previewed[JUGY_URN_ANSWER], right[JUGY_URN_ANSWER];
    size_t ballot_length = below(8) ? k * d : below(60), juror = below(12) ? 1 + below(6) : below(300);
    uint8_t *copy = copy_of(urn, length), *ballot = filled(ballot_length, 0);
    for (size_t i = 0; i < ballot_length; i += d ? d : 1)
        ballot[i] = (uint8_t)(below(20) ? 1 : 2 * below(2));
    if (!below(10))
        short_answers(k, d, urn, length, ballot, ballot_length);
    if (below(2)) {
        jugy_preview_admit(k, d, urn, length, juror, ballot, ballot_length, previewed, JUGY_URN_ANSWER);
        seen(jugy_admit(k, d, urn, length, juror, ballot, ballot_length, said, JUGY_URN_ANSWER));
        urn_admit(k, d, copy, length, juror, ballot, ballot_length, right, JUGY_URN_ANSWER);
    } else {
        jugy_preview_withdraw(k, d, urn, length, juror, previewed, JUGY_URN_ANSWER);
        seen(jugy_withdraw(k, d, urn, length, juror, said, JUGY_URN_ANSWER));
        urn_withdraw(k, d, copy, length, juror, right, JUGY_URN_ANSWER);
    }
    if (memcmp(said, previewed, sizeof said) || memcmp(said, right, sizeof said) || memcmp(copy, urn, length))
        fail("preview, call and reference differ");
    free(copy);
    free(ballot);
}

int main(int count, char **words) {
    int rounds = count > 1 ? atoi(words[1]) : 100;
    for (int r = 0; r < rounds; r++) {
        size_t k = below(10), d = below(9), size = 2 + k * d, slots = below(5) ? 2 + below(6) : 1 + below(257);
        size_t length = slots * size + (below(8) ? 0 : below(3));
        uint8_t *urn = noise(length);
        size_t said[JUGY_URN_ANSWER], right[JUGY_URN_ANSWER];
        uint8_t *copy = copy_of(urn, length);
        seen(jugy_empty_urn(k, d, urn, length, said, JUGY_URN_ANSWER));
        urn_empty(k, d, copy, length, right, JUGY_URN_ANSWER);
        if (memcmp(said, right, sizeof said) || memcmp(copy, urn, length))
            fail("an empty urn and the reference's differ");
        free(copy);
        for (int i = 0; i < 30; i++) {
            one_call(k, d, urn, length);
            if (!below(25))
                urn[below(length)] = (uint8_t)below(256);
        }
        free(urn);
    }
    ALL_SEEN("urn_test", 0, 1, 4, 5, 6, 13, 14, 15, JUGY_SHORT_ANSWER);
    return 0;
}
