#include "urn_reference.h"
#include <stdbool.h>
#include <string.h>

enum { SHORT_ANSWER = 255 };

/* What an urn holds: the number of ballots, and a juror's slot with the one before it in the chain. */
typedef struct {
    size_t ballots, slot, before; /* slot is 0 if the juror has no ballot */
    bool sound;
} Found;

static size_t say(size_t *answer, size_t reason, size_t place, size_t ballots) {
    answer[0] = reason, answer[1] = place, answer[2] = ballots;
    return reason;
}

static bool graded(size_t k, size_t d) { return 1 <= k && k <= 8 && 2 <= d && d <= 7; }

static size_t slots_in(size_t size, size_t length) {
    size_t slots = length / size;
    return length % size || slots < 2 || slots > 256 ? 0 : slots;
}

/* The reason to refuse a ballot of the right length, 0 if it is good. */
static size_t ballot_reason(size_t k, size_t d, const uint8_t *ballot, size_t *place) {
    for (size_t i = 0; i < k * d; i++)
        if (ballot[i] > 1) {
            *place = i;
            return 5;
        }
    for (size_t row = 0; row < k; row++) {
        size_t ones = 0;
        for (size_t g = 0; g < d; g++)
            ones += ballot[row * d + g];
        if (ones != 1) {
            *place = row;
            return 6;
        }
    }
    return 0;
}

static bool zeros(const uint8_t *bytes, size_t length) {
    for (size_t i = 0; i < length; i++)
        if (bytes[i])
            return false;
    return true;
}

static Found look(size_t k, size_t d, const uint8_t *urn, size_t length, size_t juror) {
    size_t size = 2 + k * d, slots = slots_in(size, length), met = 0, place;
    bool marks[256] = {false}, jurors[256] = {false};
    Found found = {0, 0, 0, false};
    if (!slots || !zeros(urn + 2, k * d))
        return found;
    for (size_t before = 0, slot = urn[0]; slot; before = slot, slot = urn[slot * size], met++) {
        const uint8_t *at = urn + slot * size;
        if (slot >= slots || marks[slot] || !at[1] || jurors[at[1]] || ballot_reason(k, d, at + 2, &place))
            return found;
        marks[slot] = jurors[at[1]] = true;
        if (at[1] == juror)
            found.slot = slot, found.before = before;
    }
    found.ballots = met;
    for (size_t slot = urn[1]; slot; slot = urn[slot * size], met++) {
        if (slot >= slots || marks[slot] || !zeros(urn + slot * size + 1, 1 + k * d))
            return found;
        marks[slot] = true;
    }
    found.sound = met == slots - 1;
    return found;
}

size_t urn_ballots(size_t k, size_t d, const uint8_t *urn, size_t length) {
    Found found = look(k, d, urn, length, 0);
    return found.sound ? found.ballots : UNSOUND_URN;
}

size_t urn_empty(size_t k, size_t d, uint8_t *urn, size_t length, size_t *answer, size_t answer_length) {
    if (answer_length < 3)
        return SHORT_ANSWER;
    if (!graded(k, d))
        return say(answer, 1, 0, 0);
    size_t size = 2 + k * d, slots = slots_in(size, length);
    if (!slots)
        return say(answer, 13, 0, 0);
    memset(urn, 0, length);
    urn[1] = 1;
    for (size_t slot = 1; slot + 1 < slots; slot++)
        urn[slot * size] = (uint8_t)(slot + 1);
    return say(answer, 0, 0, 0);
}

static size_t decide_admit(size_t k, size_t d, const uint8_t *urn, size_t length, size_t juror, const uint8_t *ballot,
                           size_t ballot_length, size_t *answer) {
    size_t place = 0, reason;
    if (!graded(k, d))
        return say(answer, 1, 0, 0);
    Found found = look(k, d, urn, length, juror);
    if (!found.sound)
        return say(answer, 13, 0, 0);
    if (juror < 1 || juror > 255 || found.slot)
        return say(answer, 14, 0, 0);
    if (ballot_length != k * d)
        return say(answer, 4, 0, 0);
    if ((reason = ballot_reason(k, d, ballot, &place)))
        return say(answer, reason, place, 0);
    if (!urn[1])
        return say(answer, 15, 0, 0);
    return say(answer, 0, 0, found.ballots + 1);
}

size_t urn_preview_admit(size_t k, size_t d, const uint8_t *urn, size_t length, size_t juror, const uint8_t *ballot,
                         size_t ballot_length, size_t *answer, size_t answer_length) {
    return answer_length < 3 ? SHORT_ANSWER : decide_admit(k, d, urn, length, juror, ballot, ballot_length, answer);
}

size_t urn_admit(size_t k, size_t d, uint8_t *urn, size_t length, size_t juror, const uint8_t *ballot,
                 size_t ballot_length, size_t *answer, size_t answer_length) {
    if (answer_length < 3)
        return SHORT_ANSWER;
    size_t reason = decide_admit(k, d, urn, length, juror, ballot, ballot_length, answer);
    if (!reason) {
        uint8_t slot = urn[1], *at = urn + slot * (2 + k * d);
        urn[1] = at[0];
        at[0] = urn[0];
        at[1] = (uint8_t)juror;
        memcpy(at + 2, ballot, k * d);
        urn[0] = slot;
    }
    return reason;
}

static size_t decide_withdraw(size_t k, size_t d, const uint8_t *urn, size_t length, size_t juror, size_t *answer,
                              Found *found) {
    if (!graded(k, d))
        return say(answer, 1, 0, 0);
    *found = look(k, d, urn, length, juror);
    if (!found->sound)
        return say(answer, 13, 0, 0);
    if (juror < 1 || juror > 255 || !found->slot)
        return say(answer, 14, 0, 0);
    return say(answer, 0, 0, found->ballots - 1);
}

size_t urn_preview_withdraw(size_t k, size_t d, const uint8_t *urn, size_t length, size_t juror, size_t *answer,
                            size_t answer_length) {
    Found found;
    return answer_length < 3 ? SHORT_ANSWER : decide_withdraw(k, d, urn, length, juror, answer, &found);
}

size_t urn_withdraw(size_t k, size_t d, uint8_t *urn, size_t length, size_t juror, size_t *answer,
                    size_t answer_length) {
    Found found;
    if (answer_length < 3)
        return SHORT_ANSWER;
    size_t reason = decide_withdraw(k, d, urn, length, juror, answer, &found), size = 2 + k * d;
    if (!reason) {
        uint8_t *at = urn + found.slot * size;
        urn[found.before * size] = at[0];
        memset(at, 0, size);
        at[0] = urn[1];
        urn[1] = (uint8_t)found.slot;
    }
    return reason;
}
