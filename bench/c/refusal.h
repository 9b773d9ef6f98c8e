// Refusals: their numbers, and how a record or a line tells one.
#ifndef REFUSAL_H
#define REFUSAL_H

#include <stddef.h>

enum number {
    ACCEPTED = 0,
    SHORT = 1,
    NOT_FIXED = 2,
    NO_DIGIT = 3,
    NO_SIGN = 4,
    NO_LENGTH = 5,
    NO_MORE_PAYMENTS = 6,
    ACCOUNTS_OVER = 7,
    BANK_CODES_OVER = 8,
    CENTS_OVER = 9,
    NO_DATE = 10,
    CONDITION = 11,
    NO_KEY = 12,
    NO_MARK = 13,
    NOT_COUNTED = 14,
    SURPLUS = 15,
    NO_ROOM = 16,
    NO_LINE = 17,
    ENDS_EARLY = 18,
    NO_SUPPLEMENT = 21,
    TOO_EARLY = 22,
    TOO_LATE = 23,
};

// The place is counted from the first byte of the input, or of the record or file where one is
// read.
struct refusal {
    enum number number;
    size_t place;
};

static inline struct refusal refuse(enum number number, size_t place) {
    return (struct refusal){number, place};
}

static inline struct refusal accept(void) { return refuse(ACCEPTED, 0); }

// The refusal of what was read at `at`, told from the first byte of what it lies in.
static inline struct refusal told_from(struct refusal why, size_t at) {
    return why.number == ACCEPTED ? why : refuse(why.number, at + why.place);
}

// A field of a record that has `have` bytes: it is there, and the test of its bytes gives no
// number; else the reader returns.
#define FIELD(place, width, test)                                                                  \
    do {                                                                                           \
        if (have < (place) + (width))                                                              \
            return refuse(SHORT, place);                                                           \
        enum number found = (test);                                                                \
        if (found != ACCEPTED)                                                                     \
            return refuse(found, place);                                                           \
    } while (0)

#endif
