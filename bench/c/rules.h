// What fields mean: the conditions of single fields, the three totals, the marks, and the days of
// the header.
#ifndef RULES_H
#define RULES_H

#include "fields.h"

#define MOST_PAYMENTS 9999999u
#define MOST_OF_17_DIGITS 99999999999999999u
#define MOST_CENTS 9999999999999u

// What A3 tells.
struct kind {
    bool credit;
    bool customer;
};

struct totals {
    uint64_t count;
    uint64_t accounts;
    uint64_t bank_codes;
    uint64_t cents;
};

// The marks of a payment's parts so far.
struct marks {
    unsigned last;
    unsigned purposes;
};

enum number file_kind(const uint8_t *a3, struct kind *kind);
enum number sending_bank(const uint8_t *a5, struct kind kind);
enum number creation_day(const uint8_t *a7, unsigned *day);
enum number execution_day(const uint8_t *a11b, unsigned creation_day);

// Whether a payment may begin.
static inline enum number next_payment(const struct totals *totals) {
    if (totals->count >= MOST_PAYMENTS)
        return NO_MORE_PAYMENTS;
    return totals->cents >= MOST_CENTS ? CENTS_OVER : ACCEPTED;
}

// C10, and C4.
static inline enum number bank_code(const uint8_t *field, uint64_t *code) {
    if (digits(field, 8, code) != ACCEPTED)
        return NO_DIGIT;
    return field[0] == '0' || field[0] == '9' ? CONDITION : ACCEPTED;
}

// C11, and C5.
static inline enum number account(const uint8_t *field, uint64_t *number) {
    if (digits(field, 10, number) != ACCEPTED)
        return NO_DIGIT;
    return *number == 0 ? CONDITION : ACCEPTED;
}

static inline enum number add_bank_code(const uint8_t *c4, struct totals *totals) {
    uint64_t code;
    enum number found = bank_code(c4, &code);
    if (found != ACCEPTED)
        return found;
    totals->bank_codes += code;
    return totals->bank_codes > MOST_OF_17_DIGITS ? BANK_CODES_OVER : ACCEPTED;
}

static inline enum number add_account(const uint8_t *c5, struct totals *totals) {
    uint64_t number;
    enum number found = account(c5, &number);
    if (found != ACCEPTED)
        return found;
    totals->accounts += number;
    return totals->accounts > MOST_OF_17_DIGITS ? ACCOUNTS_OVER : ACCEPTED;
}

static inline enum number add_cents(const uint8_t *c12, struct totals *totals) {
    uint64_t cents;
    if (digits(c12, 11, &cents) != ACCEPTED)
        return NO_DIGIT;
    if (cents == 0)
        return CONDITION;
    totals->cents += cents;
    return totals->cents > MOST_CENTS ? CENTS_OVER : ACCEPTED;
}

// C6.
static inline enum number customer_number(const uint8_t *field) {
    if (any_digits(field, 13) != ACCEPTED)
        return NO_DIGIT;
    return field[0] == '0' && field[12] == '0' ? ACCEPTED : CONDITION;
}

// C7a.
static inline enum number key(const uint8_t *field, struct kind kind, uint64_t *key) {
    if (digits(field, 2, key) != ACCEPTED)
        return NO_DIGIT;
    if (kind.credit)
        return *key == 51 || *key == 53 || *key == 54 || *key == 56 ? ACCEPTED : NO_KEY;
    return *key == 4 || *key == 5 ? ACCEPTED : NO_KEY;
}

// C7b, behind a key that passed: every key takes 000, all but 56 take 888, 05 also takes 005, 006
// and 015, and 54 takes anything. Joined without branches, as the order of keys cannot be foreseen.
static inline enum number supplement(const uint8_t *field, uint64_t key) {
    uint64_t value;
    if (digits(field, 3, &value) != ACCEPTED)
        return NO_DIGIT;
    bool only_05 = (value == 5) | (value == 6) | (value == 15);
    bool taken =
        (value == 0) | (key == 54) | ((value == 888) & (key != 56)) | (only_05 & (key == 5));
    return taken ? ACCEPTED : NO_SUPPLEMENT;
}

// The mark of a part, where so many parts are still to come: never descending, 01 and 03 once, 02
// at most 13 times, and the parts to come must find marks of their own.
static inline enum number mark(const uint8_t *field, struct marks *marks, unsigned to_come) {
    uint64_t mark;
    if (digits(field, 2, &mark) != ACCEPTED)
        return NO_DIGIT;
    if (mark < 1 || mark > 3 || mark < marks->last || (mark == marks->last && mark != 2))
        return NO_MARK;
    if (mark == 2 && ++marks->purposes > 13)
        return NO_MARK;
    marks->last = mark;
    unsigned most = mark == 1 ? 14 : mark == 2 ? 14 - marks->purposes : 0;
    return to_come > most ? NO_MARK : ACCEPTED;
}

#endif
