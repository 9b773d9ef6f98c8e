// The record C behind its length.
#include "records.h"

static inline struct refusal check_first_section(const uint8_t *c, size_t have, struct kind kind,
                                                 struct totals *totals) {
    uint64_t unused, its_key;
    FIELD(C2, 1, fixed(c + C2, "C", 1));
    FIELD(C3, 8, any_digits(c + C3, 8));
    FIELD(C4, 8, add_bank_code(c + C4, totals));
    FIELD(C5, 10, add_account(c + C5, totals));
    FIELD(C6, 13, customer_number(c + C6));
    FIELD(C7A, 2, key(c + C7A, kind, &its_key));
    FIELD(C7B, 3, supplement(c + C7B, its_key));
    FIELD(C8, 1, blanks(c + C8, 1));
    FIELD(C9, 11, zeros(c + C9, 11));
    FIELD(C10, 8, bank_code(c + C10, &unused));
    FIELD(C11, 10, account(c + C11, &unused));
    FIELD(C12, 11, add_cents(c + C12, totals));
    FIELD(C13, 3, blanks(c + C13, 3));
    FIELD(C14A, TEXT, name(c + C14A, TEXT));
    FIELD(C14B, 8, blanks(c + C14B, 8));
    return accept();
}

// C18 must agree with the number of parts that C1 tells.
static inline enum number part_count(const uint8_t *c18, unsigned parts) {
    uint64_t count;
    if (digits(c18, 2, &count) != ACCEPTED)
        return NO_DIGIT;
    return count == parts ? ACCEPTED : CONDITION;
}

static inline struct refusal check_second_section(const uint8_t *c, size_t have, unsigned parts) {
    FIELD(C15, TEXT, name(c + C15, TEXT));
    FIELD(C16, TEXT, text(c + C16, TEXT));
    FIELD(C17A, 1, fixed(c + C17A, "1", 1));
    FIELD(C17B, 2, blanks(c + C17B, 2));
    FIELD(C18, 2, part_count(c + C18, parts));
    return accept();
}

// The parts, section by section, each closed by blanks.
static inline struct refusal check_parts(const uint8_t *c, size_t have, unsigned parts) {
    struct marks marks = {0, 0};
    size_t at = FIRST_PART;
    unsigned to_come = parts;
    unsigned room = 2;
    do {
        for (; room > 0 && to_come > 0; room--) {
            to_come--;
            FIELD(at, MARK, mark(c + at, &marks, to_come));
            FIELD(at + MARK, TEXT, text(c + at + MARK, TEXT));
            at += PART;
        }
        size_t closing = SECTION - at % SECTION;
        FIELD(at, closing, blanks(c + at, closing));
        at += closing;
        room = 4;
    } while (to_come > 0);
    return accept();
}

struct refusal check_payment(const uint8_t *c, size_t have, struct kind kind, unsigned parts,
                             struct totals *totals) {
    struct refusal why = check_first_section(c, have, kind, totals);
    if (why.number != ACCEPTED)
        return why;
    why = check_second_section(c, have, parts);
    if (why.number != ACCEPTED)
        return why;
    return check_parts(c, have, parts);
}
