// The record A.
#include "records.h"

// A11b: eight blanks, or a day.
static enum number maybe_execution_day(const uint8_t *a11b, unsigned creation_day) {
    if (blanks(a11b, 8) == ACCEPTED)
        return ACCEPTED;
    return execution_day(a11b, creation_day);
}

struct refusal check_header(const uint8_t *a, size_t have, struct kind *kind) {
    unsigned day;
    FIELD(A1, 4, fixed(a + A1, "0128", 4));
    FIELD(A2, 1, fixed(a + A2, "A", 1));
    FIELD(A3, 2, file_kind(a + A3, kind));
    FIELD(A4, 8, any_digits(a + A4, 8));
    FIELD(A5, 8, sending_bank(a + A5, *kind));
    FIELD(A6, TEXT, text(a + A6, TEXT));
    FIELD(A7, 6, creation_day(a + A7, &day));
    FIELD(A8, 4, blanks(a + A8, 4));
    FIELD(A9, 10, any_digits(a + A9, 10));
    FIELD(A10, 10, any_digits(a + A10, 10));
    FIELD(A11A, 15, blanks(a + A11A, 15));
    FIELD(A11B, 8, maybe_execution_day(a + A11B, day));
    FIELD(A11C, 24, blanks(a + A11C, 24));
    FIELD(A12, 1, fixed(a + A12, "1", 1));
    return accept();
}
