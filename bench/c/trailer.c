// The record E behind its length, held against what was counted.
#include "records.h"

static enum number figure(const uint8_t *field, size_t width, uint64_t counted) {
    uint64_t value;
    if (digits(field, width, &value) != ACCEPTED)
        return NO_DIGIT;
    return value == counted ? ACCEPTED : NOT_COUNTED;
}

struct refusal check_trailer(const uint8_t *e, size_t have, const struct totals *totals) {
    FIELD(E2, 1, fixed(e + E2, "E", 1));
    FIELD(E3, 5, blanks(e + E3, 5));
    FIELD(E4, 7, figure(e + E4, 7, totals->count));
    FIELD(E5, 13, zeros(e + E5, 13));
    FIELD(E6, 17, figure(e + E6, 17, totals->accounts));
    FIELD(E7, 17, figure(e + E7, 17, totals->bank_codes));
    FIELD(E8, 13, figure(e + E8, 13, totals->cents));
    FIELD(E9, 51, blanks(e + E9, 51));
    return accept();
}
