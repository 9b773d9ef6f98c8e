// The check of a file: A, its payments, E, in one pass.
#include "plain.h"
#include "records.h"
#include "result.h"

// The first field of a record behind A: the number of parts of a payment, or E.
enum { IS_TRAILER = MOST_PARTS + 1 };

static inline enum number record_length(const uint8_t *field, const struct totals *totals,
                                        unsigned *parts) {
    uint64_t length;
    if (digits(field, 4, &length) != ACCEPTED)
        return NO_DIGIT;
    if (length == SECTION && totals->count > 0) {
        *parts = IS_TRAILER;
        return ACCEPTED;
    }
    if (length < FIRST_PART || (length - FIRST_PART) % PART != 0)
        return NO_LENGTH;
    *parts = (length - FIRST_PART) / PART;
    return *parts > MOST_PARTS ? NO_LENGTH : next_payment(totals);
}

static struct refusal check_record_length(const uint8_t *record, size_t have,
                                          const struct totals *totals, unsigned *parts) {
    FIELD(C1, 4, record_length(record + C1, totals, parts));
    return accept();
}

struct refusal check_next_file(const uint8_t *file, size_t have, struct totals *totals,
                               size_t *length) {
    *totals = (struct totals){0, 0, 0, 0};
    struct kind kind;
    struct refusal why = check_header(file, have, &kind);
    if (why.number != ACCEPTED)
        return why;
    for (size_t at = SECTION;;) {
        const uint8_t *record = file + at;
        size_t left = have - at;
        unsigned parts;
        why = check_record_length(record, left, totals, &parts);
        if (why.number != ACCEPTED)
            return told_from(why, at);
        if (parts == IS_TRAILER) {
            *length = at + SECTION;
            return told_from(check_trailer(record, left, totals), at);
        }
        why = check_payment(record, left, kind, parts, totals);
        if (why.number != ACCEPTED)
            return told_from(why, at);
        totals->count++;
        at += payment_bytes(parts);
    }
}

struct refusal check_file(const uint8_t *file, size_t length, struct totals *totals) {
    size_t end;
    struct refusal why = check_next_file(file, length, totals, &end);
    if (why.number != ACCEPTED)
        return why;
    return end < length ? refuse(SURPLUS, end) : accept();
}

uint8_t plain_check(const uint8_t *file, size_t file_length, uint64_t *result,
                    size_t result_length) {
    if (result_length < FIGURES_OF_CHECK)
        return NO_ROOM;
    struct totals totals;
    struct refusal why = check_file(file, file_length, &totals);
    return give_totals(why, &totals, result);
}
