// Composing: the listing is read whole, then the room in the output, and only then is a record
// written.
#include "lines.h"
#include "plain.h"
#include "result.h"
#include "write.h"

// A field of a line: the test of its bytes gives no number; else the reader returns, with the
// field's place in the listing.
#define TOLD(field, test)                                                                          \
    do {                                                                                           \
        enum number found = (test);                                                                \
        if (found != ACCEPTED)                                                                     \
            return refuse(found, (field).bytes - listing);                                         \
    } while (0)

static struct refusal check_header_line(const uint8_t *listing, const struct line *line,
                                        struct kind *kind) {
    const struct told *a = line->fields;
    unsigned day;
    TOLD(a[1], file_kind(a[1].bytes, kind));
    TOLD(a[2], any_digits(a[2].bytes, 8));
    TOLD(a[3], sending_bank(a[3].bytes, *kind));
    TOLD(a[4], text(a[4].bytes, a[4].width));
    TOLD(a[5], creation_day(a[5].bytes, &day));
    TOLD(a[6], any_digits(a[6].bytes, 10));
    TOLD(a[7], any_digits(a[7].bytes, 10));
    if (a[8].width != 0)
        TOLD(a[8], execution_day(a[8].bytes, day));
    return accept();
}

static inline struct refusal check_parts_told(const uint8_t *listing, const struct told *field,
                                              unsigned parts) {
    struct marks marks = {0, 0};
    for (unsigned to_come = parts; to_come-- > 0; field += 2) {
        TOLD(field[0], mark(field[0].bytes, &marks, to_come));
        TOLD(field[1], text(field[1].bytes, field[1].width));
    }
    return accept();
}

static inline struct refusal check_payment_line(const uint8_t *listing, const struct line *line,
                                                struct kind kind, struct totals *totals) {
    const struct told *c = line->fields;
    uint64_t unused, its_key;
    TOLD(c[0], next_payment(totals));
    TOLD(c[1], any_digits(c[1].bytes, 8));
    TOLD(c[2], add_bank_code(c[2].bytes, totals));
    TOLD(c[3], add_account(c[3].bytes, totals));
    TOLD(c[4], customer_number(c[4].bytes));
    TOLD(c[5], key(c[5].bytes, kind, &its_key));
    TOLD(c[6], supplement(c[6].bytes, its_key));
    TOLD(c[7], bank_code(c[7].bytes, &unused));
    TOLD(c[8], account(c[8].bytes, &unused));
    TOLD(c[9], add_cents(c[9].bytes, totals));
    TOLD(c[10], name(c[10].bytes, c[10].width));
    TOLD(c[11], name(c[11].bytes, c[11].width));
    TOLD(c[12], text(c[12].bytes, c[12].width));
    return check_parts_told(listing, c + 1 + FIELDS_OF_C, parts_told(line));
}

// The payments' lines; their records take so many bytes.
static struct refusal check_payment_lines(const uint8_t *listing, const uint8_t *from,
                                          const uint8_t *end, struct kind kind,
                                          struct totals *totals, size_t *bytes) {
    *bytes = 0;
    while (from < end) {
        struct line line;
        split_line(from, end, &line);
        if (!is_payment_line(&line))
            return refuse(NO_LINE, from - listing);
        struct refusal why = check_payment_line(listing, &line, kind, totals);
        if (why.number != ACCEPTED)
            return why;
        totals->count++;
        *bytes += payment_bytes(parts_told(&line));
        from = line.next;
    }
    return totals->count == 0 ? refuse(ENDS_EARLY, end - listing) : accept();
}

// The whole listing: what its payments come to, and how long its file is.
static struct refusal check_listing(const uint8_t *listing, size_t length, struct totals *totals,
                                    size_t *file_length) {
    const uint8_t *end = listing + length;
    struct line line;
    struct kind kind;
    *totals = (struct totals){0, 0, 0, 0};
    if (length == 0)
        return refuse(ENDS_EARLY, 0);
    split_line(listing, end, &line);
    if (!is_header_line(&line))
        return refuse(NO_LINE, 0);
    struct refusal why = check_header_line(listing, &line, &kind);
    if (why.number != ACCEPTED)
        return why;
    size_t bytes;
    why = check_payment_lines(listing, line.next, end, kind, totals, &bytes);
    *file_length = SECTION + bytes + SECTION;
    return why;
}

// The file of an accepted listing.
static void write_file(const uint8_t *listing, size_t length, const struct totals *totals,
                       uint8_t *output) {
    const uint8_t *line = write_header(listing, &output);
    while (line < listing + length)
        line = write_payment(line, &output);
    write_trailer(output, totals);
}

uint8_t plain_compose(const uint8_t *listing, size_t listing_length, uint8_t *output,
                      size_t output_length, uint64_t *result, size_t result_length) {
    if (result_length < FIGURES_OF_WRITING)
        return NO_ROOM;
    struct totals totals;
    size_t file_length;
    struct refusal why = check_listing(listing, listing_length, &totals, &file_length);
    if (why.number != ACCEPTED)
        return give_length(why, 0, result);
    if (output_length < file_length)
        return give_length(refuse(NO_ROOM, 0), 0, result);
    write_file(listing, listing_length, &totals, output);
    return give_length(accept(), file_length, result);
}
