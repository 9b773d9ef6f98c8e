// Listing: the file is checked, then the room in the output, and only then are lines written.
#include "plain.h"
#include "records.h"
#include "result.h"

// How many bytes of a text there are without its trailing blanks.
static inline size_t trimmed(const uint8_t *field) {
    size_t width = TEXT;
    while (width > 0 && field[width - 1] == ' ')
        width--;
    return width;
}

static inline uint8_t *put(uint8_t *out, const uint8_t *field, size_t width) {
    *out = '\t';
    memcpy(out + 1, field, width);
    return out + 1 + width;
}

static inline uint8_t *put_text(uint8_t *out, const uint8_t *field) {
    return put(out, field, trimmed(field));
}

// A11b is eight blanks or a day.
static size_t execution_width(const uint8_t *a) { return a[A11B] == ' ' ? 0 : 8; }

static unsigned parts_of(const uint8_t *c) { return number_of(c + C18, 2); }

static uint8_t *put_header(uint8_t *out, const uint8_t *a) {
    *out++ = 'A';
    out = put(out, a + A3, 2);
    out = put(out, a + A4, 8);
    out = put(out, a + A5, 8);
    out = put_text(out, a + A6);
    out = put(out, a + A7, 6);
    out = put(out, a + A9, 10);
    out = put(out, a + A10, 10);
    out = put(out, a + A11B, execution_width(a));
    *out++ = '\n';
    return out;
}

static uint8_t *put_payment(uint8_t *out, const uint8_t *c, unsigned parts) {
    *out++ = 'C';
    out = put(out, c + C3, 8);
    out = put(out, c + C4, 8);
    out = put(out, c + C5, 10);
    out = put(out, c + C6, 13);
    out = put(out, c + C7A, 2);
    out = put(out, c + C7B, 3);
    out = put(out, c + C10, 8);
    out = put(out, c + C11, 10);
    out = put(out, c + C12, 11);
    out = put_text(out, c + C14A);
    out = put_text(out, c + C15);
    out = put_text(out, c + C16);
    for (unsigned i = 0; i < parts; i++) {
        out = put(out, c + mark_place(i), MARK);
        out = put_text(out, c + mark_place(i) + MARK);
    }
    *out++ = '\n';
    return out;
}

// The letter, eight tabs, the line's end, and A3, A4, A5, A7, A9 and A10.
enum { HEADER_LINE = 10 + 2 + 8 + 8 + 6 + 10 + 10 };

// The letter, twelve tabs, the line's end, and C3 to C7b and C10 to C12.
enum { PAYMENT_LINE = 14 + 8 + 8 + 10 + 13 + 2 + 3 + 8 + 10 + 11 };

static size_t payment_line_length(const uint8_t *c, unsigned parts) {
    size_t length = PAYMENT_LINE + trimmed(c + C14A) + trimmed(c + C15) + trimmed(c + C16);
    for (unsigned i = 0; i < parts; i++)
        length += 1 + MARK + 1 + trimmed(c + mark_place(i) + MARK);
    return length;
}

static size_t listing_length(const uint8_t *file, size_t count) {
    size_t length = HEADER_LINE + trimmed(file + A6) + execution_width(file);
    const uint8_t *c = file + SECTION;
    for (size_t i = 0; i < count; i++) {
        unsigned parts = parts_of(c);
        length += payment_line_length(c, parts);
        c += payment_bytes(parts);
    }
    return length;
}

static size_t print_listing(const uint8_t *file, size_t count, uint8_t *output) {
    uint8_t *out = put_header(output, file);
    const uint8_t *c = file + SECTION;
    for (size_t i = 0; i < count; i++) {
        unsigned parts = parts_of(c);
        out = put_payment(out, c, parts);
        c += payment_bytes(parts);
    }
    return out - output;
}

uint8_t plain_list(const uint8_t *file, size_t file_length, uint8_t *output, size_t output_length,
                   uint64_t *result, size_t result_length) {
    if (result_length < FIGURES_OF_WRITING)
        return NO_ROOM;
    struct totals totals;
    struct refusal why = check_file(file, file_length, &totals);
    if (why.number != ACCEPTED)
        return give_length(why, 0, result);
    // No listing is longer than its file: only a shorter output needs the length to be counted.
    if (output_length < file_length && output_length < listing_length(file, totals.count))
        return give_length(refuse(NO_ROOM, 0), 0, result);
    return give_length(accept(), print_listing(file, totals.count, output), result);
}
