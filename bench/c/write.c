// The records that the lines of an accepted listing stand for, and E. Such a line has its form, so
// each field is found behind the one before it.
#include "write.h"
#include "layout.h"

// The letter of a line and its tab.
enum { LETTER = 2 };

static inline void put_number(uint8_t *out, size_t width, uint64_t value) {
    for (size_t i = width; i-- > 0; value /= 10)
        out[i] = '0' + value % 10;
}

// A field of full width; tells where the next one begins.
static inline const uint8_t *put(uint8_t *out, const uint8_t *field, size_t width) {
    memcpy(out, field, width);
    return field + width + 1;
}

// A field up to the tab or line end behind it. What it leaves of its place is blank already.
static inline const uint8_t *put_trimmed(uint8_t *out, const uint8_t *field) {
    while (*field != '\t' && *field != '\n')
        *out++ = *field++;
    return field + 1;
}

const uint8_t *write_header(const uint8_t *line, uint8_t **output) {
    uint8_t *a = *output;
    memset(a, ' ', SECTION);
    memcpy(a + A1, "0128A", 5);
    line = put(a + A3, line + LETTER, 2);
    line = put(a + A4, line, 8);
    line = put(a + A5, line, 8);
    line = put_trimmed(a + A6, line);
    line = put(a + A7, line, 6);
    line = put(a + A9, line, 10);
    line = put(a + A10, line, 10);
    line = put_trimmed(a + A11B, line);
    a[A12] = '1';
    *output = a + SECTION;
    return line;
}

// The fields that every payment has.
static inline const uint8_t *write_fields(const uint8_t *line, uint8_t *c) {
    memset(c, ' ', 2 * SECTION);
    c[C2] = 'C';
    line = put(c + C3, line + LETTER, 8);
    line = put(c + C4, line, 8);
    line = put(c + C5, line, 10);
    line = put(c + C6, line, 13);
    line = put(c + C7A, line, 2);
    line = put(c + C7B, line, 3);
    memset(c + C9, '0', 11);
    line = put(c + C10, line, 8);
    line = put(c + C11, line, 10);
    line = put(c + C12, line, 11);
    line = put_trimmed(c + C14A, line);
    line = put_trimmed(c + C15, line);
    line = put_trimmed(c + C16, line);
    c[C17A] = '1';
    return line;
}

const uint8_t *write_payment(const uint8_t *line, uint8_t **output) {
    uint8_t *c = *output;
    unsigned parts = 0;
    line = write_fields(line, c);
    for (; line[-1] == '\t'; parts++) {
        size_t place = mark_place(parts);
        if (place % SECTION == 0)
            memset(c + place, ' ', SECTION);
        line = put(c + place, line, MARK);
        line = put_trimmed(c + place + MARK, line);
    }
    put_number(c + C1, 4, FIRST_PART + PART * parts);
    put_number(c + C18, 2, parts);
    *output = c + payment_bytes(parts);
    return line;
}

void write_trailer(uint8_t *e, const struct totals *totals) {
    memset(e, ' ', SECTION);
    memcpy(e + E1, "0128E", 5);
    put_number(e + E4, 7, totals->count);
    memset(e + E5, '0', 13);
    put_number(e + E6, 17, totals->accounts);
    put_number(e + E7, 17, totals->bank_codes);
    put_number(e + E8, 13, totals->cents);
}
