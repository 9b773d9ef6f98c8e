// Writes the rows as PostgreSQL's binary COPY stream: a head, for each row its fields, each a
// length and a bigint with the high byte first, and an end. The fields stand in the order of the
// table's columns.
#include "copy_binary.h"

// A row: how many fields it has, in two bytes; then for each field its length in four, and the
// bigint in eight.
enum { FIELDS = 6, BYTES_OF_BIGINT = 8, BYTES_OF_ROW = 2 + FIELDS * (4 + BYTES_OF_BIGINT) };

// The 0 that ends the string is the signature's last byte.
static const char signature[] = "PGCOPY\n\377\r\n";

// No flags, and no bytes of a further head.
static const uint8_t flags_and_length[4 + 4] = {0};

// -1 in the place of a row's field count.
static const uint8_t end[2] = {0xFF, 0xFF};

// Puts a number down with the high byte first, and gives back where the next one goes.
static uint8_t *put(uint8_t *to, uint64_t value, unsigned width) {
    for (unsigned i = 0; i < width; i++) {
        to[i] = (uint8_t)(value >> (8 * (width - 1 - i)));
    }
    return to + width;
}

static uint8_t *put_bigint(uint8_t *to, uint64_t value) {
    return put(put(to, BYTES_OF_BIGINT, 4), value, BYTES_OF_BIGINT);
}

static void write_row(FILE *stream, uint64_t file_number, const struct payments *payments,
                      size_t row) {
    uint8_t bytes[BYTES_OF_ROW];
    uint8_t *to = put(bytes, FIELDS, 2);
    to = put_bigint(to, file_number);
    to = put_bigint(to, row);
    to = put_bigint(to, payments->bank_codes[row]);
    to = put_bigint(to, payments->accounts[row]);
    to = put_bigint(to, payments->cents[row]);
    put_bigint(to, payments->starts[row]);
    fwrite(bytes, 1, sizeof bytes, stream);
}

void write_copy_binary(FILE *stream, uint64_t file_number, const struct payments *payments) {
    fwrite(signature, 1, sizeof signature, stream);
    fwrite(flags_and_length, 1, sizeof flags_and_length, stream);
    for (size_t row = 0; row < payments->count; row++) {
        write_row(stream, file_number, payments, row);
    }
    fwrite(end, 1, sizeof end, stream);
}
