// The payments of a file as the tests read and write them, by the places of the fields in the
// banks' layout and with no call of the library.
#ifndef PAYMENTS_H
#define PAYMENTS_H

#include "bytes.h"

// Where things stand in case M: its payment, and E.
#define M_PAYMENT 128
#define M_ENDING 384

// Where the field begins that has this byte of case M.
size_t field_with(size_t byte);

// The width of every text.
#define TEXT_WIDTH 27

#define MOST_PAYMENTS 128

struct payment {
    uint64_t start, bank_code, account, cents, parts;
};

struct payments {
    size_t count;
    struct payment row[MOST_PAYMENTS];
};

// The three sums of payments, in the order of E.
struct totals {
    uint64_t accounts, bank_codes, cents;
};

// Reads the payments of an acceptable file.
void read_payments(struct payments *payments, const struct bytes *file);

struct totals totals_of(const struct payments *payments);

// Where in a payment the text of a part begins, counted from 1.
size_t part_text(size_t part);

// A file of four payments that have one part, none, fifteen and three, and differ in all values.
void write_four(struct bytes *file, const struct bytes *m);

// A file of 101 payments whose cents come to the highest sum, 9,999,999,999,999.
void write_top(struct bytes *file, const struct bytes *m);

#endif
