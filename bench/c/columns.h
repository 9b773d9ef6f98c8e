// The columns of payments, and how a row of them is filled from a payment that was accepted.
#ifndef COLUMNS_H
#define COLUMNS_H

#include "fields.h"
#include "layout.h"

struct columns {
    uint64_t *bank_codes;
    uint64_t *accounts;
    uint64_t *cents;
    uint64_t *starts;
};

// Fills the row of the payment that begins at a place of the input, and tells how many bytes it
// has.
static inline size_t fill_row(struct columns columns, size_t row, const uint8_t *input, size_t at) {
    const uint8_t *c = input + at;
    columns.bank_codes[row] = number_of(c + C4, 8);
    columns.accounts[row] = number_of(c + C5, 10);
    columns.cents[row] = number_of(c + C12, 11);
    columns.starts[row] = at;
    return payment_bytes(number_of(c + C18, 2));
}

#endif
