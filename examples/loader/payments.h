// The payments of a file as columns, with the count and the totals that the library tells.
#ifndef PAYMENTS_H
#define PAYMENTS_H

#include <stdbool.h>
#include <stddef.h>
#include <stdint.h>
#include <stdio.h>

#include "input.h"

// Row i of each column is payment i. Where `number` is not 0 the file is refused: no row is
// written, and count and totals are 0.
struct payments {
    uint8_t number;
    uint64_t place;
    uint64_t count;
    uint64_t sum_of_accounts;
    uint64_t sum_of_bank_codes;
    uint64_t sum_of_cents;
    uint64_t *bank_codes;
    uint64_t *accounts;
    uint64_t *cents;
    uint64_t *starts;
};

// False where there is no memory for the columns; errno then says so, and there is nothing to
// release.
bool load_payments(const struct input *file, struct payments *payments);

// Writes the rows in the form of one store. Faults of writing stay in the stream.
typedef void write_rows(FILE *stream, uint64_t file_number, const struct payments *payments);

// Leaves errno as it is.
void release_payments(struct payments *payments);

#endif
