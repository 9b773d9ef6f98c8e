// The payments and the files of a medium as columns, with the counts that the library tells.
#ifndef MEDIUM_H
#define MEDIUM_H

#include <stdbool.h>
#include <stddef.h>
#include <stdint.h>

#include "input.h"

// Row i of the first four columns is payment i of the medium, row j of the other five is file j.
// Where `number` is not 0 the medium is refused: no row is written, and the counts are 0.
struct medium {
    uint8_t number;
    uint64_t place;
    uint64_t file_count;
    uint64_t payment_count;
    uint64_t *bank_codes;
    uint64_t *accounts;
    uint64_t *cents;
    uint64_t *starts;
    uint64_t *file_starts;
    uint64_t *file_counts;
    uint64_t *file_accounts;
    uint64_t *file_bank_codes;
    uint64_t *file_cents;
};

// False where there is no memory for the columns; errno then says so, and there is nothing to
// release.
bool load_medium(const struct input *input, struct medium *medium);

// Leaves errno as it is.
void release_medium(struct medium *medium);

#endif
