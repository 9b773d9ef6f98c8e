// Lends columns to the library, and keeps what it tells: this is the one call that a loader needs.
// A single file is a medium of one.
#include "medium.h"

#include <errno.h>
#include <stdlib.h>

#include "dtaus.h"

// A payment takes at least 256 bytes, and a file, with A and E, at least 512.
enum { LEAST_BYTES_OF_PAYMENT = 256, LEAST_BYTES_OF_FILE = 512 };

// Where the figures stand in the call's result, after the number, which the call also returns.
enum { PLACE = 1, FILES, PAYMENTS };

// One row more than is lent, so that a column without rows is memory too, and NULL always means
// there is none.
static uint64_t *column(size_t rows) { return malloc((rows + 1) * sizeof(uint64_t)); }

static bool allocate_columns(size_t payments, size_t files, struct medium *medium) {
    medium->bank_codes = column(payments);
    medium->accounts = column(payments);
    medium->cents = column(payments);
    medium->starts = column(payments);
    medium->file_starts = column(files);
    medium->file_counts = column(files);
    medium->file_accounts = column(files);
    medium->file_bank_codes = column(files);
    medium->file_cents = column(files);
    if (medium->bank_codes == NULL || medium->accounts == NULL || medium->cents == NULL ||
        medium->starts == NULL || medium->file_starts == NULL || medium->file_counts == NULL ||
        medium->file_accounts == NULL || medium->file_bank_codes == NULL ||
        medium->file_cents == NULL) {
        release_medium(medium);
        return false;
    }
    return true;
}

// As many rows are lent as a medium of this length can need: so nothing has to be counted first.
bool load_medium(const struct input *input, struct medium *medium) {
    size_t payments = input->length / LEAST_BYTES_OF_PAYMENT;
    size_t files = input->length / LEAST_BYTES_OF_FILE;
    if (!allocate_columns(payments, files, medium)) {
        return false;
    }
    uint64_t result[DTAUS_LOAD_MEDIUM_FIGURES];
    medium->number = dtaus_load_medium(
        input->bytes, input->length, medium->bank_codes, payments, medium->accounts, payments,
        medium->cents, payments, medium->starts, payments, medium->file_starts, files,
        medium->file_counts, files, medium->file_accounts, files, medium->file_bank_codes, files,
        medium->file_cents, files, result, DTAUS_LOAD_MEDIUM_FIGURES);
    medium->place = result[PLACE];
    medium->file_count = result[FILES];
    medium->payment_count = result[PAYMENTS];
    return true;
}

void release_medium(struct medium *medium) {
    int reason = errno;
    free(medium->bank_codes);
    free(medium->accounts);
    free(medium->cents);
    free(medium->starts);
    free(medium->file_starts);
    free(medium->file_counts);
    free(medium->file_accounts);
    free(medium->file_bank_codes);
    free(medium->file_cents);
    errno = reason;
}
