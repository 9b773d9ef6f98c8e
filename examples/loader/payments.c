// Lends columns to the library, and keeps what it tells: this is the one call that a loader needs.
#include "payments.h"

#include <errno.h>
#include <stdlib.h>

#include "dtaus.h"

// A and E take 128 bytes each and a payment at least 256; a file has at most 9,999,999 payments.
enum { BYTES_OF_A_AND_E = 256, LEAST_BYTES_OF_PAYMENT = 256, MOST_PAYMENTS = 9999999 };

// Where the figures stand in the call's result, after the number, which the call also returns.
enum { PLACE = 1, COUNT, SUM_OF_ACCOUNTS, SUM_OF_BANK_CODES, SUM_OF_CENTS };

// As many rows as a file of this length can need: so the payments need not be counted first.
static size_t rows_for(size_t file_length) {
    if (file_length < BYTES_OF_A_AND_E) {
        return 0;
    }
    size_t rows = (file_length - BYTES_OF_A_AND_E) / LEAST_BYTES_OF_PAYMENT;
    return rows < MOST_PAYMENTS ? rows : MOST_PAYMENTS;
}

// One row more than is lent, so that a column without rows is memory too, and NULL always means
// there is none.
static uint64_t *column(size_t rows) { return malloc((rows + 1) * sizeof(uint64_t)); }

static bool allocate_columns(size_t rows, struct payments *payments) {
    payments->bank_codes = column(rows);
    payments->accounts = column(rows);
    payments->cents = column(rows);
    payments->starts = column(rows);
    if (payments->bank_codes == NULL || payments->accounts == NULL || payments->cents == NULL ||
        payments->starts == NULL) {
        release_payments(payments);
        return false;
    }
    return true;
}

bool load_payments(const struct input *file, struct payments *payments) {
    size_t rows = rows_for(file->length);
    if (!allocate_columns(rows, payments)) {
        return false;
    }
    uint64_t result[DTAUS_LOAD_FIGURES];
    payments->number =
        dtaus_load(file->bytes, file->length, payments->bank_codes, rows, payments->accounts, rows,
                   payments->cents, rows, payments->starts, rows, result, DTAUS_LOAD_FIGURES);
    payments->place = result[PLACE];
    payments->count = result[COUNT];
    payments->sum_of_accounts = result[SUM_OF_ACCOUNTS];
    payments->sum_of_bank_codes = result[SUM_OF_BANK_CODES];
    payments->sum_of_cents = result[SUM_OF_CENTS];
    return true;
}

void release_payments(struct payments *payments) {
    int reason = errno;
    free(payments->bank_codes);
    free(payments->accounts);
    free(payments->cents);
    free(payments->starts);
    errno = reason;
}
