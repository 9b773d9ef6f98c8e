// What accepted calls wrote.
#include "answers.h"

#include <string.h>

#include "dtaus.h"
#include "harness.h"

void expect_columns(const struct answer *answer, const struct payments *payments) {
    for (size_t i = 0; i < payments->count; i++) {
        expect_equal(answer->columns[0][i], payments->row[i].bank_code, "a bank code");
        expect_equal(answer->columns[1][i], payments->row[i].account, "an account");
        expect_equal(answer->columns[2][i], payments->row[i].cents, "an amount in cents");
        expect_equal(answer->columns[3][i], payments->row[i].start, "the start of a payment");
    }
}

void expect_counts(const struct answer *answer, const struct medium *medium) {
    expect_equal(answer->number, DTAUS_ACCEPTED, "the number");
    expect_equal(answer->figures[2], medium->count, "the count of files");
    expect_equal(answer->figures[3], medium->payments.count, "the count of payments");
}

void expect_loaded(const struct answer *answer, const struct medium *medium) {
    const uint64_t *const *table = answer->columns + PAYMENT_COLUMNS;
    expect_columns(answer, &medium->payments);
    for (size_t i = 0; i < medium->count; i++) {
        const struct file_row *file = &medium->file[i];
        expect_equal(table[0][i], file->start, "the start of a file");
        expect_equal(table[1][i], file->count, "the count of a file's payments");
        expect_equal(table[2][i], file->totals.accounts, "a file's sum of account numbers");
        expect_equal(table[3][i], file->totals.bank_codes, "a file's sum of bank codes");
        expect_equal(table[4][i], file->totals.cents, "a file's sum of cents");
    }
}

void expect_output(const struct answer *answer, const struct bytes *output) {
    expect_equal(answer->number, DTAUS_ACCEPTED, "the number");
    expect_equal(answer->figures[2], output->length, "the length of the output");
    expect(memcmp(answer->output, output->at, output->length) == 0, "the bytes of the output");
}
