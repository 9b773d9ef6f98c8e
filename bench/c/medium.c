// Media, which are files end to end: the files are checked one after another, then the room in the
// columns, and only then are rows written, those of the payments and that of the file.
#include "columns.h"
#include "plain.h"
#include "records.h"
#include "result.h"

// The table of files.
struct table {
    uint64_t *starts;
    uint64_t *counts;
    uint64_t *accounts;
    uint64_t *bank_codes;
    uint64_t *cents;
};

// A medium has at least one file: of no bytes, it is refused as a file of none is.
static struct refusal check_medium(const uint8_t *medium, size_t length, struct counts *counts) {
    *counts = (struct counts){0, 0};
    size_t at = 0;
    do {
        struct totals totals;
        size_t file_length;
        struct refusal why = check_next_file(medium + at, length - at, &totals, &file_length);
        if (why.number != ACCEPTED)
            return told_from(why, at);
        counts->files++;
        counts->payments += totals.count;
        at += file_length;
    } while (at < length);
    return accept();
}

// Fills the rows of the payments of the file that begins at `start`, from row `first` on, and adds
// them up. Tells where the file ends.
static size_t fill_payments(const uint8_t *medium, size_t start, struct columns columns,
                            size_t first, struct totals *totals) {
    struct totals sums = {0, 0, 0, 0};
    size_t at = start + SECTION;
    for (; fixed(medium + at + E1, "0128", 4) != ACCEPTED; sums.count++) {
        size_t row = first + sums.count;
        at += fill_row(columns, row, medium, at);
        sums.accounts += columns.accounts[row];
        sums.bank_codes += columns.bank_codes[row];
        sums.cents += columns.cents[row];
    }
    *totals = sums;
    return at + SECTION;
}

static void fill_medium(const uint8_t *medium, size_t files, struct columns columns,
                        struct table table) {
    size_t at = 0;
    size_t row = 0;
    for (size_t file = 0; file < files; file++) {
        struct totals totals;
        table.starts[file] = at;
        at = fill_payments(medium, at, columns, row, &totals);
        row += totals.count;
        table.counts[file] = totals.count;
        table.accounts[file] = totals.accounts;
        table.bank_codes[file] = totals.bank_codes;
        table.cents[file] = totals.cents;
    }
}

uint8_t plain_check_medium(const uint8_t *medium, size_t medium_length, uint64_t *result,
                           size_t result_length) {
    if (result_length < FIGURES_OF_MEDIUM)
        return NO_ROOM;
    struct counts counts;
    struct refusal why = check_medium(medium, medium_length, &counts);
    return give_counts(why, &counts, result);
}

uint8_t plain_load_medium(const uint8_t *medium, size_t medium_length, uint64_t *bank_codes,
                          size_t bank_codes_length, uint64_t *accounts, size_t accounts_length,
                          uint64_t *cents, size_t cents_length, uint64_t *starts,
                          size_t starts_length, uint64_t *file_starts, size_t file_starts_length,
                          uint64_t *file_counts, size_t file_counts_length, uint64_t *file_accounts,
                          size_t file_accounts_length, uint64_t *file_bank_codes,
                          size_t file_bank_codes_length, uint64_t *file_cents,
                          size_t file_cents_length, uint64_t *result, size_t result_length) {
    if (result_length < FIGURES_OF_MEDIUM)
        return NO_ROOM;
    struct counts counts;
    struct refusal why = check_medium(medium, medium_length, &counts);
    if (why.number != ACCEPTED)
        return give_counts(why, &counts, result);
    if (bank_codes_length < counts.payments || accounts_length < counts.payments ||
        cents_length < counts.payments || starts_length < counts.payments ||
        file_starts_length < counts.files || file_counts_length < counts.files ||
        file_accounts_length < counts.files || file_bank_codes_length < counts.files ||
        file_cents_length < counts.files)
        return give_counts(refuse(NO_ROOM, 0), &counts, result);
    fill_medium(
        medium, counts.files, (struct columns){bank_codes, accounts, cents, starts},
        (struct table){file_starts, file_counts, file_accounts, file_bank_codes, file_cents});
    return give_counts(accept(), &counts, result);
}
