// Loading: the file is checked, then the room in the columns, and only then are rows written.
#include "columns.h"
#include "plain.h"
#include "records.h"
#include "result.h"

static void fill(const uint8_t *file, size_t count, struct columns columns) {
    size_t at = SECTION;
    for (size_t row = 0; row < count; row++)
        at += fill_row(columns, row, file, at);
}

uint8_t plain_load(const uint8_t *file, size_t file_length, uint64_t *bank_codes,
                   size_t bank_codes_length, uint64_t *accounts, size_t accounts_length,
                   uint64_t *cents, size_t cents_length, uint64_t *starts, size_t starts_length,
                   uint64_t *result, size_t result_length) {
    if (result_length < FIGURES_OF_CHECK)
        return NO_ROOM;
    struct totals totals;
    struct refusal why = check_file(file, file_length, &totals);
    if (why.number != ACCEPTED)
        return give_totals(why, &totals, result);
    size_t count = totals.count;
    if (bank_codes_length < count || accounts_length < count || cents_length < count ||
        starts_length < count)
        return give_totals(refuse(NO_ROOM, 0), &totals, result);
    fill(file, count, (struct columns){bank_codes, accounts, cents, starts});
    return give_totals(accept(), &totals, result);
}
