// The rows of a medium, table by table.
#include "rows.h"

#include <inttypes.h>

void list_tables(uint64_t medium_number, const struct medium *medium, struct table tables[TABLES]) {
    tables[0] = (struct table){
        .name = "payments",
        .columns = "medium_number, payment_number, bank_code, account, cents, start_byte",
        .medium_number = medium_number,
        .rows = medium->payment_count,
        .values = 4,
        .value = {medium->bank_codes, medium->accounts, medium->cents, medium->starts},
    };
    tables[1] = (struct table){
        .name = "files",
        .columns = "medium_number, file_number, start_byte, payments, accounts, bank_codes, cents",
        .medium_number = medium_number,
        .rows = medium->file_count,
        .values = 5,
        .value = {medium->file_starts, medium->file_counts, medium->file_accounts,
                  medium->file_bank_codes, medium->file_cents},
    };
}

void write_row(FILE *stream, const struct table *table, uint64_t row, char sign) {
    fprintf(stream, "%" PRIu64 "%c%" PRIu64, table->medium_number, sign, row);
    for (size_t i = 0; i < table->values; i++) {
        fprintf(stream, "%c%" PRIu64, sign, table->value[i][row]);
    }
}
