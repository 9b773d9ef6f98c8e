// Writes the rows as a script for the shell of SQLite that inserts all of them in one transaction.
#include "sql_script.h"

#include <inttypes.h>

// Enough rows that SQLite does not spend its time on parsing statements, and far below its longest
// statement.
enum { ROWS_OF_INSERT = 500 };

// Without .bail the shell would go on after a failed insert, and commit the others.
static const char beginning[] = ".bail on\nbegin;\n";

static const char insert[] = "insert into payments (file_number, payment_number, bank_code, "
                             "account, cents, start_byte) values\n";

static void write_row(FILE *stream, uint64_t file_number, const struct payments *payments,
                      size_t row) {
    fprintf(stream, "(%" PRIu64 ",%zu,%" PRIu64 ",%" PRIu64 ",%" PRIu64 ",%" PRIu64 ")",
            file_number, row, payments->bank_codes[row], payments->accounts[row],
            payments->cents[row], payments->starts[row]);
}

static void write_insert(FILE *stream, uint64_t file_number, const struct payments *payments,
                         size_t from, size_t to) {
    fputs(insert, stream);
    for (size_t row = from; row < to; row++) {
        write_row(stream, file_number, payments, row);
        fputs(row + 1 < to ? ",\n" : ";\n", stream);
    }
}

void write_sql_script(FILE *stream, uint64_t file_number, const struct payments *payments) {
    fputs(beginning, stream);
    for (size_t from = 0; from < payments->count; from += ROWS_OF_INSERT) {
        size_t left = payments->count - from;
        write_insert(stream, file_number, payments, from,
                     from + (left < ROWS_OF_INSERT ? left : ROWS_OF_INSERT));
    }
    fputs("commit;\n", stream);
}
