// Writes the rows as a script for PostgreSQL's shell, psql, that copies all of them, table by
// table, in one transaction.
#include "copy_script.h"

// Without it psql would take the rows for statements where a copy is refused.
static const char beginning[] = "\\set ON_ERROR_STOP on\nbegin;\n";

static const char end_of_rows[] = "\\.\n";

static void write_copy(FILE *stream, const struct table *table) {
    fprintf(stream, "copy %s (%s) from stdin;\n", table->name, table->columns);
    for (uint64_t row = 0; row < table->rows; row++) {
        write_row(stream, table, row, '\t');
        fputc('\n', stream);
    }
    fputs(end_of_rows, stream);
}

void write_copy_script(FILE *stream, const struct table tables[TABLES]) {
    fputs(beginning, stream);
    for (size_t i = 0; i < TABLES; i++) {
        write_copy(stream, &tables[i]);
    }
    fputs("commit;\n", stream);
}
