// Writes the rows as a script for the shell of SQLite that inserts all of them, table by table, in
// one transaction.
#include "sql_script.h"

// Enough rows that SQLite does not spend its time on parsing statements, and far below its longest
// statement.
enum { ROWS_OF_INSERT = 500 };

// Without .bail the shell would go on after a failed insert, and commit the others.
static const char beginning[] = ".bail on\nbegin;\n";

static void write_insert(FILE *stream, const struct table *table, uint64_t from, uint64_t to) {
    fprintf(stream, "insert into %s (%s) values\n", table->name, table->columns);
    for (uint64_t row = from; row < to; row++) {
        fputc('(', stream);
        write_row(stream, table, row, ',');
        fputs(row + 1 < to ? "),\n" : ");\n", stream);
    }
}

static void write_inserts(FILE *stream, const struct table *table) {
    for (uint64_t from = 0; from < table->rows; from += ROWS_OF_INSERT) {
        uint64_t left = table->rows - from;
        write_insert(stream, table, from, from + (left < ROWS_OF_INSERT ? left : ROWS_OF_INSERT));
    }
}

void write_sql_script(FILE *stream, const struct table tables[TABLES]) {
    fputs(beginning, stream);
    for (size_t i = 0; i < TABLES; i++) {
        write_inserts(stream, &tables[i]);
    }
    fputs("commit;\n", stream);
}
