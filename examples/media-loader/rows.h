// The rows of a medium, table by table, as a store is to get them.
#ifndef ROWS_H
#define ROWS_H

#include <stddef.h>
#include <stdint.h>
#include <stdio.h>

#include "medium.h"

enum { TABLES = 2, MOST_VALUES = 5 };

// Each row has the medium's number, its own number and then its values. The names of all these
// columns stand in the same order.
struct table {
    const char *name;
    const char *columns;
    uint64_t medium_number;
    uint64_t rows;
    size_t values;
    const uint64_t *value[MOST_VALUES];
};

// The table of payments and the table of files. Their values stay those of the medium.
void list_tables(uint64_t medium_number, const struct medium *medium, struct table tables[TABLES]);

// Writes the tables in the form of one store. Faults of writing stay in the stream.
typedef void write_tables(FILE *stream, const struct table tables[TABLES]);

// Writes the numbers of a row, parted by this sign.
void write_row(FILE *stream, const struct table *table, uint64_t row, char sign);

#endif
