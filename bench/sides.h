// The two sides that are compared, the library and the plain C, behind one way to make a call.
#ifndef SIDES_H
#define SIDES_H

#include <stddef.h>
#include <stdint.h>

// Those of a file, that of its listing, and those of a medium.
enum call { CHECK, LOAD, LIST, COMPOSE, CHECK_MEDIUM, LOAD_MEDIUM, CALLS };

// The columns of payments, behind them those of the table of files; and the most figures.
enum { PAYMENT_COLUMNS = 4, COLUMNS = 9, FIGURES = 6 };

struct side;

extern const struct side ours;
extern const struct side plain;

// How much is lent: rows for payments, rows for files, bytes of the output.
struct room {
    size_t payments;
    size_t files;
    size_t output;
};

// What the calls read, and what is lent to them.
struct work {
    const uint8_t *file;
    size_t file_length;
    const uint8_t *listing;
    size_t listing_length;
    const uint8_t *medium;
    size_t medium_length;
    uint64_t *columns[COLUMNS];
    uint8_t *output;
    struct room room;
};

const char *call_name(enum call call);

// How many rows a column has.
size_t rows_of(struct room room, int column);

// Makes the call; the result's figures that it does not have stay as they were.
uint8_t make_call(const struct side *side, enum call call, const struct work *work,
                  uint64_t result[FIGURES]);

#endif
