// The calls of the library, made with guarded slices. Whatever is called, it is expected that the
// call keeps what the header promises of every call: no byte changes that should not.
#ifndef CALLS_H
#define CALLS_H

#include "bytes.h"
#include "lent.h"

enum function { CHECK, LOAD, LIST, COMPOSE, FIND, TEXT, CHECK_MEDIUM, LOAD_MEDIUM };

// The functions that read one file, and those that read a medium; COMPOSE reads a listing.
#define FILE_READERS 5
extern const enum function file_readers[FILE_READERS];
#define MEDIUM_READERS 2
extern const enum function medium_readers[MEDIUM_READERS];

// The columns of payments, which both loads are lent, and those of the table of files behind them.
#define PAYMENT_COLUMNS 4
#define FILE_COLUMNS 5

// The most slices lent for writing, beside the result: the columns of a medium.
#define MOST_LENT (PAYMENT_COLUMNS + FILE_COLUMNS)

// The longest layout of a result.
#define MOST_FIGURES 6

struct call {
    enum function function;
    const struct bytes *input;
    size_t lent[MOST_LENT]; // entries: columns; list and compose lend one slice, the output
    size_t payment;         // find
    size_t start, wanted;   // text
    size_t result;          // entries
};

// What a call returned and wrote. The slices stay as they are until the next call.
struct answer {
    uint8_t number;
    uint64_t figures[MOST_FIGURES]; // 0 where the result has no such figure
    const uint64_t *columns[MOST_LENT];
    const uint8_t *output;
};

const char *name_of(enum function function);

// How many figures the layout of its result has.
size_t figures_of(enum function function);

// How many slices it is lent for writing, beside the result.
size_t slices_of(enum function function);

// Makes the rooms that calls lend from; each slice lies at this edge of its room from now on.
void lend_at(enum edge edge);

// A call that has room for whatever the input gives, and asks for the first payment of case M.
struct call roomy(enum function function, const struct bytes *input);

// A call that is lent nothing but a result, and asks for what no file has.
struct call cramped(enum function function, const struct bytes *input);

struct answer make(const struct call *call);

// Makes a call and expects this refusal.
void expect_refusal(const struct call *call, uint8_t number, uint64_t place);

// Two tests of a refusal that comes before 16 and 19: with room for everything, and with none.
void test_refused(enum function function, const struct bytes *input, uint8_t number, uint64_t place,
                  const char *what);

#endif
