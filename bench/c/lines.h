// A line of a listing: its fields and its form.
#ifndef LINES_H
#define LINES_H

#include "layout.h"
#include <stdbool.h>
#include <stdint.h>

// The fields behind the letter: those of A, those that every payment has, and the most that a
// payment has.
enum { FIELDS_OF_A = 8, FIELDS_OF_C = 12, MOST_FIELDS = FIELDS_OF_C + 2 * MOST_PARTS };

struct told {
    const uint8_t *bytes;
    size_t width;
};

// The fields of a line, its letter first, and where the next line begins. A line without an end, or
// with more fields than any may have, has none.
struct line {
    size_t count;
    struct told fields[1 + MOST_FIELDS];
    const uint8_t *next;
};

void split_line(const uint8_t *from, const uint8_t *end, struct line *line);

bool is_header_line(const struct line *line);
bool is_payment_line(const struct line *line);

// The parts that a payment's line tells.
static inline unsigned parts_told(const struct line *line) {
    return (line->count - 1 - FIELDS_OF_C) / 2;
}

#endif
