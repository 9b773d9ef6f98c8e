// The lent results: number and place, and the figures of an accepted input.
#ifndef RESULT_H
#define RESULT_H

#include "rules.h"

// What is in a medium.
struct counts {
    uint64_t files;
    uint64_t payments;
};

enum { FIGURES_OF_CHECK = 6, FIGURES_OF_MEDIUM = 4, FIGURES_OF_WRITING = 3 };

// The result of check and load. A refused file has no figures.
static inline uint8_t give_totals(struct refusal why, const struct totals *totals,
                                  uint64_t *result) {
    bool accepted = why.number == ACCEPTED;
    result[0] = why.number;
    result[1] = why.place;
    result[2] = accepted ? totals->count : 0;
    result[3] = accepted ? totals->accounts : 0;
    result[4] = accepted ? totals->bank_codes : 0;
    result[5] = accepted ? totals->cents : 0;
    return why.number;
}

// The result of check and load of a medium.
static inline uint8_t give_counts(struct refusal why, const struct counts *counts,
                                  uint64_t *result) {
    bool accepted = why.number == ACCEPTED;
    result[0] = why.number;
    result[1] = why.place;
    result[2] = accepted ? counts->files : 0;
    result[3] = accepted ? counts->payments : 0;
    return why.number;
}

// The result of list and compose.
static inline uint8_t give_length(struct refusal why, size_t length, uint64_t *result) {
    result[0] = why.number;
    result[1] = why.place;
    result[2] = why.number == ACCEPTED ? length : 0;
    return why.number;
}

#endif
