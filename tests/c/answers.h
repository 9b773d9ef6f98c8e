// What an accepted call wrote, held against what it should have written.
#ifndef ANSWERS_H
#define ANSWERS_H

#include "bytes.h"
#include "calls.h"
#include "media.h"
#include "payments.h"

// The columns of either load hold these payments.
void expect_columns(const struct answer *answer, const struct payments *payments);

// Check or load of a medium is accepted, and tells how many files and payments it has.
void expect_counts(const struct answer *answer, const struct medium *medium);

// The columns and the table of a loaded medium hold its payments and its files.
void expect_loaded(const struct answer *answer, const struct medium *medium);

// List or compose is accepted, and its output is these bytes.
void expect_output(const struct answer *answer, const struct bytes *output);

#endif
