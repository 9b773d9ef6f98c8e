// The writers of records, from the lines of a listing that was accepted.
#ifndef WRITE_H
#define WRITE_H

#include "rules.h"

// Each writes the record of the line at `line` into the output, tells where the next line begins,
// and moves the output behind the record.
const uint8_t *write_header(const uint8_t *line, uint8_t **output);
const uint8_t *write_payment(const uint8_t *line, uint8_t **output);

void write_trailer(uint8_t *e, const struct totals *totals);

#endif
