// The readers of records, and the check of files. A reader gets what is left of its input, and
// tells places from there.
#ifndef RECORDS_H
#define RECORDS_H

#include "layout.h"
#include "rules.h"

struct refusal check_header(const uint8_t *a, size_t have, struct kind *kind);

// A payment whose C1 has been read and told so many parts. It is added to the totals, but not
// counted.
struct refusal check_payment(const uint8_t *c, size_t have, struct kind kind, unsigned parts,
                             struct totals *totals);

// E behind its E1.
struct refusal check_trailer(const uint8_t *e, size_t have, const struct totals *totals);

// The file that begins here, whatever follows it. Where it is accepted, the totals are those of its
// payments, and its length is told.
struct refusal check_next_file(const uint8_t *file, size_t have, struct totals *totals,
                               size_t *length);

// The whole file, which nothing follows.
struct refusal check_file(const uint8_t *file, size_t length, struct totals *totals);

#endif
