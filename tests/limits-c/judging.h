// Makes a call of the library on a written file, and holds all that it gave back against what is
// expected.
#ifndef LIMITS_JUDGING_H
#define LIMITS_JUDGING_H

#include "writing.h"

// What dtaus_check and dtaus_load give back, in the order of their figures.
struct answer {
    uint64_t number;
    uint64_t place;
    uint64_t count;
    uint64_t accounts;
    uint64_t bank_codes;
    uint64_t cents;
};

// Four columns of one length.
struct columns {
    size_t rows;
    uint64_t *bank_codes;
    uint64_t *accounts;
    uint64_t *cents;
    uint64_t *starts;
};

// Writes the file as lengthen does, and prints how long that took.
void write_payments(struct written_file *file, payment_rule rule, uint64_t count);

// The answer to a file that is accepted, by the figures that were added up while it was written.
struct answer accepted(const struct written_file *file);

// The answer to a file that is refused.
struct answer refused(uint64_t number, uint64_t place);

// One test of dtaus_check. The time that is printed is that of the call.
void expect_check(const char *shows, const struct written_file *file, struct answer expected);

// One test of dtaus_load. The time that is printed is that of the call. After the call the columns
// must hold the payments that the rule tells, as many as the answer counts, and else what they held
// before.
void expect_load(const char *shows, const struct written_file *file, payment_rule rule,
                 const struct columns *columns, struct answer expected);

// Prints the last line, and tells whether all tests passed.
int all_passed(void);

#endif
