// The tests, and what they are run on.
#ifndef TESTS_H
#define TESTS_H

#include "bytes.h"
#include "media.h"

struct samples {
    struct bytes m;       // case M
    struct bytes listing; // its listing
    struct bytes four;    // four payments of different numbers of parts
    struct bytes top;     // cents at the highest sum
    struct medium two;    // case M and case M
    struct medium three;  // four payments, cents at the highest sum, case M
};

// Other bytes at a place of an input, and the refusal that they lead to.
struct damage {
    size_t place;
    const char *bytes;
    uint8_t number;
    uint64_t refused_at;
    const char *what;
};

// The memory that the other tests lend does notice a wrong touch.
void test_lent_memory(void);

// The constants of the header.
void test_header(void);

// Files and listings that are accepted.
void test_accepted(const struct samples *samples);

// Payments, starts and texts that are not there.
void test_absent(const struct samples *samples);

// Files that are refused.
void test_damaged_files(const struct samples *samples);

// Listings that are refused.
void test_damaged_listings(const struct samples *samples);

// Media of several files that are accepted.
void test_media(const struct samples *samples);

// A file that is accepted, as a medium of one.
void test_as_medium(const char *name, const struct bytes *file);

// Media that are refused.
void test_damaged_media(const struct samples *samples);

// Columns, outputs and results that are too short or just long enough.
void test_room(const struct samples *samples);

// Slices without entries.
void test_empty_slices(const struct samples *samples);

#endif
