// Valid files and media, the same in every run.
#ifndef GENERATE_H
#define GENERATE_H

#include <stddef.h>
#include <stdint.h>

// Numbers from a seed; a range gives one from 0 to one below its bound.
struct chance {
    uint64_t state;
};

uint32_t range(struct chance *chance, uint32_t bound);

// The most bytes that a file can be longer than it was asked to be.
enum { LONGER = 1024 };

// The most cents that a payment can have: C12 has 11 digits.
#define MOST_CENTS_OF_ONE 99999999999u

// What the payments of a file are like.
struct shape {
    const char *name;
    unsigned most_parts;
    uint64_t cents; // of each payment; 0 means that they vary
};

// Writes a file that has at least so many bytes. Tells its length and its payments.
size_t generate(uint8_t *file, size_t bytes, const struct shape *shape, size_t *payments);

// Writes a medium of so many files, each with at least so many bytes and other payments than those
// before it; the first is the one that generate writes. Tells its length and its payments.
size_t generate_medium(uint8_t *medium, size_t files, size_t bytes, const struct shape *shape,
                       size_t *payments);

#endif
