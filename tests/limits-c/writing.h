// A file of many payments on disk: case M with other bank codes, accounts and cents, and what these
// come to.
#ifndef LIMITS_WRITING_H
#define LIMITS_WRITING_H

#include <stddef.h>
#include <stdint.h>

struct payment {
    uint64_t bank_code;
    uint64_t account;
    uint64_t cents;
};

// Tells payment i of a file, counted from 0.
typedef struct payment (*payment_rule)(uint64_t i);

// The file, and the count and the sums of the payments in it, added up as they were written.
struct written_file {
    int descriptor;
    uint8_t case_m[512];
    uint64_t count;
    uint64_t accounts;
    uint64_t bank_codes;
    uint64_t cents;
};

// Creates a file in the folder. It has no name there: it is gone when it is closed, or when the
// program ends, however it ends.
void create_file(struct written_file *file, const char *folder, const char *sample);
void close_file(const struct written_file *file);

// Leaves nothing but A in the file.
void start_over(struct written_file *file);

// Writes payments behind those that the file has, until it has so many, and then E with their
// figures.
void lengthen(struct written_file *file, payment_rule rule, uint64_t count);

// The byte at which payment i begins, and the length of the whole file.
uint64_t start_of(uint64_t i);
size_t length_of(const struct written_file *file);

// The file's bytes, read-only.
const uint8_t *map_file(const struct written_file *file);
void unmap_file(const struct written_file *file, const uint8_t *bytes);

// Ends the program with a message: what could not be done, and why.
void give_up(const char *what);

#endif
