// Rows of bytes, files and listings, and their changes.
#ifndef BYTES_H
#define BYTES_H

#include <stddef.h>
#include <stdint.h>

// Room for a file of some hundred payments.
#define MOST_BYTES 32768

struct bytes {
    size_t length;
    uint8_t at[MOST_BYTES];
};

// The bytes of a file of the file system. Ends the program where it cannot be read or has more.
void read_bytes(struct bytes *bytes, const char *path);

// Puts bytes at the end.
void append(struct bytes *bytes, const void *more, size_t length);

// Replaces the bytes at a place by those of a text.
void put(struct bytes *bytes, size_t place, const char *text);

// Moves the bytes from a place on, and puts a text in there.
void insert(struct bytes *bytes, size_t place, const char *text);

#endif
