// Whether both sides give the same: the number that is returned, the figures, and all bytes of what
// was lent.
#ifndef AGREE_H
#define AGREE_H

#include "sides.h"
#include <stdbool.h>

// Makes the call on both sides, each with columns and an output of its own in this room, filled
// alike. The work's own columns and output are not used. A difference is printed. Tells the number.
bool same_answer(enum call call, const struct work *work, struct room room, uint8_t *number);

// Every call on a valid file, and on the listing that it has, with enough room and with too little.
bool agree_on_file(const uint8_t *file, size_t length, size_t payments);

// The calls of a valid medium, with enough room and with too little for payments or for files.
bool agree_on_medium(const uint8_t *medium, size_t length, size_t files, size_t payments);

// The listing of a valid file, as ours writes it, and room for as many bytes as the file has.
uint8_t *listing_of(const uint8_t *file, size_t length, size_t *listing_length);

#endif
