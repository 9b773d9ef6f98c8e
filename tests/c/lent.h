// Memory for slices that are lent to the library. On one side of a slice lies inaccessible memory,
// so that a touch beyond it ends the program; on the other lie guard bytes with a pattern. The
// slice begins with the pattern too, so that what was not written can be told.
#ifndef LENT_H
#define LENT_H

#include <stdbool.h>
#include <stddef.h>
#include <stdint.h>

// The bytes of a room for slices: a multiple of the page size of every processor that runs this.
#define ROOM 65536

// The guard bytes of a slice, fewer where the room has no more.
#define GUARD 1024

// The side of a slice on which the inaccessible memory lies.
enum edge { BEHIND, AHEAD };

struct slice {
    uint8_t *room; // ROOM bytes between inaccessible memory
    uint8_t *at;   // where the slice begins in it
    size_t bytes;
    size_t from, to; // the stretch of the room that is the slice and its guard
};

// A room with inaccessible memory at both sides.
struct slice make_room(void);

// Lends bytes of the room, at an edge of it. They and their guard get the pattern.
void lend(struct slice *slice, size_t bytes, enum edge edge);

// Lends a copy of bytes.
void lend_copy(struct slice *slice, const uint8_t *bytes, size_t length, enum edge edge);

// Whether slice and guard hold the pattern, but for the slice's first bytes.
bool untouched_but_for(const struct slice *slice, size_t first);

#endif
