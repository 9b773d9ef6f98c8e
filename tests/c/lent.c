// Rooms for lent slices.
#define _DEFAULT_SOURCE
#include "lent.h"

#include <stdio.h>
#include <stdlib.h>
#include <string.h>
#include <sys/mman.h>

static uint8_t pattern[ROOM];

// No byte of the pattern is permitted in a file, none is 0, and neighbours differ.
static void fill_pattern(void) {
    for (size_t i = 0; i < ROOM; i++)
        pattern[i] = (uint8_t)(0x80 | (i * 37 % 0x80));
}

static bool has_pattern(const struct slice *slice, size_t from, size_t to) {
    return memcmp(slice->room + from, pattern + from, to - from) == 0;
}

struct slice make_room(void) {
    uint8_t *memory = mmap(NULL, 3 * ROOM, PROT_NONE, MAP_PRIVATE | MAP_ANONYMOUS, -1, 0);
    if (memory == MAP_FAILED || mprotect(memory + ROOM, ROOM, PROT_READ | PROT_WRITE) != 0) {
        perror("make_room");
        exit(2);
    }
    fill_pattern();
    return (struct slice){.room = memory + ROOM, .at = memory + ROOM};
}

void lend(struct slice *slice, size_t bytes, enum edge edge) {
    if (bytes > ROOM) {
        fprintf(stderr, "lend: no room for %zu bytes\n", bytes);
        exit(2);
    }
    size_t guard = ROOM - bytes < GUARD ? ROOM - bytes : GUARD;
    slice->at = edge == BEHIND ? slice->room + ROOM - bytes : slice->room;
    slice->bytes = bytes;
    slice->from = edge == BEHIND ? ROOM - bytes - guard : 0;
    slice->to = edge == BEHIND ? ROOM : bytes + guard;
    memcpy(slice->room + slice->from, pattern + slice->from, slice->to - slice->from);
}

void lend_copy(struct slice *slice, const uint8_t *bytes, size_t length, enum edge edge) {
    lend(slice, length, edge);
    if (length > 0)
        memcpy(slice->at, bytes, length);
}

bool untouched_but_for(const struct slice *slice, size_t first) {
    size_t begin = (size_t)(slice->at - slice->room);
    return has_pattern(slice, slice->from, begin) && has_pattern(slice, begin + first, slice->to);
}
