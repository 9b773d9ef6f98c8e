// What is lent to a call.
#include "lent.h"
#include <stdio.h>
#include <stdlib.h>
#include <string.h>

// One byte more than asked for: malloc may give NULL for none.
void *allocate(size_t bytes) {
    void *memory = malloc(bytes + 1);
    if (memory == NULL) {
        fprintf(stderr, "bench: no memory for %zu bytes\n", bytes);
        exit(2);
    }
    return memory;
}

static void *allocate_filled(size_t bytes) { return memset(allocate(bytes), 0xA5, bytes); }

void lend(struct work *work, struct room room) {
    for (int i = 0; i < COLUMNS; i++)
        work->columns[i] = allocate_filled(rows_of(room, i) * sizeof(uint64_t));
    work->output = allocate_filled(room.output);
    work->room = room;
}

void take_back(struct work *work) {
    for (int i = 0; i < COLUMNS; i++)
        free(work->columns[i]);
    free(work->output);
}
