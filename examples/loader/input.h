// Reading a file into memory, whole.
#ifndef INPUT_H
#define INPUT_H

#include <stdbool.h>
#include <stddef.h>
#include <stdint.h>

struct input {
    uint8_t *bytes;
    size_t length;
};

// False where the file cannot be read; errno then says why, and there is nothing to release.
bool read_input(const char *name, struct input *input);

// Leaves errno as it is.
void release_input(struct input *input);

#endif
