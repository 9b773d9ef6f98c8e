// Reads a file of any length into memory. It is read and not mapped: a mapped file can change or
// shrink while the library looks at it, and the library's answer is about bytes that stay as they
// are.
#define _POSIX_C_SOURCE 200809L

#include "input.h"

#include <errno.h>
#include <fcntl.h>
#include <stdlib.h>
#include <sys/stat.h>
#include <unistd.h>

// The file's length, and one byte more: the read that finds the end needs room too. A pipe tells no
// length.
static size_t first_room(int descriptor) {
    struct stat status;
    size_t length = 0;
    if (fstat(descriptor, &status) == 0 && S_ISREG(status.st_mode)) {
        length = (size_t)status.st_size;
    }
    return length + 1;
}

static bool grow(struct input *input, size_t *room) {
    uint8_t *bytes = realloc(input->bytes, *room * 2);
    if (bytes == NULL) {
        return false;
    }
    input->bytes = bytes;
    *room *= 2;
    return true;
}

// One read hands over at most some 2 GB, and may hand over less than it was asked for.
static bool read_to_the_end(int descriptor, struct input *input, size_t room) {
    for (;;) {
        if (input->length == room && !grow(input, &room)) {
            return false;
        }
        ssize_t got = read(descriptor, input->bytes + input->length, room - input->length);
        if (got == 0) {
            return true;
        }
        if (got > 0) {
            input->length += (size_t)got;
        } else if (errno != EINTR) {
            return false;
        }
    }
}

static bool read_descriptor(int descriptor, struct input *input) {
    size_t room = first_room(descriptor);
    input->length = 0;
    input->bytes = malloc(room);
    if (input->bytes == NULL) {
        return false;
    }
    if (!read_to_the_end(descriptor, input, room)) {
        release_input(input);
        return false;
    }
    return true;
}

bool read_input(const char *name, struct input *input) {
    int descriptor = open(name, O_RDONLY);
    if (descriptor < 0) {
        return false;
    }
    bool done = read_descriptor(descriptor, input);
    int reason = errno;
    close(descriptor);
    errno = reason;
    return done;
}

void release_input(struct input *input) {
    int reason = errno;
    free(input->bytes);
    errno = reason;
}
