// Rows of bytes.
#include "bytes.h"

#include <stdio.h>
#include <stdlib.h>
#include <string.h>

static void need(int holds, const char *what) {
    if (!holds) {
        fprintf(stderr, "%s\n", what);
        exit(2);
    }
}

void read_bytes(struct bytes *bytes, const char *path) {
    FILE *stream = fopen(path, "rb");
    need(stream != NULL, path);
    bytes->length = fread(bytes->at, 1, MOST_BYTES, stream);
    // At the end, and not at a fault or where the room ends.
    need(fgetc(stream) == EOF && !ferror(stream), path);
    need(fclose(stream) == 0, path);
}

void append(struct bytes *bytes, const void *more, size_t length) {
    need(length <= MOST_BYTES - bytes->length, "append: no room");
    memcpy(bytes->at + bytes->length, more, length);
    bytes->length += length;
}

void put(struct bytes *bytes, size_t place, const char *text) {
    need(place + strlen(text) <= bytes->length, "put: beyond the end");
    memcpy(bytes->at + place, text, strlen(text));
}

void insert(struct bytes *bytes, size_t place, const char *text) {
    size_t length = strlen(text);
    need(place <= bytes->length && length <= MOST_BYTES - bytes->length, "insert: no room");
    memmove(bytes->at + place + length, bytes->at + place, bytes->length - place);
    memcpy(bytes->at + place, text, length);
    bytes->length += length;
}
