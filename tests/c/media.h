// Media as the tests put them together from files, and what is in them.
#ifndef MEDIA_H
#define MEDIA_H

#include "bytes.h"
#include "payments.h"

// As many as there is room for: no file is shorter than case M.
#define MOST_FILES 64

struct file_row {
    uint64_t start, count;
    struct totals totals;
};

struct medium {
    struct bytes bytes;
    struct payments payments; // of all files, their starts counted from the medium's start
    size_t count;             // of files
    struct file_row file[MOST_FILES];
};

// A medium of one acceptable file.
void write_one(struct medium *medium, const struct bytes *file);

// Puts one more at the end.
void add_file(struct medium *medium, const struct bytes *file);

#endif
