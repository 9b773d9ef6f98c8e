// The putting together of media.
#include "media.h"

void add_file(struct medium *medium, const struct bytes *file) {
    size_t start = medium->bytes.length;
    // It ends the program where there is no room; the rows below have room for what it leaves.
    append(&medium->bytes, file->at, file->length);
    struct payments payments;
    read_payments(&payments, file);
    medium->file[medium->count++] = (struct file_row){start, payments.count, totals_of(&payments)};
    for (size_t i = 0; i < payments.count; i++) {
        struct payment *row = &medium->payments.row[medium->payments.count++];
        *row = payments.row[i];
        row->start += start;
    }
}

void write_one(struct medium *medium, const struct bytes *file) {
    medium->bytes.length = 0;
    medium->payments.count = 0;
    medium->count = 0;
    add_file(medium, file);
}
