// Writes files of many payments. What stands in them is case M but for C4, C5 and C12, and for E's
// figures.
#define _POSIX_C_SOURCE 200809L
#include "writing.h"

#include <errno.h>
#include <stdio.h>
#include <stdlib.h>
#include <string.h>
#include <sys/mman.h>
#include <unistd.h>

// Case M: A, one payment of one part, E.
enum { LENGTH_OF_A = 128, LENGTH_OF_C = 256, LENGTH_OF_E = 128 };

// Payments are handed to the disk in blocks of so many.
enum { BLOCK = 4096 };

void give_up(const char *what) {
    perror(what);
    exit(1);
}

// The last `width` decimal digits of a number: a count or a sum beyond its field is written without
// its first digits.
static void put_digits(uint8_t *at, size_t width, uint64_t number) {
    for (size_t i = width; i > 0; i--) {
        at[i - 1] = (uint8_t)('0' + number % 10);
        number /= 10;
    }
}

static void write_at(const struct written_file *file, const uint8_t *bytes, size_t length,
                     uint64_t place) {
    while (length > 0) {
        ssize_t moved = pwrite(file->descriptor, bytes, length, (off_t)place);
        if (moved < 0 && errno == EINTR)
            continue;
        if (moved == 0)
            errno = ENOSPC; // no reason is told where nothing was taken
        if (moved <= 0)
            give_up("writing a file of payments");
        bytes += moved;
        length -= (size_t)moved;
        place += (uint64_t)moved;
    }
}

uint64_t start_of(uint64_t i) { return LENGTH_OF_A + i * LENGTH_OF_C; }

size_t length_of(const struct written_file *file) { return start_of(file->count) + LENGTH_OF_E; }

static void read_case_m(struct written_file *file, const char *sample) {
    FILE *from = fopen(sample, "rb");
    if (from == NULL || fread(file->case_m, sizeof file->case_m, 1, from) != 1)
        give_up(sample);
    if (fclose(from) != 0)
        give_up(sample);
}

void create_file(struct written_file *file, const char *folder, const char *sample) {
    char path[4096];
    snprintf(path, sizeof path, "%s/payments.XXXXXX", folder);
    read_case_m(file, sample);
    file->descriptor = mkstemp(path);
    if (file->descriptor < 0 || unlink(path) != 0)
        give_up(path);
}

void close_file(const struct written_file *file) {
    if (close(file->descriptor) != 0)
        give_up("closing a file of payments");
}

void start_over(struct written_file *file) {
    if (ftruncate(file->descriptor, 0) != 0)
        give_up("emptying a file of payments");
    file->count = 0;
    file->accounts = 0;
    file->bank_codes = 0;
    file->cents = 0;
    write_at(file, file->case_m, LENGTH_OF_A, 0);
}

// One payment behind the others: its bytes, and the sums with it.
static void add_payment(struct written_file *file, struct payment payment, uint8_t *bytes) {
    memcpy(bytes, file->case_m + LENGTH_OF_A, LENGTH_OF_C);
    put_digits(bytes + 13, 8, payment.bank_code);
    put_digits(bytes + 21, 10, payment.account);
    put_digits(bytes + 79, 11, payment.cents);
    file->count += 1;
    file->bank_codes += payment.bank_code;
    file->accounts += payment.account;
    file->cents += payment.cents;
}

static void write_end(const struct written_file *file) {
    uint8_t end[LENGTH_OF_E];
    memcpy(end, file->case_m + LENGTH_OF_A + LENGTH_OF_C, LENGTH_OF_E);
    put_digits(end + 10, 7, file->count);
    put_digits(end + 30, 17, file->accounts);
    put_digits(end + 47, 17, file->bank_codes);
    put_digits(end + 64, 13, file->cents);
    write_at(file, end, LENGTH_OF_E, start_of(file->count));
}

void lengthen(struct written_file *file, payment_rule rule, uint64_t count) {
    static uint8_t block[BLOCK * LENGTH_OF_C];
    while (file->count < count) {
        uint64_t place = start_of(file->count);
        size_t filled = 0;
        while (filled < sizeof block && file->count < count) {
            add_payment(file, rule(file->count), block + filled);
            filled += LENGTH_OF_C;
        }
        write_at(file, block, filled, place);
    }
    write_end(file);
}

const uint8_t *map_file(const struct written_file *file) {
    void *bytes = mmap(NULL, length_of(file), PROT_READ, MAP_SHARED, file->descriptor, 0);
    if (bytes == MAP_FAILED)
        give_up("mapping a file of payments");
    return bytes;
}

void unmap_file(const struct written_file *file, const uint8_t *bytes) {
    if (munmap((void *)bytes, length_of(file)) != 0)
        give_up("unmapping a file of payments");
}
