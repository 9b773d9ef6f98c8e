// The kinds of field: tests of bytes that are there, each giving the number of a refusal or
// ACCEPTED.
#ifndef FIELDS_H
#define FIELDS_H

#include "refusal.h"
#include <stdbool.h>
#include <stdint.h>
#include <string.h>

// What a byte is in a text. The classes of all bytes of a text are joined by "or".
enum { BLANK = 0, SIGN = 1, OTHER = 2 };

extern const uint8_t sign_class[256];

// The most blanks and the most zeros that stand in one field, and the 0 that ends a string.
extern const char blanks_99[100];
extern const char zeros_13[14];

static inline enum number fixed(const uint8_t *field, const char *want, size_t width) {
    return memcmp(field, want, width) == 0 ? ACCEPTED : NOT_FIXED;
}

static inline enum number blanks(const uint8_t *field, size_t width) {
    return fixed(field, blanks_99, width);
}

static inline enum number zeros(const uint8_t *field, size_t width) {
    return fixed(field, zeros_13, width);
}

// Digits that are known to be such.
static inline uint64_t number_of(const uint8_t *field, size_t width) {
    uint64_t value = 0;
    for (size_t i = 0; i < width; i++)
        value = value * 10 + (field[i] - '0');
    return value;
}

static inline enum number digits(const uint8_t *field, size_t width, uint64_t *value) {
    uint64_t sum = 0;
    bool all = true;
    for (size_t i = 0; i < width; i++) {
        uint8_t digit = field[i] - '0';
        all &= digit <= 9;
        sum = sum * 10 + digit;
    }
    *value = sum;
    return all ? ACCEPTED : NO_DIGIT;
}

// Digits of which no value is wanted.
static inline enum number any_digits(const uint8_t *field, size_t width) {
    uint64_t unused;
    return digits(field, width, &unused);
}

// The loop is unrolled as far as a text is wide: most bytes of a file are in texts.
static inline uint8_t classes(const uint8_t *field, size_t width) {
    uint8_t seen = 0;
#pragma GCC unroll 27
    for (size_t i = 0; i < width; i++)
        seen |= sign_class[field[i]];
    return seen;
}

static inline enum number text(const uint8_t *field, size_t width) {
    return classes(field, width) & OTHER ? NO_SIGN : ACCEPTED;
}

// A text that is not all blank, nor empty.
static inline enum number name(const uint8_t *field, size_t width) {
    uint8_t seen = classes(field, width);
    if (seen & OTHER)
        return NO_SIGN;
    return seen & SIGN ? ACCEPTED : CONDITION;
}

#endif
