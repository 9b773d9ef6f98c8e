// Where the fields stand in their records, in bytes from the record's first.
#ifndef LAYOUT_H
#define LAYOUT_H

#include <stddef.h>

// A.
enum {
    A1 = 0,
    A2 = 4,
    A3 = 5,
    A4 = 7,
    A5 = 15,
    A6 = 23,
    A7 = 50,
    A8 = 56,
    A9 = 60,
    A10 = 70,
    A11A = 80,
    A11B = 95,
    A11C = 103,
    A12 = 127,
};

// C: what every payment has. Then come the parts.
enum {
    C1 = 0,
    C2 = 4,
    C3 = 5,
    C4 = 13,
    C5 = 21,
    C6 = 31,
    C7A = 44,
    C7B = 46,
    C8 = 49,
    C9 = 50,
    C10 = 61,
    C11 = 69,
    C12 = 79,
    C13 = 90,
    C14A = 93,
    C14B = 120,
    C15 = 128,
    C16 = 155,
    C17A = 182,
    C17B = 183,
    C18 = 185,
    FIRST_PART = 187,
};

// E.
enum {
    E1 = 0,
    E2 = 4,
    E3 = 5,
    E4 = 10,
    E5 = 17,
    E6 = 30,
    E7 = 47,
    E8 = 64,
    E9 = 77,
};

// Widths that are named: a section, a text, a part with its mark.
enum { SECTION = 128, TEXT = 27, MARK = 2, PART = MARK + TEXT };

enum { MOST_PARTS = 15 };

// The bytes of a payment with so many parts: its second section takes two, the third to fifth four
// each, the sixth one.
static inline size_t payment_bytes(unsigned parts) {
    return parts <= 2 ? 2 * SECTION : SECTION * (3 + (parts - 3) / 4);
}

// Where the mark of a part stands; parts are counted from 0.
static inline size_t mark_place(unsigned part) {
    if (part < 2)
        return FIRST_PART + PART * part;
    return SECTION * (2 + (part - 2) / 4) + PART * ((part - 2) % 4);
}

#endif
