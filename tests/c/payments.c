// Reading and writing of payments.
#include "payments.h"

#include <inttypes.h>
#include <stdio.h>
#include <string.h>

// The bytes of a section of a record; a payment has two or more.
#define SECTION 128

// Where fields stand in a payment.
enum { C1 = 0, C4 = 13, C5 = 21, C12 = 79, C18 = 185, PARTS = 187 };

// Where figures stand in E.
enum { E4 = 10, E6 = 30, E7 = 47, E8 = 64 };

// The length that C1 tells of a payment without parts, and what a part adds.
enum { FIELDS = 187, PART = 29 };

// The widths of case M's fields, one after another: A, then C with its one part and the blanks that
// close its second section, then E.
static const size_t widths[] = {
    4,  1,  2, 8, 8,  27, 6,  4,  10, 10, 15, 8,  24, 1,        // A
    4,  1,  8, 8, 10, 13, 2,  3,  1,  11, 8,  10, 11, 3, 27, 8, // C
    27, 27, 1, 2, 2,  2,  27, 40,                               // C, its second section
    4,  1,  5, 7, 13, 17, 17, 13, 51,                           // E
};

size_t field_with(size_t byte) {
    size_t place = 0;
    for (size_t i = 0; place + widths[i] <= byte; i++)
        place += widths[i];
    return place;
}

// The number that digits of a file stand for.
static uint64_t digits(const struct bytes *file, size_t place, size_t width) {
    uint64_t number = 0;
    for (size_t i = place; i < place + width; i++)
        number = number * 10 + (uint64_t)(file->at[i] - '0');
    return number;
}

// The second section takes 2 parts, the third to fifth 4 each, the sixth 1.
static size_t bytes_of(uint64_t parts) {
    size_t bytes = 2 * SECTION;
    for (uint64_t room = 2; room < parts; room += 4)
        bytes += SECTION;
    return bytes;
}

size_t part_text(size_t part) {
    if (part <= 2)
        return PARTS + PART * (part - 1) + 2;
    size_t later = part - 3;
    return SECTION * (2 + later / 4) + PART * (later % 4) + 2;
}

void read_payments(struct payments *payments, const struct bytes *file) {
    size_t place = SECTION;
    payments->count = 0;
    while (place + SECTION < file->length) {
        struct payment *row = &payments->row[payments->count++];
        row->start = place;
        row->bank_code = digits(file, place + C4, 8);
        row->account = digits(file, place + C5, 10);
        row->cents = digits(file, place + C12, 11);
        row->parts = (digits(file, place + C1, 4) - FIELDS) / PART;
        place += bytes_of(row->parts);
    }
}

struct totals totals_of(const struct payments *payments) {
    struct totals totals = {0, 0, 0};
    for (size_t i = 0; i < payments->count; i++) {
        totals.accounts += payments->row[i].account;
        totals.bank_codes += payments->row[i].bank_code;
        totals.cents += payments->row[i].cents;
    }
    return totals;
}

// Puts a number there, with zeros ahead of it.
static void put_number(struct bytes *file, size_t place, int width, uint64_t number) {
    char text[24];
    snprintf(text, sizeof text, "%0*" PRIu64, width, number);
    put(file, place, text);
}

// Begins a file: case M's header.
static void begin_file(struct bytes *file, const struct bytes *m) {
    file->length = 0;
    append(file, m->at, SECTION);
}

// Marks and texts of a payment's parts.
static void put_parts(struct bytes *file, size_t start, const char *marks, size_t parts) {
    for (size_t part = 1; part <= parts; part++) {
        char words[2 + TEXT_WIDTH + 1];
        snprintf(words, sizeof words, "%.2sTEXT %zu", marks + 2 * (part - 1), part);
        put(file, start + part_text(part) - 2, words);
    }
}

// Puts case M's payment at the end, with other values and, for each two digits of marks, a part.
static void add_payment(struct bytes *file, const struct bytes *m, const char *bank_code,
                        const char *account, const char *cents, const char *marks) {
    size_t start = file->length;
    size_t parts = strlen(marks) / 2;
    append(file, m->at + M_PAYMENT, PARTS);
    while (file->length < start + bytes_of(parts))
        append(file, " ", 1);
    put_number(file, start + C1, 4, FIELDS + PART * parts);
    put(file, start + C4, bank_code);
    put(file, start + C5, account);
    put(file, start + C12, cents);
    put_number(file, start + C18, 2, parts);
    put_parts(file, start, marks, parts);
}

// Puts case M's trailer at the end, with the figures of the file.
static void end_file(struct bytes *file, const struct bytes *m) {
    size_t ending = file->length;
    append(file, m->at + M_ENDING, SECTION);
    struct payments payments;
    read_payments(&payments, file);
    struct totals totals = totals_of(&payments);
    put_number(file, ending + E4, 7, payments.count);
    put_number(file, ending + E6, 17, totals.accounts);
    put_number(file, ending + E7, 17, totals.bank_codes);
    put_number(file, ending + E8, 13, totals.cents);
}

void write_four(struct bytes *file, const struct bytes *m) {
    begin_file(file, m);
    add_payment(file, m, "30050020", "0007654321", "00000012345", "02");
    add_payment(file, m, "12345678", "9999999999", "99999999999", "");
    add_payment(file, m, "89999999", "0000000001", "00000000001", "010202020202020202020202020203");
    add_payment(file, m, "50010517", "1234567890", "00000000100", "020203");
    end_file(file, m);
}

void write_top(struct bytes *file, const struct bytes *m) {
    begin_file(file, m);
    for (int i = 0; i < 100; i++)
        add_payment(file, m, "30050020", "0007654321", "99999999999", "");
    add_payment(file, m, "30050020", "0007654321", "00000000099", "");
    end_file(file, m);
}
