// Valid files and media, the same in every run.
#include "generate.h"
#include <string.h>

uint32_t range(struct chance *chance, uint32_t bound) {
    chance->state = chance->state * 6364136223846793005u + 1442695040888963407u;
    return (chance->state >> 32) % bound;
}

// What E tells.
struct figures {
    uint64_t count;
    uint64_t accounts;
    uint64_t bank_codes;
    uint64_t cents;
};

static void put(uint8_t *at, const char *bytes) { memcpy(at, bytes, strlen(bytes)); }

static void put_number(uint8_t *at, int width, uint64_t value) {
    for (int i = width - 1; i >= 0; i--, value /= 10)
        at[i] = '0' + value % 10;
}

// A text of `least` to 27 signs; the rest of the field is blank already. All 50 signs come up, and
// a text ends in a capital.
static void put_text(uint8_t *at, struct chance *chance, uint32_t least) {
    static const char signs[] = "ABCDEFGHIJKLMNOPQRSTUVWXYZ0123456789 .,&-/+*$%[\\]~";
    uint32_t width = least + range(chance, 28 - least);
    for (uint32_t i = 0; i < width; i++)
        at[i] = i + 1 < width ? signs[range(chance, 50)] : signs[range(chance, 26)];
}

static void put_header(uint8_t *a) {
    memset(a, ' ', 128);
    put(a, "0128AGK2005001000000000MUSTER GMBH");
    put(a + 50, "150304");
    put(a + 60, "00012345670000000000");
    put(a + 95, "20032004");
    put(a + 127, "1");
}

static uint64_t some_bank_code(struct chance *chance) { return 10000000 + range(chance, 80000000); }

static uint64_t some_account(struct chance *chance) {
    return 1 + (uint64_t)range(chance, 99999) * 100000 + range(chance, 100000);
}

// Mark of part i of k, from 0: purposes, and where these are too many a beneficiary ahead and a
// sender behind.
static unsigned mark(unsigned i, unsigned k) {
    if (k >= 14 && i == 0)
        return 1;
    return k == 15 && i == 14 ? 3 : 2;
}

static size_t mark_place(unsigned i) {
    return i < 2 ? 187 + 29 * i : 256 + 128 * ((i - 2) / 4) + 29 * ((i - 2) % 4);
}

// The fields of a payment ahead of its texts.
static void put_numbers(uint8_t *c, struct chance *chance, uint64_t cents,
                        struct figures *figures) {
    static const char keys[][6] = {"51000", "51888", "53000", "53888",
                                   "54010", "54888", "54999", "56000"};
    uint64_t bank_code = some_bank_code(chance);
    uint64_t account = some_account(chance);
    put(c + 4, "C");
    put_number(c + 5, 8, range(chance, 100000000));
    put_number(c + 13, 8, bank_code);
    put_number(c + 21, 10, account);
    put_number(c + 31, 13, (uint64_t)range(chance, 100000000) * 10);
    put(c + 44, keys[range(chance, sizeof keys / sizeof keys[0])]);
    put_number(c + 50, 11, 0);
    put_number(c + 61, 8, some_bank_code(chance));
    put_number(c + 69, 10, some_account(chance));
    put_number(c + 79, 11, cents);
    figures->count++;
    figures->bank_codes += bank_code;
    figures->accounts += account;
    figures->cents += cents;
}

static size_t put_payment(uint8_t *c, struct chance *chance, const struct shape *shape,
                          struct figures *figures) {
    unsigned k = range(chance, shape->most_parts + 1);
    uint64_t cents = shape->cents > 0 ? shape->cents : 1 + range(chance, 1000000);
    size_t bytes = k == 0 ? 256 : (mark_place(k - 1) + 29 + 127) / 128 * 128;
    memset(c, ' ', bytes);
    put_number(c, 4, 187 + 29 * k);
    put_numbers(c, chance, cents, figures);
    put_text(c + 93, chance, 1);
    put_text(c + 128, chance, 1);
    put_text(c + 155, chance, 0);
    put(c + 182, "1");
    put_number(c + 185, 2, k);
    for (unsigned i = 0; i < k; i++) {
        put_number(c + mark_place(i), 2, mark(i, k));
        put_text(c + mark_place(i) + 2, chance, 0);
    }
    return bytes;
}

static void put_trailer(uint8_t *e, const struct figures *figures) {
    memset(e, ' ', 128);
    put(e, "0128E");
    put_number(e + 10, 7, figures->count);
    put_number(e + 17, 13, 0);
    put_number(e + 30, 17, figures->accounts);
    put_number(e + 47, 17, figures->bank_codes);
    put_number(e + 64, 13, figures->cents);
}

// Tells the file's length, and adds its payments to those before it.
static size_t put_file(uint8_t *file, size_t bytes, struct chance *chance,
                       const struct shape *shape, size_t *payments) {
    struct figures figures = {0, 0, 0, 0};
    size_t at = 128;
    put_header(file);
    do {
        at += put_payment(file + at, chance, shape, &figures);
    } while (at + 128 < bytes);
    put_trailer(file + at, &figures);
    *payments += figures.count;
    return at + 128;
}

size_t generate_medium(uint8_t *medium, size_t files, size_t bytes, const struct shape *shape,
                       size_t *payments) {
    struct chance chance = {20020101};
    size_t at = 0;
    *payments = 0;
    for (size_t i = 0; i < files; i++)
        at += put_file(medium + at, bytes, &chance, shape, payments);
    return at;
}

size_t generate(uint8_t *file, size_t bytes, const struct shape *shape, size_t *payments) {
    return generate_medium(file, 1, bytes, shape, payments);
}
