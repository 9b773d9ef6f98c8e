// Whether both sides give the same on inputs that are not right.
#include "damage.h"
#include "agree.h"
#include "generate.h"
#include "lent.h"
#include <stdio.h>
#include <stdlib.h>
#include <string.h>

// A small file, and the copies of it: with one byte changed, cut, with one byte more. A small
// medium is three files, shorter ones.
enum { SMALL_FILE = 3000, CHANGED = 5000, CUT = 400, LENGTHENED = 100, SEED = 19760701 };
enum { FILES = 3, FILE_OF_MEDIUM = 1000 };

// Inputs of one kind: the calls that read them, and where A7 and A11b stand behind the beginning of
// A. Then how many were compared so far, the numbers that were met, and the one that was met last.
struct inputs {
    const char *name;
    enum call first_call;
    enum call last_call;
    size_t a7;
    size_t a11b;
    int count;
    bool met[256];
    uint8_t last;
};

// The numbers that the damage must have led to: all that a file, a listing or a medium can get but
// those of too many payments and of too little room. That of surplus bytes is not of a medium.
enum { SURPLUS = 15 };
static const uint8_t of_files[] = {1, 2, 3, 4, 5, 9, 10, 11, 12, 13, 14, SURPLUS, 21, 22, 23};
static const uint8_t of_listings[] = {2, 3, 4, 9, 10, 11, 12, 13, 17, 18, 21, 22, 23};
static const uint8_t of_media[] = {1, 2, 3, 4, 5, 9, 10, 11, 12, 13, 14, 21, 22, 23};

// A hundred payments of the most cents are just acceptable; with A and E they take so many bytes.
enum { RICH_FILE = 100 * 256 + 256, CENTS_OVER = 9 };

static const struct shape mixed = {"mixed", 15, 0};
static const struct shape rich = {"rich", 2, MOST_CENTS_OF_ONE};

// The days of creation and of execution, A7 and A11b, and the number that they lead to.
struct days {
    const char *creation;
    const char *execution;
    uint8_t number;
};

// On both sides of every line: both ends of the span, the ends of months and years, leap years, the
// year of two digits from which the century is another, days that are none. A byte that is no digit
// comes ahead of all that, A7 ahead of A11b.
static const struct days days[] = {
    {"150304", "15032004", 0},  {"150304", "14032004", 22}, {"150304", "30032004", 0},
    {"150304", "31032004", 23}, {"290204", "15032004", 0},  {"290204", "16032004", 23},
    {"010304", "29022004", 22}, {"280203", "15032003", 0},  {"280203", "16032003", 23},
    {"010303", "29022003", 10}, {"300403", "31042003", 10}, {"311299", "01012000", 0},
    {"010100", "31121999", 22}, {"290200", "29022000", 0},  {"311279", "15012080", 0},
    {"311279", "16012080", 23}, {"010180", "31121979", 22}, {"010180", "01012080", 23},
    {"150304", "29021900", 10}, {"150304", "29022000", 22}, {"150304", "29022100", 10},
    {"150304", "15030000", 10}, {"150304", "01010001", 22}, {"150304", "31129999", 23},
    {"150304", "00000000", 10}, {"150304", "00032004", 10}, {"150304", "32032004", 10},
    {"150304", "15002004", 10}, {"150304", "15132004", 10}, {"150304", "    2004", 3},
    {"150304", "3203200X", 3},  {"290203", "15032004", 10}, {"150004", "15032004", 10},
    {"151304", "3203200X", 10}, {"15030X", "32032004", 3},
};

// A byte such as records and listings have, or any.
static uint8_t some_byte(struct chance *chance) {
    static const char likely[] = "0123456789 ABCEGKL\t\n";
    if (range(chance, 2) == 0)
        return range(chance, 256);
    return likely[range(chance, sizeof likely - 1)];
}

// Half of the places are in the first 256 or the last 128 bytes, where A, the numbers of a payment
// and E are.
static size_t some_place(struct chance *chance, size_t length) {
    switch (range(chance, 4)) {
    case 0:
        return range(chance, 256);
    case 1:
        return length - 1 - range(chance, 128);
    default:
        return range(chance, length);
    }
}

// Damages copy number i, and tells its length: the cut ones get longer from copy to copy, beginning
// with the empty one. There is room for one byte more.
static size_t damage(uint8_t *copy, size_t length, int i, struct chance *chance) {
    if (i < CHANGED) {
        copy[some_place(chance, length)] = some_byte(chance);
        return length;
    }
    if (i < CHANGED + CUT)
        return length * (i - CHANGED) / CUT;
    copy[length] = some_byte(chance);
    return length + 1;
}

// The calls that read it, on one input.
static bool agree_on_input(const uint8_t *input, size_t length, struct inputs *inputs) {
    struct work work = {.file = input,
                        .file_length = length,
                        .listing = input,
                        .listing_length = length,
                        .medium = input,
                        .medium_length = length};
    struct room room = {length / 256, length / 512, 4 * length};
    inputs->count++;
    for (enum call call = inputs->first_call; call <= inputs->last_call; call++) {
        uint8_t number;
        if (!same_answer(call, &work, room, &number))
            return false;
        inputs->met[number] = true;
        inputs->last = number;
    }
    return true;
}

// The same of an input that leads to a number which is known.
static bool agree_on_known(const uint8_t *input, size_t length, struct inputs *inputs,
                           uint8_t number, const char *what) {
    if (!agree_on_input(input, length, inputs))
        return false;
    if (inputs->last != number)
        printf("%s: %s give %u, not %u\n", inputs->name, what, inputs->last, number);
    return inputs->last == number;
}

static bool agree_on_copies(const uint8_t *input, size_t length, struct inputs *inputs) {
    struct chance chance = {SEED};
    uint8_t *copy = allocate(length + 1);
    bool same = true;
    for (int i = 0; same && i < CHANGED + CUT + LENGTHENED; i++) {
        memcpy(copy, input, length);
        same = agree_on_input(copy, damage(copy, length, i, &chance), inputs);
    }
    free(copy);
    return same;
}

// Copies of the input with other days in the A that begins at a place of it, each of which leads to
// its number.
static bool agree_on_days(const uint8_t *input, size_t length, size_t a, struct inputs *inputs) {
    uint8_t *copy = allocate(length);
    bool same = true;
    memcpy(copy, input, length);
    for (size_t i = 0; same && i < sizeof days / sizeof days[0]; i++) {
        char what[32];
        snprintf(what, sizeof what, "%s and %s", days[i].creation, days[i].execution);
        memcpy(copy + a + inputs->a7, days[i].creation, 6);
        memcpy(copy + a + inputs->a11b, days[i].execution, 8);
        same = agree_on_known(copy, length, inputs, days[i].number, what);
    }
    free(copy);
    return same;
}

static bool agree_on_small_file(struct inputs *files, struct inputs *listings) {
    size_t payments, listing_length;
    uint8_t *file = allocate(SMALL_FILE + LONGER);
    size_t length = generate(file, SMALL_FILE, &mixed, &payments);
    uint8_t *listing = listing_of(file, length, &listing_length);
    bool same = agree_on_copies(file, length, files) && agree_on_days(file, length, 0, files) &&
                agree_on_copies(listing, listing_length, listings) &&
                agree_on_days(listing, listing_length, 0, listings);
    free(listing);
    free(file);
    return same;
}

// The medium with any number of its sections at the beginning, and any number at the end: between
// them some are left out, or come a second time, whole files among them.
static bool agree_on_sections(const uint8_t *medium, size_t length, struct inputs *media) {
    enum { SECTION = 128 };
    uint8_t *copy = allocate(2 * length);
    bool same = true;
    for (size_t to = 0; same && to <= length; to += SECTION) {
        memcpy(copy, medium, to);
        for (size_t from = 0; same && from <= length; from += SECTION) {
            memcpy(copy + to, medium + from, length - from);
            same = agree_on_input(copy, to + length - from, media);
        }
    }
    free(copy);
    return same;
}

// The other days are those of the last file.
static bool agree_on_small_medium(struct inputs *media) {
    size_t payments;
    uint8_t *medium = allocate(FILES * (FILE_OF_MEDIUM + LONGER));
    size_t last = generate_medium(medium, FILES - 1, FILE_OF_MEDIUM, &mixed, &payments);
    size_t length = generate_medium(medium, FILES, FILE_OF_MEDIUM, &mixed, &payments);
    bool same = agree_on_copies(medium, length, media) &&
                agree_on_days(medium, length, last, media) &&
                agree_on_sections(medium, length, media);
    free(medium);
    return same;
}

// One payment beyond the most cents: a file that has it, and the listing of the file before with
// its last line once more.
static bool agree_on_cents(struct inputs *files, struct inputs *listings) {
    size_t payments, listing_length;
    uint8_t *file = allocate(RICH_FILE + 256 + LONGER);
    size_t length = generate(file, RICH_FILE + 256, &rich, &payments);
    bool same = agree_on_known(file, length, files, CENTS_OVER, "the most cents and more");
    length = generate(file, RICH_FILE, &rich, &payments);
    uint8_t *listing = listing_of(file, length, &listing_length);
    size_t last = listing_length - 1;
    while (listing[last - 1] != '\n')
        last--;
    memcpy(listing + listing_length, listing + last, listing_length - last);
    same = same && agree_on_known(listing, 2 * listing_length - last, listings, CENTS_OVER,
                                  "the most cents and more");
    free(listing);
    free(file);
    return same;
}

// Files of the most cents, which are a file's own, and then one that has a payment beyond them.
static bool agree_on_cents_of_each(struct inputs *media) {
    size_t payments;
    uint8_t *medium = allocate(FILES * (RICH_FILE + 256 + LONGER));
    size_t length = generate_medium(medium, FILES - 1, RICH_FILE, &rich, &payments);
    bool same = agree_on_known(medium, length, media, 0, "files of the most cents");
    length += generate(medium + length, RICH_FILE + 256, &rich, &payments);
    same = same && agree_on_known(medium, length, media, CENTS_OVER, "the most cents and more");
    free(medium);
    return same;
}

static void print_tally(const struct inputs *inputs) {
    printf("%d damaged %s, same answers; numbers met:", inputs->count, inputs->name);
    for (int number = 0; number < 256; number++)
        if (inputs->met[number])
            printf(" %d", number);
    printf("\n");
}

static bool has_met(const struct inputs *inputs, const uint8_t *numbers, size_t count) {
    bool all = true;
    for (size_t i = 0; i < count; i++)
        if (!inputs->met[numbers[i]]) {
            printf("number %u is not met\n", numbers[i]);
            all = false;
        }
    return all;
}

static bool has_not_met(const struct inputs *inputs, uint8_t number) {
    if (inputs->met[number])
        printf("number %u is met by %s\n", number, inputs->name);
    return !inputs->met[number];
}

// The listing's A6 has eleven signs.
bool agree_on_damage(void) {
    struct inputs files = {"files", CHECK, LIST, 50, 95, 0, {false}, 0};
    struct inputs listings = {"listings", COMPOSE, COMPOSE, 35, 64, 0, {false}, 0};
    struct inputs media = {"media", CHECK_MEDIUM, LOAD_MEDIUM, 50, 95, 0, {false}, 0};
    if (!agree_on_small_file(&files, &listings) || !agree_on_cents(&files, &listings) ||
        !agree_on_small_medium(&media) || !agree_on_cents_of_each(&media))
        return false;
    print_tally(&files);
    bool all_of_files = has_met(&files, of_files, sizeof of_files);
    print_tally(&listings);
    bool all_of_listings = has_met(&listings, of_listings, sizeof of_listings);
    print_tally(&media);
    bool all_of_media = has_met(&media, of_media, sizeof of_media) && has_not_met(&media, SURPLUS);
    return all_of_files && all_of_listings && all_of_media;
}
