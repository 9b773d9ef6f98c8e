// Whether both sides give the same: the number that is returned, the figures, and all bytes of what
// was lent.
#include "agree.h"
#include "lent.h"
#include <stdio.h>
#include <stdlib.h>
#include <string.h>

// What a call gave back.
struct answer {
    uint8_t number;
    uint64_t result[FIGURES];
    struct work lent;
};

enum { DONE = 0, NO_ROOM = 16 };

static struct answer answer_of(const struct side *side, enum call call, const struct work *work,
                               struct room room) {
    struct answer answer = {.result = {0}, .lent = *work};
    lend(&answer.lent, room);
    answer.number = make_call(side, call, &answer.lent, answer.result);
    return answer;
}

static bool same_lent(const struct work *one, const struct work *other) {
    for (int i = 0; i < COLUMNS; i++)
        if (memcmp(one->columns[i], other->columns[i], rows_of(one->room, i) * sizeof(uint64_t)) !=
            0)
            return false;
    return memcmp(one->output, other->output, one->room.output) == 0;
}

static void print_answer(const char *side, const struct answer *answer) {
    printf("%s: returns %u; result", side, answer->number);
    for (int i = 0; i < FIGURES; i++)
        printf(" %llu", (unsigned long long)answer->result[i]);
    printf("\n");
}

bool same_answer(enum call call, const struct work *work, struct room room, uint8_t *number) {
    struct answer one = answer_of(&ours, call, work, room);
    struct answer other = answer_of(&plain, call, work, room);
    bool same_told =
        one.number == other.number && memcmp(one.result, other.result, sizeof one.result) == 0;
    bool same_written = same_lent(&one.lent, &other.lent);
    if (!same_told || !same_written) {
        printf("%s differs%s\n", call_name(call), same_written ? "" : " in what it wrote");
        print_answer("ours", &one);
        print_answer("C", &other);
    }
    *number = one.number;
    take_back(&one.lent);
    take_back(&other.lent);
    return same_told && same_written;
}

// The call with so much room gives this number.
static bool agree_on_number(enum call call, const struct work *work, struct room room,
                            uint8_t wanted) {
    uint8_t number;
    if (!same_answer(call, work, room, &number))
        return false;
    if (number != wanted)
        printf("%s gives %u, not %u\n", call_name(call), number, wanted);
    return number == wanted;
}

uint8_t *listing_of(const uint8_t *file, size_t length, size_t *listing_length) {
    uint8_t *listing = allocate(length);
    uint64_t result[FIGURES] = {0};
    struct work work = {
        .file = file, .file_length = length, .output = listing, .room = {.output = length}};
    make_call(&ours, LIST, &work, result);
    *listing_length = result[2];
    return listing;
}

bool agree_on_file(const uint8_t *file, size_t length, size_t payments) {
    struct work work = {.file = file, .file_length = length};
    uint8_t *listing = listing_of(file, length, &work.listing_length);
    work.listing = listing;
    size_t listed = work.listing_length;
    bool same = agree_on_number(CHECK, &work, (struct room){0, 0, 0}, DONE) &&
                agree_on_number(LOAD, &work, (struct room){payments + 1, 0, 0}, DONE) &&
                agree_on_number(LOAD, &work, (struct room){payments - 1, 0, 0}, NO_ROOM) &&
                agree_on_number(LIST, &work, (struct room){0, 0, length}, DONE) &&
                agree_on_number(LIST, &work, (struct room){0, 0, listed}, DONE) &&
                agree_on_number(LIST, &work, (struct room){0, 0, listed - 1}, NO_ROOM) &&
                agree_on_number(COMPOSE, &work, (struct room){0, 0, length + 1}, DONE) &&
                agree_on_number(COMPOSE, &work, (struct room){0, 0, length - 1}, NO_ROOM);
    free(listing);
    return same;
}

bool agree_on_medium(const uint8_t *medium, size_t length, size_t files, size_t payments) {
    struct work work = {.medium = medium, .medium_length = length};
    return agree_on_number(CHECK_MEDIUM, &work, (struct room){0, 0, 0}, DONE) &&
           agree_on_number(LOAD_MEDIUM, &work, (struct room){payments + 1, files + 1, 0}, DONE) &&
           agree_on_number(LOAD_MEDIUM, &work, (struct room){payments - 1, files, 0}, NO_ROOM) &&
           agree_on_number(LOAD_MEDIUM, &work, (struct room){payments, files - 1, 0}, NO_ROOM);
}
