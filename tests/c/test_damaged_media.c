// Tests of refused media: files end to end with bytes changed, cut or added. What follows an E is
// the next A1, so that no medium is refused with 15.
#include "answers.h"
#include "calls.h"
#include "dtaus.h"
#include "harness.h"
#include "media.h"
#include "payments.h"
#include "tests.h"

// Where C12 stands in case M, and E8.
enum { M_C12 = 207, M_E8 = 448 };

static void test_medium_refused(const struct bytes *medium, uint8_t number, uint64_t place,
                                const char *what) {
    for (size_t i = 0; i < MEDIUM_READERS; i++)
        test_refused(medium_readers[i], medium, number, place, what);
}

// Bytes behind case M that begin no file.
static void test_behind(const struct samples *samples) {
    const struct bytes *m = &samples->m;
    const struct {
        const void *bytes;
        size_t length;
        uint8_t number;
        uint64_t place;
        const char *what;
    } ends[] = {
        {"012", 3, DTAUS_SHORT, 512, "three bytes of A1 behind E"},
        {"\n", 1, DTAUS_SHORT, 512, "a line end behind E"},
        {"XXX", 3, DTAUS_SHORT, 512, "three other bytes behind E"},
        {"XXXX", 4, DTAUS_NOT_FIXED, 512, "four other bytes behind E"},
        {"0128", 4, DTAUS_SHORT, 516, "A1 alone behind E"},
        {"0128E", 5, DTAUS_NOT_FIXED, 516, "a second E begins behind E"},
        {m->at + M_PAYMENT, M_ENDING - M_PAYMENT, DTAUS_NOT_FIXED, 512, "a payment behind E"},
        {m->at + M_ENDING, 128, DTAUS_NOT_FIXED, 516, "a second E behind E"},
        {m->at, 128, DTAUS_SHORT, 640, "A alone behind E"},
        {m->at, 300, DTAUS_SHORT, 795, "300 bytes of a second file"},
    };
    static struct bytes medium;
    for (size_t i = 0; i < sizeof ends / sizeof ends[0]; i++) {
        medium = *m;
        append(&medium, ends[i].bytes, ends[i].length);
        test_medium_refused(&medium, ends[i].number, ends[i].place, ends[i].what);
    }
}

// Expects that the medium is case M alone.
static void test_cut_between(const struct samples *samples, const struct bytes *medium) {
    static struct medium one;
    write_one(&one, &samples->m);
    for (size_t i = 0; i < MEDIUM_READERS; i++) {
        begin("%s, cut between two files", name_of(medium_readers[i]));
        struct call call = roomy(medium_readers[i], medium);
        struct answer answer = make(&call);
        expect_counts(&answer, &one);
        if (medium_readers[i] == LOAD_MEDIUM)
            expect_loaded(&answer, &one);
    }
}

// Case M twice, of every length down to the end of the first file, where it is accepted. Cut
// further, it is a part of case M, and tested with the files.
static void test_cut(const struct samples *samples) {
    size_t first = samples->m.length;
    static struct bytes medium;
    medium = samples->two.bytes;
    while (--medium.length > first)
        test_medium_refused(&medium, DTAUS_SHORT, first + field_with(medium.length - first),
                            "two files, cut");
    test_cut_between(samples, &medium);
}

// Expects of a medium of two files what one of them gets alone, its place moved so far; the other
// is accepted.
static void expect_as_alone(const struct bytes *medium, const struct answer *alone, size_t moved) {
    bool accepted = alone->number == DTAUS_ACCEPTED;
    for (size_t i = 0; i < MEDIUM_READERS; i++) {
        struct call call = roomy(medium_readers[i], medium);
        struct answer answer = make(&call);
        expect_equal(answer.number, alone->number, "the number");
        expect_equal(answer.figures[1], accepted ? 0 : alone->figures[1] + moved, "the place");
        expect_equal(answer.figures[2], accepted ? 2 : 0, "the count of files");
    }
}

// Every byte of the first and of the second file is changed, so that a digit is another digit or
// none, and a letter another letter.
static void test_every_byte(const struct samples *samples, uint8_t pattern) {
    const struct bytes *m = &samples->m;
    static struct bytes damaged, medium;
    for (size_t byte = 0; byte < m->length; byte++) {
        begin("two files, byte %zu changed by %02X", byte, pattern);
        damaged = *m;
        damaged.at[byte] ^= pattern;
        struct call check = roomy(CHECK, &damaged);
        struct answer alone = make(&check);
        medium = damaged;
        append(&medium, m->at, m->length);
        expect_as_alone(&medium, &alone, 0);
        medium = *m;
        append(&medium, damaged.at, damaged.length);
        expect_as_alone(&medium, &alone, m->length);
    }
}

// The second file's refusal comes before 16, whichever of the nine columns is too short.
static void test_ahead_of_room(const struct samples *samples) {
    static struct bytes medium;
    medium = samples->two.bytes;
    size_t place = samples->m.length + M_C12;
    put(&medium, place, "0000001234X");
    test_medium_refused(&medium, DTAUS_NO_DIGIT, place, "a letter in the second file's amount");
    for (size_t i = 0; i < MOST_LENT; i++) {
        begin("load_medium, column %zu too short for two files, the second damaged", i);
        struct call call = roomy(LOAD_MEDIUM, &medium);
        call.lent[i] = 1;
        expect_refusal(&call, DTAUS_NO_DIGIT, place);
    }
}

// Of two damaged files the first is named; of three the last, though the others are accepted.
static void test_order(const struct samples *samples) {
    static struct bytes medium;
    medium = samples->two.bytes;
    put(&medium, M_C12, "00000000000");
    put(&medium, samples->m.length, "0129");
    test_medium_refused(&medium, DTAUS_CONDITION, M_C12, "both files damaged");
    medium = samples->three.bytes;
    size_t place = samples->three.file[2].start + M_E8;
    put(&medium, place, "0000000012346");
    test_medium_refused(&medium, DTAUS_NOT_COUNTED, place, "E8 of the last of three files");
}

// What holds for a file holds for each of a medium: its kind, and its limit of cents.
static void test_rules_of_each(const struct samples *samples) {
    const struct bytes *m = &samples->m;
    static struct bytes medium;
    medium = samples->two.bytes;
    put(&medium, m->length + 5, "LK");
    test_medium_refused(&medium, DTAUS_NO_KEY, m->length + 172, "a key of credits among debits");
    medium = samples->three.bytes;
    medium.length = samples->three.file[2].start - 128;
    size_t ending = medium.length;
    append(&medium, m->at + M_PAYMENT, m->length - M_PAYMENT);
    test_medium_refused(&medium, DTAUS_CENTS_OVER, ending, "a payment behind the highest sum");
}

void test_damaged_media(const struct samples *samples) {
    test_behind(samples);
    test_cut(samples);
    test_every_byte(samples, 0x01);
    test_every_byte(samples, 0x10);
    test_ahead_of_room(samples);
    test_order(samples);
    test_rules_of_each(samples);
}
