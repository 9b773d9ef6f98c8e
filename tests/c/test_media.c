// Tests of accepted media: what both calls give is what the bytes of the files say.
#include "answers.h"
#include "calls.h"
#include "dtaus.h"
#include "harness.h"
#include "media.h"
#include "tests.h"

static void test_medium(const char *name, const struct medium *medium) {
    begin("check_medium, %s", name);
    struct call check = roomy(CHECK_MEDIUM, &medium->bytes);
    struct answer checked = make(&check);
    expect_counts(&checked, medium);
    begin("load_medium, %s", name);
    struct call load = roomy(LOAD_MEDIUM, &medium->bytes);
    struct answer loaded = make(&load);
    expect_counts(&loaded, medium);
    expect_loaded(&loaded, medium);
}

// What the table has of the file is what load tells of it.
void test_as_medium(const char *name, const struct bytes *file) {
    static struct medium medium;
    write_one(&medium, file);
    test_medium(name, &medium);
    begin("load and load_medium, %s", name);
    struct call load = roomy(LOAD, file), load_medium = roomy(LOAD_MEDIUM, file);
    struct answer alone = make(&load), loaded = make(&load_medium);
    expect_equal(loaded.figures[3], alone.figures[2], "the count of payments");
    for (size_t i = 1; i < FILE_COLUMNS; i++)
        expect_equal(loaded.columns[PAYMENT_COLUMNS + i][0], alone.figures[1 + i],
                     "the count or a sum, in load's order");
}

static void expect_row(const struct answer *answer, size_t first, size_t row,
                       const uint64_t *numbers, size_t count) {
    for (size_t i = 0; i < count; i++)
        expect_equal(answer->columns[first + i][row], numbers[i], "a number of a row");
}

// Case M twice, in figures that are worked out by hand.
static void test_worked_figures(const struct samples *samples) {
    static const uint64_t payments[2][PAYMENT_COLUMNS] = {{30050020, 7654321, 12345, 128},
                                                          {30050020, 7654321, 12345, 640}};
    static const uint64_t files[2][FILE_COLUMNS] = {{0, 1, 7654321, 30050020, 12345},
                                                    {512, 1, 7654321, 30050020, 12345}};
    begin("the figures of case M twice");
    struct call load = roomy(LOAD_MEDIUM, &samples->two.bytes);
    struct answer loaded = make(&load);
    expect_equal(loaded.figures[2], 2, "the count of files");
    expect_equal(loaded.figures[3], 2, "the count of payments");
    for (size_t i = 0; i < 2; i++) {
        expect_row(&loaded, 0, i, payments[i], PAYMENT_COLUMNS);
        expect_row(&loaded, PAYMENT_COLUMNS, i, files[i], FILE_COLUMNS);
    }
}

// The kind of each file is that of its own A3.
static void test_kinds(const struct samples *samples) {
    static struct bytes debits;
    static struct medium medium;
    debits = samples->m;
    put(&debits, 5, "LK");
    put(&debits, 172, "05015");
    write_one(&medium, &samples->m);
    add_file(&medium, &debits);
    add_file(&medium, &samples->m);
    test_medium("debits between credits", &medium);
}

// As many files as there is room for, each with one payment.
static void test_many(const struct samples *samples) {
    static struct medium medium;
    write_one(&medium, &samples->m);
    while (medium.count < MOST_FILES)
        add_file(&medium, &samples->m);
    test_medium("case M many times", &medium);
}

// The limit of cents is that of each file: of three files one has the highest sum, and the files
// ahead of it and behind it take that of the medium above it.
void test_media(const struct samples *samples) {
    test_worked_figures(samples);
    test_medium("case M twice", &samples->two);
    test_medium("three files of different sizes", &samples->three);
    test_kinds(samples);
    test_many(samples);
}
