// Tests of slices without entries, whose pointers may be null or lead nowhere.
#include "calls.h"
#include "dtaus.h"
#include "harness.h"
#include "payments.h"
#include "tests.h"

// A pointer that leads nowhere; it is aligned as C demands of a pointer to numbers.
static uint8_t *const nowhere = (uint8_t *)8;

static uint64_t result[DTAUS_CHECK_FIGURES];

static void expect_answer(uint8_t is, uint8_t number) {
    expect_equal(is, number, "the number");
    expect_equal(result[0], number, "the result's number");
    expect_equal(result[1], 0, "the place");
}

// Columns of one entry, as many as are lent for a medium.
static uint64_t columns[MOST_LENT][1];

struct lent {
    uint64_t *at;
    size_t entries;
};

// The columns of one entry, but for one of them: it is empty.
static void lend_all_but(struct lent *lent, size_t which, uint64_t *empty) {
    for (size_t i = 0; i < MOST_LENT; i++)
        lent[i] = i == which ? (struct lent){empty, 0} : (struct lent){columns[i], 1};
}

static uint8_t load_medium(const uint8_t *medium, size_t length, const struct lent *lent,
                           uint64_t *figures, size_t figures_length) {
    return dtaus_load_medium(medium, length, lent[0].at, lent[0].entries, lent[1].at,
                             lent[1].entries, lent[2].at, lent[2].entries, lent[3].at,
                             lent[3].entries, lent[4].at, lent[4].entries, lent[5].at,
                             lent[5].entries, lent[6].at, lent[6].entries, lent[7].at,
                             lent[7].entries, lent[8].at, lent[8].entries, figures, figures_length);
}

static void test_empty_medium(const uint8_t *medium) {
    const char *name = medium == NULL ? "null" : "nowhere";
    struct lent lent[MOST_LENT];
    lend_all_but(lent, MOST_LENT, NULL);
    begin("check_medium, an empty medium at %s", name);
    expect_answer(dtaus_check_medium(medium, 0, result, DTAUS_CHECK_MEDIUM_FIGURES), DTAUS_SHORT);
    begin("load_medium, an empty medium at %s", name);
    expect_answer(load_medium(medium, 0, lent, result, DTAUS_LOAD_MEDIUM_FIGURES), DTAUS_SHORT);
}

static void test_empty_file(const uint8_t *file) {
    const char *name = file == NULL ? "null" : "nowhere";
    static uint8_t output[1];
    begin("check, an empty file at %s", name);
    expect_answer(dtaus_check(file, 0, result, DTAUS_CHECK_FIGURES), DTAUS_SHORT);
    begin("load, an empty file at %s", name);
    expect_answer(dtaus_load(file, 0, columns[0], 1, columns[1], 1, columns[2], 1, columns[3], 1,
                             result, DTAUS_LOAD_FIGURES),
                  DTAUS_SHORT);
    begin("list, an empty file at %s", name);
    expect_answer(dtaus_list(file, 0, output, 1, result, DTAUS_LIST_FIGURES), DTAUS_SHORT);
    begin("compose, an empty listing at %s", name);
    expect_answer(dtaus_compose(file, 0, output, 1, result, DTAUS_COMPOSE_FIGURES),
                  DTAUS_ENDS_EARLY);
    begin("find, an empty file at %s", name);
    expect_answer(dtaus_find(file, 0, 0, result, DTAUS_FIND_FIGURES), DTAUS_SHORT);
    begin("text, an empty file at %s", name);
    expect_answer(dtaus_text(file, 0, 0, DTAUS_C14A, result, DTAUS_TEXT_FIGURES), DTAUS_SHORT);
}

static void test_empty_room(const struct samples *samples, uint8_t *room) {
    const char *name = room == NULL ? "null" : "nowhere";
    const struct bytes *m = &samples->m, *listing = &samples->listing;
    uint64_t *column = (uint64_t *)(void *)room;
    begin("load, empty columns at %s", name);
    expect_answer(dtaus_load(m->at, m->length, column, 0, column, 0, column, 0, column, 0, result,
                             DTAUS_LOAD_FIGURES),
                  DTAUS_NO_ROOM);
    begin("list, an empty output at %s", name);
    expect_answer(dtaus_list(m->at, m->length, room, 0, result, DTAUS_LIST_FIGURES), DTAUS_NO_ROOM);
    begin("compose, an empty output at %s", name);
    expect_answer(
        dtaus_compose(listing->at, listing->length, room, 0, result, DTAUS_COMPOSE_FIGURES),
        DTAUS_NO_ROOM);
}

// One of a medium's columns alone, and all of them.
static void test_empty_columns(const struct samples *samples, uint64_t *empty) {
    const char *name = empty == NULL ? "null" : "nowhere";
    const struct bytes *m = &samples->m;
    struct lent lent[MOST_LENT];
    for (size_t i = 0; i < MOST_LENT; i++) {
        begin("load_medium, an empty column %zu at %s", i, name);
        lend_all_but(lent, i, empty);
        expect_answer(load_medium(m->at, m->length, lent, result, DTAUS_LOAD_MEDIUM_FIGURES),
                      DTAUS_NO_ROOM);
    }
    begin("load_medium, empty columns at %s", name);
    for (size_t i = 0; i < MOST_LENT; i++)
        lent[i] = (struct lent){empty, 0};
    expect_answer(load_medium(m->at, m->length, lent, result, DTAUS_LOAD_MEDIUM_FIGURES),
                  DTAUS_NO_ROOM);
}

static void test_empty_result(const struct samples *samples, uint64_t *none) {
    const struct bytes *m = &samples->m;
    begin("an empty result at %s", none == NULL ? "null" : "nowhere");
    static uint8_t output[512];
    struct lent lent[MOST_LENT];
    lend_all_but(lent, MOST_LENT, NULL);
    expect_equal(dtaus_check_medium(m->at, m->length, none, 0), DTAUS_NO_ROOM, "check_medium");
    expect_equal(load_medium(m->at, m->length, lent, none, 0), DTAUS_NO_ROOM, "load_medium");
    expect_equal(dtaus_check(m->at, m->length, none, 0), DTAUS_NO_ROOM, "check");
    expect_equal(dtaus_load(m->at, m->length, columns[0], 1, columns[1], 1, columns[2], 1,
                            columns[3], 1, none, 0),
                 DTAUS_NO_ROOM, "load");
    expect_equal(dtaus_list(m->at, m->length, output, sizeof output, none, 0), DTAUS_NO_ROOM,
                 "list");
    expect_equal(
        dtaus_compose(samples->listing.at, samples->listing.length, output, sizeof output, none, 0),
        DTAUS_NO_ROOM, "compose");
    expect_equal(dtaus_find(m->at, m->length, 0, none, 0), DTAUS_NO_ROOM, "find");
    expect_equal(dtaus_text(m->at, m->length, M_PAYMENT, DTAUS_C14A, none, 0), DTAUS_NO_ROOM,
                 "text");
}

// All slices of a call at once.
static void test_nothing(void) {
    static const struct lent nothing[MOST_LENT];
    begin("nothing is lent at all");
    expect_equal(dtaus_check_medium(NULL, 0, NULL, 0), DTAUS_NO_ROOM, "check_medium");
    expect_equal(load_medium(NULL, 0, nothing, NULL, 0), DTAUS_NO_ROOM, "load_medium");
    expect_equal(dtaus_check(NULL, 0, NULL, 0), DTAUS_NO_ROOM, "check");
    expect_equal(dtaus_load(NULL, 0, NULL, 0, NULL, 0, NULL, 0, NULL, 0, NULL, 0), DTAUS_NO_ROOM,
                 "load");
    expect_equal(dtaus_list(NULL, 0, NULL, 0, NULL, 0), DTAUS_NO_ROOM, "list");
    expect_equal(dtaus_compose(NULL, 0, NULL, 0, NULL, 0), DTAUS_NO_ROOM, "compose");
    expect_equal(dtaus_find(NULL, 0, 0, NULL, 0), DTAUS_NO_ROOM, "find");
    expect_equal(dtaus_text(NULL, 0, 0, DTAUS_C14A, NULL, 0), DTAUS_NO_ROOM, "text");
}

void test_empty_slices(const struct samples *samples) {
    uint64_t *no_numbers = (uint64_t *)(void *)nowhere;
    test_empty_file(NULL);
    test_empty_file(nowhere);
    test_empty_medium(NULL);
    test_empty_medium(nowhere);
    test_empty_room(samples, NULL);
    test_empty_room(samples, nowhere);
    test_empty_columns(samples, NULL);
    test_empty_columns(samples, no_numbers);
    test_empty_result(samples, NULL);
    test_empty_result(samples, no_numbers);
    test_nothing();
}
