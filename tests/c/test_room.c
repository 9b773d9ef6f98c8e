// Tests of columns, outputs and results that are too short, and of those that are just long enough.
#include <stdbool.h>
#include <stddef.h>

#include "answers.h"
#include "calls.h"
#include "dtaus.h"
#include "harness.h"
#include "media.h"
#include "tests.h"

// An input that is accepted, and what the call writes.
struct need {
    enum function function;
    const struct bytes *input;
    size_t entries;              // of each slice, but for those of the table of files
    const struct bytes *output;  // where it has one
    const struct medium *medium; // where it loads one
};

static size_t entries_of(const struct need *need, size_t slice) {
    bool of_files = need->medium != NULL && slice >= PAYMENT_COLUMNS;
    return of_files ? need->medium->count : need->entries;
}

// A call whose slices have just the entries that it writes.
static struct call fitting(const struct need *need) {
    struct call call = roomy(need->function, need->input);
    for (size_t i = 0; i < slices_of(need->function); i++)
        call.lent[i] = entries_of(need, i);
    call.result = figures_of(need->function);
    return call;
}

// What is written is what is written where there is more room: payments, files and the output.
static void expect_all_written(const struct need *need, const struct call *call) {
    struct answer answer = make(call);
    expect_equal(answer.number, DTAUS_ACCEPTED, "the number");
    if (need->function == LOAD) {
        struct payments payments;
        read_payments(&payments, need->input);
        expect_columns(&answer, &payments);
    }
    if (need->medium != NULL)
        expect_loaded(&answer, need->medium);
    if (need->output != NULL)
        expect_output(&answer, need->output);
}

static void test_just_enough(const struct need *need) {
    begin("%s, %zu bytes, just enough room", name_of(need->function), need->input->length);
    struct call call = fitting(need);
    expect_all_written(need, &call);
}

// One slice alone has an entry more than is written.
static void test_longer(const struct need *need) {
    for (size_t i = 0; i < slices_of(need->function); i++) {
        struct call call = fitting(need);
        begin("%s, %zu bytes, slice %zu has one entry more", name_of(need->function),
              need->input->length, i);
        call.lent[i]++;
        expect_all_written(need, &call);
    }
}

// One slice alone is too short, by one entry and by all.
static void test_too_short(const struct need *need) {
    for (size_t i = 0; i < slices_of(need->function); i++) {
        struct call call = fitting(need);
        begin("%s, %zu bytes, slice %zu lacks one entry", name_of(need->function),
              need->input->length, i);
        call.lent[i]--;
        expect_refusal(&call, DTAUS_NO_ROOM, 0);
        begin("%s, %zu bytes, slice %zu lacks all", name_of(need->function), need->input->length,
              i);
        call.lent[i] = 0;
        expect_refusal(&call, DTAUS_NO_ROOM, 0);
    }
}

// Every length of the result below the layout, for an input that is accepted and one that is not.
static void test_short_result(enum function function, const struct bytes *input) {
    static struct bytes cut;
    cut = *input;
    cut.length--;
    for (size_t entries = 0; entries < figures_of(function); entries++) {
        begin("%s, %zu bytes, a result of %zu entries", name_of(function), input->length, entries);
        struct call call = roomy(function, input);
        call.result = entries;
        expect_equal(make(&call).number, DTAUS_NO_ROOM, "the number");
        begin("%s, %zu bytes, a result of %zu entries", name_of(function), cut.length, entries);
        call.input = &cut;
        expect_equal(make(&call).number, DTAUS_NO_ROOM, "the number");
    }
}

void test_room(const struct samples *samples) {
    const struct bytes *m = &samples->m, *listing = &samples->listing;
    const struct medium *two = &samples->two, *three = &samples->three;
    const struct need needs[] = {
        {CHECK, m, 0, NULL, NULL},
        {LOAD, m, 1, NULL, NULL},
        {LOAD, &samples->four, 4, NULL, NULL},
        {LIST, m, listing->length, listing, NULL},
        {COMPOSE, listing, m->length, m, NULL},
        {FIND, m, 0, NULL, NULL},
        {TEXT, m, 0, NULL, NULL},
        {CHECK_MEDIUM, &two->bytes, 0, NULL, NULL},
        {LOAD_MEDIUM, &two->bytes, two->payments.count, NULL, two},
        {LOAD_MEDIUM, &three->bytes, three->payments.count, NULL, three},
    };
    for (size_t i = 0; i < sizeof needs / sizeof needs[0]; i++) {
        test_just_enough(&needs[i]);
        test_longer(&needs[i]);
        test_too_short(&needs[i]);
        test_short_result(needs[i].function, needs[i].input);
    }
}
