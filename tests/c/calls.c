// The making of calls.
#include "calls.h"

#include <stdbool.h>
#include <string.h>

#include "dtaus.h"
#include "harness.h"
#include "payments.h"

const enum function file_readers[FILE_READERS] = {CHECK, LOAD, LIST, FIND, TEXT};

const enum function medium_readers[MEDIUM_READERS] = {CHECK_MEDIUM, LOAD_MEDIUM};

static const struct {
    const char *name;
    size_t figures;    // of the result
    size_t slices;     // lent for writing
    size_t entry_size; // of these
} functions[] = {
    [CHECK] = {"check", DTAUS_CHECK_FIGURES, 0, 0},
    [LOAD] = {"load", DTAUS_LOAD_FIGURES, PAYMENT_COLUMNS, sizeof(uint64_t)},
    [LIST] = {"list", DTAUS_LIST_FIGURES, 1, sizeof(uint8_t)},
    [COMPOSE] = {"compose", DTAUS_COMPOSE_FIGURES, 1, sizeof(uint8_t)},
    [FIND] = {"find", DTAUS_FIND_FIGURES, 0, 0},
    [TEXT] = {"text", DTAUS_TEXT_FIGURES, 0, 0},
    [CHECK_MEDIUM] = {"check_medium", DTAUS_CHECK_MEDIUM_FIGURES, 0, 0},
    [LOAD_MEDIUM] = {"load_medium", DTAUS_LOAD_MEDIUM_FIGURES, MOST_LENT, sizeof(uint64_t)},
};

_Static_assert(DTAUS_CHECK_FIGURES <= MOST_FIGURES && DTAUS_LOAD_FIGURES <= MOST_FIGURES,
               "an answer has room for every layout");

static enum edge edge;
static struct slice input, result, written[MOST_LENT];

const char *name_of(enum function function) { return functions[function].name; }

size_t figures_of(enum function function) { return functions[function].figures; }

size_t slices_of(enum function function) { return functions[function].slices; }

void lend_at(enum edge side) {
    edge = side;
    if (input.room != NULL)
        return;
    input = make_room();
    result = make_room();
    for (size_t i = 0; i < MOST_LENT; i++)
        written[i] = make_room();
}

struct call roomy(enum function function, const struct bytes *given) {
    struct call call = {.function = function, .input = given, .start = M_PAYMENT};
    bool columns = functions[function].entry_size == sizeof(uint64_t);
    for (size_t i = 0; i < slices_of(function); i++)
        call.lent[i] = columns ? MOST_PAYMENTS + i : MOST_BYTES;
    call.result = figures_of(function) + 1;
    return call;
}

struct call cramped(enum function function, const struct bytes *given) {
    return (struct call){.function = function,
                         .input = given,
                         .payment = SIZE_MAX,
                         .start = SIZE_MAX,
                         .wanted = SIZE_MAX,
                         .result = figures_of(function)};
}

static void lend_all(const struct call *call) {
    lend_copy(&input, call->input->at, call->input->length, edge);
    lend(&result, call->result * sizeof(uint64_t), edge);
    for (size_t i = 0; i < slices_of(call->function); i++)
        lend(&written[i], call->lent[i] * functions[call->function].entry_size, edge);
}

static uint64_t *numbers(const struct slice *slice) { return (uint64_t *)(void *)slice->at; }

static uint8_t called_load_medium(const size_t *lent, size_t figures) {
    return dtaus_load_medium(
        input.at, input.bytes, numbers(&written[0]), lent[0], numbers(&written[1]), lent[1],
        numbers(&written[2]), lent[2], numbers(&written[3]), lent[3], numbers(&written[4]), lent[4],
        numbers(&written[5]), lent[5], numbers(&written[6]), lent[6], numbers(&written[7]), lent[7],
        numbers(&written[8]), lent[8], numbers(&result), figures);
}

static uint8_t called(const struct call *call) {
    const uint8_t *bytes = input.at;
    size_t length = input.bytes;
    const size_t *lent = call->lent;
    uint64_t *figures = numbers(&result);
    switch (call->function) {
    case CHECK:
        return dtaus_check(bytes, length, figures, call->result);
    case LOAD:
        return dtaus_load(bytes, length, numbers(&written[0]), lent[0], numbers(&written[1]),
                          lent[1], numbers(&written[2]), lent[2], numbers(&written[3]), lent[3],
                          figures, call->result);
    case LIST:
        return dtaus_list(bytes, length, written[0].at, lent[0], figures, call->result);
    case COMPOSE:
        return dtaus_compose(bytes, length, written[0].at, lent[0], figures, call->result);
    case FIND:
        return dtaus_find(bytes, length, call->payment, figures, call->result);
    case TEXT:
        return dtaus_text(bytes, length, call->start, call->wanted, figures, call->result);
    case CHECK_MEDIUM:
        return dtaus_check_medium(bytes, length, figures, call->result);
    default:
        return called_load_medium(lent, call->result);
    }
}

// The input is as it was, and so is what lies around it.
static void expect_input_kept(const struct call *call) {
    expect(memcmp(input.at, call->input->at, input.bytes) == 0 &&
               untouched_but_for(&input, input.bytes),
           "the input is unchanged");
}

// How many entries of a slice the call tells to have written. Load, list and compose tell it by one
// figure, that of payments or bytes; of a medium files come ahead of payments.
static uint64_t entries_told(const struct call *call, const struct answer *answer, size_t slice) {
    if (answer->number != DTAUS_ACCEPTED)
        return 0;
    bool behind_files = call->function == LOAD_MEDIUM && slice < PAYMENT_COLUMNS;
    return answer->figures[behind_files ? 3 : 2];
}

// The slices lent for writing are as they were, but for their first entries.
static void expect_written(const struct call *call, const struct answer *answer) {
    for (size_t i = 0; i < slices_of(call->function); i++) {
        uint64_t entries = entries_told(call, answer, i);
        expect(entries <= call->lent[i] &&
                   untouched_but_for(&written[i], entries * functions[call->function].entry_size),
               "nothing is written but the first entries, and none where it is refused");
    }
}

static void expect_result(const struct call *call, const struct answer *answer) {
    expect(untouched_but_for(&result, figures_of(call->function) * sizeof(uint64_t)),
           "the result is unchanged behind its layout");
    expect_equal(answer->figures[0], answer->number, "the result's number is the one returned");
    if (answer->number == DTAUS_ACCEPTED) {
        expect_equal(answer->figures[1], 0, "the place is 0 where nothing is refused");
        return;
    }
    for (size_t i = 2; i < figures_of(call->function); i++)
        expect_equal(answer->figures[i], 0, "a refusal's other figures are 0");
}

// No figure is told where the result is too short.
static void expect_no_result(const struct answer *answer) {
    expect_equal(answer->number, DTAUS_NO_ROOM, "the number where the result is too short");
    expect(untouched_but_for(&result, 0), "a result that is too short is unchanged");
}

struct answer make(const struct call *call) {
    lend_all(call);
    struct answer answer = {.number = called(call), .output = written[0].at};
    for (size_t i = 0; i < MOST_LENT; i++)
        answer.columns[i] = numbers(&written[i]);
    expect_input_kept(call);
    if (call->result < figures_of(call->function)) {
        expect_no_result(&answer);
        expect_written(call, &answer);
        return answer;
    }
    memcpy(answer.figures, result.at, figures_of(call->function) * sizeof(uint64_t));
    expect_result(call, &answer);
    expect_written(call, &answer);
    return answer;
}

void expect_refusal(const struct call *call, uint8_t number, uint64_t place) {
    struct answer answer = make(call);
    expect_equal(answer.number, number, "the number of the refusal");
    expect_equal(answer.figures[1], place, "the place of the refusal");
}

void test_refused(enum function function, const struct bytes *given, uint8_t number, uint64_t place,
                  const char *what) {
    begin("%s, %zu bytes, %s", name_of(function), given->length, what);
    struct call call = roomy(function, given);
    expect_refusal(&call, number, place);
    begin("%s without room, %zu bytes, %s", name_of(function), given->length, what);
    call = cramped(function, given);
    expect_refusal(&call, number, place);
}
