// Tests of accepted files: what each call gives is what the file's bytes say.
#include <string.h>

#include "answers.h"
#include "calls.h"
#include "dtaus.h"
#include "harness.h"
#include "payments.h"
#include "tests.h"

// Where A3, A7 and A11b stand in A, and C7a, which C7b follows, C14a, C15 and C16 in a payment.
enum { A3 = 5, A7 = 50, A11B = 95, C7A = 44, C14A = 93, C15 = 128, C16 = 155 };

static void expect_totals(const struct answer *answer, const struct payments *payments) {
    struct totals totals = totals_of(payments);
    expect_equal(answer->number, DTAUS_ACCEPTED, "the number");
    expect_equal(answer->figures[2], payments->count, "the count of payments");
    expect_equal(answer->figures[3], totals.accounts, "the sum of account numbers");
    expect_equal(answer->figures[4], totals.bank_codes, "the sum of bank codes");
    expect_equal(answer->figures[5], totals.cents, "the sum of cents");
}

static void test_check_and_load(const char *name, const struct bytes *file) {
    struct payments payments;
    read_payments(&payments, file);
    begin("check, %s", name);
    struct call check = roomy(CHECK, file);
    struct answer checked = make(&check);
    expect_totals(&checked, &payments);
    begin("load, %s", name);
    struct call load = roomy(LOAD, file);
    struct answer loaded = make(&load);
    expect_totals(&loaded, &payments);
    expect_columns(&loaded, &payments);
}

// Expects that find gives the start of each payment, and the end of the file.
static void test_find(const char *name, const struct bytes *file) {
    struct payments payments;
    read_payments(&payments, file);
    for (size_t i = 0; i < payments.count; i++) {
        begin("find, %s, payment %zu", name, i);
        struct call call = roomy(FIND, file);
        call.payment = i;
        struct answer found = make(&call);
        expect_equal(found.number, DTAUS_ACCEPTED, "the number");
        expect_equal(found.figures[2], payments.row[i].start, "where the payment begins");
        expect_equal(found.figures[3], file->length, "where the file ends");
    }
}

static void expect_text(const struct bytes *file, uint64_t start, size_t wanted, size_t place) {
    struct call call = roomy(TEXT, file);
    call.start = start;
    call.wanted = wanted;
    struct answer found = make(&call);
    expect_equal(found.number, DTAUS_ACCEPTED, "the number");
    expect_equal(found.figures[2], start + place, "where the text begins");
    expect_equal(found.figures[3], start + place + TEXT_WIDTH, "where the text ends");
}

static void test_texts(const char *name, const struct bytes *file) {
    struct payments payments;
    read_payments(&payments, file);
    for (size_t i = 0; i < payments.count; i++) {
        uint64_t start = payments.row[i].start;
        begin("texts, %s, payment %zu", name, i);
        expect_text(file, start, DTAUS_C14A, C14A);
        expect_text(file, start, DTAUS_C15, C15);
        expect_text(file, start, DTAUS_C16, C16);
        for (size_t part = 1; part <= payments.row[i].parts; part++)
            expect_text(file, start, DTAUS_PART(part), part_text(part));
    }
}

// Lists the file, also into no more room than the listing takes, and composes it from the listing.
static void test_there_and_back(const char *name, const struct bytes *file) {
    begin("list and compose, %s", name);
    struct call list = roomy(LIST, file);
    struct answer listed = make(&list);
    expect_equal(listed.number, DTAUS_ACCEPTED, "the number of listing");
    bool fits = listed.figures[2] <= file->length;
    expect(fits, "a listing is never longer than its file");
    if (!fits)
        return;
    static struct bytes listing;
    listing.length = 0;
    append(&listing, listed.output, listed.figures[2]);
    list.lent[0] = listing.length;
    struct answer fitted = make(&list);
    expect_output(&fitted, &listing);
    struct call compose = roomy(COMPOSE, &listing);
    struct answer composed = make(&compose);
    expect_output(&composed, file);
}

// The figures that the requirements print of case M.
static void test_printed_figures(const struct samples *samples) {
    begin("the figures of case M");
    struct call load = roomy(LOAD, &samples->m);
    struct answer loaded = make(&load);
    expect_equal(loaded.figures[2], 1, "the count of payments");
    expect_equal(loaded.figures[3], 7654321, "the sum of account numbers");
    expect_equal(loaded.figures[4], 30050020, "the sum of bank codes");
    expect_equal(loaded.figures[5], 12345, "the sum of cents");
    expect_equal(loaded.columns[0][0], 30050020, "the bank code");
    expect_equal(loaded.columns[1][0], 7654321, "the account");
    expect_equal(loaded.columns[2][0], 12345, "the cents");
    expect_equal(loaded.columns[3][0], 128, "the start");
}

static void test_printed_texts(const struct samples *samples) {
    static const struct {
        size_t wanted;
        const char *words;
    } texts[] = {{DTAUS_C14A, "MEIER KG                   "},
                 {DTAUS_C15, "MUSTER GMBH                "},
                 {DTAUS_C16, "RECHNUNG 17                "},
                 {DTAUS_PART(1), "KUNDE 4                    "}};
    for (size_t i = 0; i < sizeof texts / sizeof texts[0]; i++) {
        begin("the text %zu of case M", texts[i].wanted);
        struct call call = roomy(TEXT, &samples->m);
        call.wanted = texts[i].wanted;
        struct answer found = make(&call);
        expect_equal(found.figures[3] - found.figures[2], TEXT_WIDTH, "its width");
        expect(found.figures[2] <= MOST_BYTES - TEXT_WIDTH &&
                   memcmp(samples->m.at + found.figures[2], texts[i].words, TEXT_WIDTH) == 0,
               "its words");
    }
}

static void test_printed_listing(const struct samples *samples) {
    begin("list gives the listing of case M");
    struct call list = roomy(LIST, &samples->m);
    struct answer listed = make(&list);
    expect_output(&listed, &samples->listing);
    begin("compose gives the file of case M");
    struct call compose = roomy(COMPOSE, &samples->listing);
    struct answer composed = make(&compose);
    expect_output(&composed, &samples->m);
}

static void test_file(const char *name, const struct bytes *file) {
    test_check_and_load(name, file);
    test_as_medium(name, file);
    test_find(name, file);
    test_texts(name, file);
    test_there_and_back(name, file);
}

// Case M with days of creation and of execution that go together.
static void test_days(const struct samples *samples) {
    static const struct {
        const char *name;
        const char *creation;
        const char *execution;
    } pairs[] = {{"executed on the day of creation", "150304", "15032004"},
                 {"executed 15 days later", "150304", "30032004"},
                 {"executed 15 days later, February has 28", "280203", "15032003"},
                 {"executed 15 days later, February has 29", "290204", "15032004"},
                 {"executed 15 days later, in 2080", "311279", "15012080"},
                 {"executed in the next century", "311299", "01012000"}};
    static struct bytes file;
    file = samples->m;
    for (size_t i = 0; i < sizeof pairs / sizeof pairs[0]; i++) {
        put(&file, A7, pairs[i].creation);
        put(&file, A11B, pairs[i].execution);
        test_file(pairs[i].name, &file);
    }
}

// Case M with other keys and supplements that go with them.
static void test_supplements(const struct samples *samples) {
    static const struct {
        const char *kind;
        const char *key_and_supplement;
    } pairs[] = {{"LK", "04888"}, {"LK", "05005"}, {"LK", "05006"}, {"LK", "05015"},
                 {"GK", "51888"}, {"GK", "53000"}, {"GK", "54999"}, {"GK", "56000"}};
    static struct bytes file;
    for (size_t i = 0; i < sizeof pairs / sizeof pairs[0]; i++) {
        file = samples->m;
        put(&file, A3, pairs[i].kind);
        put(&file, M_PAYMENT + C7A, pairs[i].key_and_supplement);
        test_file(pairs[i].key_and_supplement, &file);
    }
}

void test_accepted(const struct samples *samples) {
    const struct {
        const char *name;
        const struct bytes *file;
    } files[] = {{"case M", &samples->m},
                 {"four payments", &samples->four},
                 {"the highest sum of cents", &samples->top}};
    test_printed_figures(samples);
    test_printed_texts(samples);
    test_printed_listing(samples);
    for (size_t i = 0; i < sizeof files / sizeof files[0]; i++)
        test_file(files[i].name, files[i].file);
    test_days(samples);
    test_supplements(samples);
}
