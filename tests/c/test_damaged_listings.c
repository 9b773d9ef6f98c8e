// Tests of refused listings: case M's with bytes changed, put in, cut or added.
#include "calls.h"
#include "days.h"
#include "dtaus.h"
#include "harness.h"
#include "tests.h"

// Where the listing's second line begins, that of the payment.
#define SECOND_LINE 65

// Where its C12 begins.
#define CENTS 137

// Where A7 stands in the first line, and where A11b would.
enum { A7 = 35, A11B = 64 };

static const struct damage changed[] = {
    {0, "B", DTAUS_NO_LINE, 0, "the letter of the first line"},
    {2, "XK", DTAUS_NOT_FIXED, 2, "A3 is none of the four"},
    {5, "2005001X", DTAUS_NO_DIGIT, 5, "A4 has a letter"},
    {14, "00000001", DTAUS_CONDITION, 14, "A5 in a customer's file"},
    {23, "m", DTAUS_NO_SIGN, 23, "A6 has a small letter"},
    {A7, "15030X", DTAUS_NO_DIGIT, A7, "A7 has a letter"},
    {A7, NO_CREATION, DTAUS_NO_DATE, A7, "A7 is no day"},
    {65, "E", DTAUS_NO_LINE, 65, "a line of E"},
    {76, "90050020", DTAUS_CONDITION, 76, "C4 begins with 9"},
    {76, "3005002X", DTAUS_NO_DIGIT, 76, "C4 has a letter"},
    {83, " ", DTAUS_NO_LINE, 65, "C4 ends in a blank"},
    {110, "05", DTAUS_NO_KEY, 110, "C7a is the key of a debit"},
    {110, "55\t051", DTAUS_NO_KEY, 110, "C7a is no key, C7b no supplement"},
    {113, "0X1", DTAUS_NO_DIGIT, 113, "C7b has a letter"},
    {113, "889", DTAUS_NO_SUPPLEMENT, 113, "C7b is 889"},
    {110, "56\t888", DTAUS_NO_SUPPLEMENT, 113, "C7b is 888, C7a 56"},
    {CENTS, "00000000000", DTAUS_CONDITION, CENTS, "C12 is zero"},
    {149, "m", DTAUS_NO_SIGN, 149, "C14a has a small letter"},
    {154, "\t", DTAUS_NO_LINE, 65, "C14a has a tab"},
    {182, "04", DTAUS_NO_MARK, 182, "a mark that is none"},
    {192, " ", DTAUS_NO_LINE, 65, "no line end"},
};

static const struct damage inserted[] = {
    {A11B, "1503    ", DTAUS_NO_LINE, 0, "A11b ends with blanks"},
    {A11B, "\r", DTAUS_NO_LINE, 0, "a carriage return in the first line"},
    {192, "\r", DTAUS_NO_SIGN, 185, "a carriage return in the second"},
    {76, "0", DTAUS_NO_LINE, 65, "C4 has nine digits"},
    {192, "\t02", DTAUS_NO_LINE, 65, "a mark without its text"},
    {193, "\n", DTAUS_NO_LINE, 193, "an empty line"},
};

static void test_damages(const struct samples *samples) {
    static struct bytes listing;
    for (size_t i = 0; i < sizeof changed / sizeof changed[0]; i++) {
        listing = samples->listing;
        put(&listing, changed[i].place, changed[i].bytes);
        test_refused(COMPOSE, &listing, changed[i].number, changed[i].refused_at, changed[i].what);
    }
    for (size_t i = 0; i < sizeof inserted / sizeof inserted[0]; i++) {
        listing = samples->listing;
        insert(&listing, inserted[i].place, inserted[i].bytes);
        test_refused(COMPOSE, &listing, inserted[i].number, inserted[i].refused_at,
                     inserted[i].what);
    }
}

// A day of creation that is none comes before what is wrong with the day of execution.
static void test_days(const struct samples *samples) {
    static struct bytes listing;
    for (size_t i = 0; i < WRONG_DAYS; i++) {
        listing = samples->listing;
        put(&listing, A7, wrong_days[i].creation);
        insert(&listing, A11B, wrong_days[i].execution);
        test_refused(COMPOSE, &listing, wrong_days[i].number, A11B, wrong_days[i].what);
    }
    put(&listing, A7, NO_CREATION);
    test_refused(COMPOSE, &listing, DTAUS_NO_DATE, A7, "A7 is no day, A11b a century later");
}

// In a listing of debits 05 takes supplements that 04 does not.
static void test_debits(const struct samples *samples) {
    static struct bytes listing;
    listing = samples->listing;
    put(&listing, 2, "LK");
    put(&listing, 110, "05\t051");
    test_refused(COMPOSE, &listing, DTAUS_NO_SUPPLEMENT, 113, "C7b is the mistyped 051, C7a 05");
    put(&listing, 110, "04\t005");
    test_refused(COMPOSE, &listing, DTAUS_NO_SUPPLEMENT, 113, "C7b is 005, C7a 04");
}

// A line that is not ended has not its form; whole lines that are too few end early.
static void test_cut(const struct samples *samples) {
    static struct bytes listing;
    listing = samples->listing;
    while (listing.length > 0) {
        listing.length--;
        size_t line = listing.length < SECOND_LINE ? 0 : SECOND_LINE;
        uint8_t number = listing.length == line ? DTAUS_ENDS_EARLY : DTAUS_NO_LINE;
        test_refused(COMPOSE, &listing, number, line, "cut");
    }
}

// A hundred lines of the highest amount, and more: one cent too many, and a line too many.
static void test_cents(const struct samples *samples) {
    static struct bytes listing;
    const uint8_t *line = samples->listing.at + SECOND_LINE;
    size_t length = samples->listing.length - SECOND_LINE;
    listing = samples->listing;
    put(&listing, CENTS, "99999999999");
    for (int i = 1; i < 100; i++)
        append(&listing, listing.at + SECOND_LINE, length);
    size_t last = listing.length, cents = last + CENTS - SECOND_LINE;
    append(&listing, line, length);
    put(&listing, cents, "00000000100");
    test_refused(COMPOSE, &listing, DTAUS_CENTS_OVER, cents, "one cent too many");
    put(&listing, cents, "00000000099");
    size_t next = listing.length;
    append(&listing, line, length);
    test_refused(COMPOSE, &listing, DTAUS_CENTS_OVER, next, "a payment behind the highest sum");
}

// Each is given the other's input.
static void test_exchanged(const struct samples *samples) {
    begin("compose, a file");
    struct call compose = roomy(COMPOSE, &samples->m);
    expect_refusal(&compose, DTAUS_NO_LINE, 0);
    begin("list, a listing");
    struct call list = roomy(LIST, &samples->listing);
    expect_refusal(&list, DTAUS_NOT_FIXED, 0);
}

void test_damaged_listings(const struct samples *samples) {
    test_damages(samples);
    test_days(samples);
    test_debits(samples);
    test_cut(samples);
    test_cents(samples);
    test_exchanged(samples);
}
