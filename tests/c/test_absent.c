// Tests of what a file does not have: number 19 at place 0.
#include "calls.h"
#include "dtaus.h"
#include "harness.h"
#include "payments.h"
#include "tests.h"

// Added to a number that is there: a call that takes only its lower bits would find it.
static const size_t high_bits[] = {(size_t)1 << 8, (size_t)1 << 16, (size_t)1 << 32,
                                   (size_t)1 << 63};

#define HIGH_BITS (sizeof high_bits / sizeof high_bits[0])

static void expect_no_payment(const struct bytes *file, size_t payment) {
    begin("find, no payment %zu of %zu bytes", payment, file->length);
    struct call call = roomy(FIND, file);
    call.payment = payment;
    expect_refusal(&call, DTAUS_NO_SUCH, 0);
}

static void expect_no_text(const struct bytes *file, size_t start, size_t wanted) {
    begin("text, no text %zu of a payment at %zu of %zu bytes", wanted, start, file->length);
    struct call call = roomy(TEXT, file);
    call.start = start;
    call.wanted = wanted;
    expect_refusal(&call, DTAUS_NO_SUCH, 0);
}

static void test_no_payment(const struct samples *samples) {
    expect_no_payment(&samples->m, 1);
    expect_no_payment(&samples->four, 4);
    expect_no_payment(&samples->four, 5);
    expect_no_payment(&samples->top, 101);
    expect_no_payment(&samples->m, SIZE_MAX);
    for (size_t i = 0; i < HIGH_BITS; i++)
        expect_no_payment(&samples->m, high_bits[i]);
}

// Every other byte of case M, and some behind it.
static void test_no_start(const struct samples *samples) {
    for (size_t start = 0; start < samples->m.length + 2; start++)
        if (start != M_PAYMENT)
            expect_no_text(&samples->m, start, DTAUS_C14A);
    expect_no_text(&samples->m, SIZE_MAX, DTAUS_C14A);
    for (size_t i = 0; i < HIGH_BITS; i++)
        expect_no_text(&samples->m, M_PAYMENT + high_bits[i], DTAUS_C14A);
}

static void test_no_part(const struct samples *samples) {
    struct payments payments;
    read_payments(&payments, &samples->four);
    for (size_t i = 0; i < payments.count; i++)
        for (size_t part = payments.row[i].parts + 1; part <= 17; part++)
            expect_no_text(&samples->four, payments.row[i].start, DTAUS_PART(part));
    expect_no_text(&samples->m, M_PAYMENT, SIZE_MAX);
    for (size_t i = 0; i < HIGH_BITS; i++)
        for (size_t wanted = DTAUS_C14A; wanted <= DTAUS_PART(1); wanted++)
            expect_no_text(&samples->m, M_PAYMENT, wanted + high_bits[i]);
}

void test_absent(const struct samples *samples) {
    test_no_payment(samples);
    test_no_start(samples);
    test_no_part(samples);
}
