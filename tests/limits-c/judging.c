// Calls of the library and the verdicts on them: one line for each, with its time, and their count.
#define _POSIX_C_SOURCE 200809L
#include "judging.h"

#include "dtaus.h"
#include <inttypes.h>
#include <stdio.h>
#include <time.h>

// What columns and results hold before a call. No figure is so high.
static const uint64_t UNTOUCHED = UINT64_C(0xA5A5A5A5A5A5A5A5);

static unsigned passed;
static unsigned failed;

static double now(void) {
    struct timespec time;
    clock_gettime(CLOCK_MONOTONIC, &time);
    return (double)time.tv_sec + (double)time.tv_nsec / 1e9;
}

void write_payments(struct written_file *file, payment_rule rule, uint64_t count) {
    double began = now();
    lengthen(file, rule, count);
    printf("written %7.2f s  %" PRIu64 " payments, %zu bytes\n", now() - began, file->count,
           length_of(file));
    fflush(stdout);
}

struct answer accepted(const struct written_file *file) {
    return (struct answer){0, 0, file->count, file->accounts, file->bank_codes, file->cents};
}

struct answer refused(uint64_t number, uint64_t place) {
    return (struct answer){number, place, 0, 0, 0, 0};
}

static int same(struct answer a, struct answer b) {
    return a.number == b.number && a.place == b.place && a.count == b.count &&
           a.accounts == b.accounts && a.bank_codes == b.bank_codes && a.cents == b.cents;
}

static void print_answer(const char *whose, struct answer answer) {
    printf("    %s: number %" PRIu64 ", place %" PRIu64 ", count %" PRIu64 ", accounts %" PRIu64
           ", bank codes %" PRIu64 ", cents %" PRIu64 "\n",
           whose, answer.number, answer.place, answer.count, answer.accounts, answer.bank_codes,
           answer.cents);
}

static void judge(const char *shows, double seconds, uint8_t returned,
                  const uint64_t figures[DTAUS_CHECK_FIGURES], struct answer expected,
                  int columns_are_right) {
    struct answer given = {figures[0], figures[1], figures[2], figures[3], figures[4], figures[5]};
    int right = returned == expected.number && same(given, expected) && columns_are_right;
    printf("%s  %7.2f s  %s\n", right ? "passed" : "failed", seconds, shows);
    if (right) {
        passed++;
    } else {
        failed++;
        print_answer("expected", expected);
        print_answer("given", given);
        printf("    returned %u, columns %s\n", returned, columns_are_right ? "right" : "wrong");
    }
    fflush(stdout);
}

static void untouched_figures(uint64_t figures[DTAUS_CHECK_FIGURES]) {
    for (int i = 0; i < DTAUS_CHECK_FIGURES; i++)
        figures[i] = UNTOUCHED;
}

void expect_check(const char *shows, const struct written_file *file, struct answer expected) {
    uint64_t figures[DTAUS_CHECK_FIGURES];
    untouched_figures(figures);
    const uint8_t *bytes = map_file(file);
    double began = now();
    uint8_t returned = dtaus_check(bytes, length_of(file), figures, DTAUS_CHECK_FIGURES);
    double seconds = now() - began;
    unmap_file(file, bytes);
    judge(shows, seconds, returned, figures, expected, 1);
}

static void untouched_columns(const struct columns *columns) {
    for (size_t i = 0; i < columns->rows; i++) {
        columns->bank_codes[i] = UNTOUCHED;
        columns->accounts[i] = UNTOUCHED;
        columns->cents[i] = UNTOUCHED;
        columns->starts[i] = UNTOUCHED;
    }
}

static int row_is(const struct columns *columns, size_t i, struct payment payment, uint64_t start) {
    return columns->bank_codes[i] == payment.bank_code && columns->accounts[i] == payment.account &&
           columns->cents[i] == payment.cents && columns->starts[i] == start;
}

static int columns_hold(const struct columns *columns, payment_rule rule, uint64_t count) {
    const struct payment none = {UNTOUCHED, UNTOUCHED, UNTOUCHED};
    for (size_t i = 0; i < columns->rows; i++) {
        int right = i < count ? row_is(columns, i, rule(i), start_of(i))
                              : row_is(columns, i, none, UNTOUCHED);
        if (!right)
            return 0;
    }
    return 1;
}

void expect_load(const char *shows, const struct written_file *file, payment_rule rule,
                 const struct columns *columns, struct answer expected) {
    uint64_t figures[DTAUS_LOAD_FIGURES];
    untouched_figures(figures);
    untouched_columns(columns);
    const uint8_t *bytes = map_file(file);
    double began = now();
    uint8_t returned = dtaus_load(bytes, length_of(file), columns->bank_codes, columns->rows,
                                  columns->accounts, columns->rows, columns->cents, columns->rows,
                                  columns->starts, columns->rows, figures, DTAUS_LOAD_FIGURES);
    double seconds = now() - began;
    unmap_file(file, bytes);
    judge(shows, seconds, returned, figures, expected, columns_hold(columns, rule, expected.count));
}

int all_passed(void) {
    printf("%u passed, %u failed\n", passed, failed);
    return failed == 0;
}
