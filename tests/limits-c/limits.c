// The library at the limits of the form: the count of payments, the total of cents, and both at
// once.
//
// 7 and 8 are not tested, for no file reaches them: 9,999,999 accounts of 9,999,999,999 come to
// 99,999,989,990,000,001, and as many bank codes of 89,999,999 to 899,999,900,000,001, both of 17
// digits or fewer. That these two sums, the highest there are, are accepted is tested.
#include "judging.h"

#include <stdio.h>
#include <stdlib.h>

static const uint64_t MOST_PAYMENTS = 9999999;

// Numbers that differ from payment to payment, within the rules of C4, C5 and C12. 9,999,999 of
// them stay below the limit of cents.
static struct payment varied(uint64_t i) {
    return (struct payment){
        .bank_code = 10000000 + i * 7919 % 80000000,
        .account = 1 + i * 104729 % 9999999999,
        .cents = 1 + i * 31 % 999983,
    };
}

// The highest bank codes and accounts, and cents of which 9,999,999 payments come to the limit of
// 9,999,999,999,999.
static struct payment highest(uint64_t i) {
    return (struct payment){
        .bank_code = 89999999,
        .account = 9999999999,
        .cents = i == MOST_PAYMENTS - 1 ? 1999999 : 1000000,
    };
}

// A hundred payments of the highest amount, and then payments of so many cents.
static struct payment hundred_and(uint64_t i, uint64_t cents) {
    return (struct payment){
        .bank_code = 30050020,
        .account = 7654321,
        .cents = i < 100 ? 99999999999 : cents,
    };
}

// The 101st payment brings the total to its top, 9,999,999,999,999.
static struct payment to_the_top(uint64_t i) { return hundred_and(i, 99); }

// The 101st payment takes the total one cent above its top.
static struct payment above_the_top(uint64_t i) { return hundred_and(i, 100); }

static void test_count(struct written_file *file, const struct columns *columns) {
    start_over(file);
    write_payments(file, varied, MOST_PAYMENTS);
    expect_check("9,999,999 payments: accepted, with count and totals", file, accepted(file));
    expect_load("9,999,999 payments: loaded, and every row is its payment's", file, varied, columns,
                accepted(file));
    write_payments(file, varied, MOST_PAYMENTS + 1);
    expect_check("one payment more: 6 at its first byte", file, refused(6, 2559999872));
    expect_load("one payment more: 6, and nothing is loaded", file, varied, columns,
                refused(6, 2559999872));
}

// The figures are written out, so that nothing rests on the additions of the program that writes
// the file.
static void test_count_and_cents(struct written_file *file) {
    const struct answer tops = {0, 0, 9999999, 99999989990000001, 899999900000001, 9999999999999};
    start_over(file);
    write_payments(file, highest, MOST_PAYMENTS);
    expect_check("count, cents and both other sums at their highest: accepted", file, tops);
    write_payments(file, highest, MOST_PAYMENTS + 1);
    expect_check("one payment more, which count and cents forbid: 6, the lower number", file,
                 refused(6, 2559999872));
}

static void test_cents(struct written_file *file) {
    const struct answer top = {0, 0, 101, 773086421, 3035052020, 9999999999999};
    start_over(file);
    write_payments(file, to_the_top, 101);
    expect_check("101 payments of 9,999,999,999,999 cents: accepted", file, top);
    write_payments(file, to_the_top, 102);
    expect_check("one payment more: 9 at its first byte", file, refused(9, 25984));
    start_over(file);
    write_payments(file, above_the_top, 101);
    expect_check("one cent more: 9 at the C12 that takes the total above", file, refused(9, 25807));
}

// Room for a payment more than the form allows, and a row that no load may touch.
static struct columns lend_columns(void) {
    struct columns columns = {.rows = MOST_PAYMENTS + 2};
    uint64_t **lent[] = {&columns.bank_codes, &columns.accounts, &columns.cents, &columns.starts};
    for (size_t i = 0; i < 4; i++) {
        *lent[i] = malloc(columns.rows * sizeof **lent[i]);
        if (*lent[i] == NULL)
            give_up("making room for the columns");
    }
    return columns;
}

static void free_columns(struct columns *columns) {
    free(columns->bank_codes);
    free(columns->accounts);
    free(columns->cents);
    free(columns->starts);
}

int main(int argc, char **argv) {
    if (argc != 3) {
        fprintf(stderr, "usage: limits FOLDER SAMPLE\n");
        return 2;
    }
    struct written_file file;
    struct columns columns = lend_columns();
    create_file(&file, argv[1], argv[2]);
    test_cents(&file);
    test_count(&file, &columns);
    test_count_and_cents(&file);
    close_file(&file);
    free_columns(&columns);
    return all_passed() ? 0 : 1;
}
