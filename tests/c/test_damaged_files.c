// Tests of refused files: case M with bytes changed, cut or added. Every call that reads a file or
// a medium gives the same number and place, but for bytes behind E.
#include "calls.h"
#include "days.h"
#include "dtaus.h"
#include "harness.h"
#include "payments.h"
#include "tests.h"

// Where A7 and A11b stand in a file, C12 in a payment, and E4 in case M.
enum { A7 = 50, A11B = 95, C12 = 79, M_E4 = 394 };

static const struct damage damages[] = {
    {0, "0129", DTAUS_NOT_FIXED, 0, "A1"},
    {5, "XK", DTAUS_NOT_FIXED, 5, "A3 is none of the four"},
    {7, "2005001X", DTAUS_NO_DIGIT, 7, "A4 has a letter"},
    {22, "1", DTAUS_CONDITION, 15, "A5 in a customer's file, its last byte"},
    {23, "m", DTAUS_NO_SIGN, 23, "A6 has a small letter"},
    {A7, "15030X", DTAUS_NO_DIGIT, A7, "A7 has a letter"},
    {A7, NO_CREATION, DTAUS_NO_DATE, A7, "A7 is no day"},
    {A11B, "1503    ", DTAUS_NO_DIGIT, A11B, "A11b ends with blanks"},
    {126, "X", DTAUS_NOT_FIXED, 103, "A11c, its last byte"},
    {127, "2", DTAUS_NOT_FIXED, 127, "A12"},
    {128, "02X6", DTAUS_NO_DIGIT, 128, "C1 has a letter"},
    {128, "0186", DTAUS_NO_LENGTH, 128, "C1 is no length"},
    {128, "0128E", DTAUS_NO_LENGTH, 128, "E directly behind A"},
    {132, "D", DTAUS_NOT_FIXED, 132, "C2"},
    {141, "9", DTAUS_CONDITION, 141, "C4 begins with 9"},
    {149, "0000000000", DTAUS_CONDITION, 149, "C5 is zero"},
    {171, "1", DTAUS_CONDITION, 159, "C6 ends with 1"},
    {172, "05", DTAUS_NO_KEY, 172, "C7a is the key of a debit"},
    {172, "55051", DTAUS_NO_KEY, 172, "C7a is no key, C7b no supplement"},
    {174, "0X1", DTAUS_NO_DIGIT, 174, "C7b has a letter"},
    {176, "1", DTAUS_NO_SUPPLEMENT, 174, "C7b, its last byte"},
    {172, "56888", DTAUS_NO_SUPPLEMENT, 174, "C7b is 888, C7a 56"},
    {178, "1", DTAUS_NOT_FIXED, 178, "C9 is not zero"},
    {217, "X", DTAUS_NO_DIGIT, 207, "C12 has a letter, its last byte"},
    {207, "00000000000", DTAUS_CONDITION, 207, "C12 is zero"},
    {221, "        ", DTAUS_CONDITION, 221, "C14a is blank"},
    {247, "\t", DTAUS_NO_SIGN, 221, "C14a has a tab, its last byte"},
    {313, "02", DTAUS_CONDITION, 313, "C18 is not as C1 tells"},
    {315, "04", DTAUS_NO_MARK, 315, "a mark that is none"},
    {317, "\x80", DTAUS_NO_SIGN, 317, "the text of a part"},
    {383, "X", DTAUS_NOT_FIXED, 344, "closing blanks, the last byte"},
    {384, "0129", DTAUS_NO_LENGTH, 384, "E1 is no length"},
    {388, "A", DTAUS_NOT_FIXED, 388, "E2"},
    {M_E4, "0000002", DTAUS_NOT_COUNTED, M_E4, "E4"},
    {401, "1", DTAUS_NOT_FIXED, 401, "E5 is not zero"},
    {430, "2", DTAUS_NOT_COUNTED, 414, "E6, its last byte"},
    {447, "1", DTAUS_NOT_COUNTED, 431, "E7, its last byte"},
    {460, "6", DTAUS_NOT_COUNTED, 448, "E8, its last byte"},
    {511, "X", DTAUS_NOT_FIXED, 461, "E9, the last byte of the file"},
};

// By the calls that read one file, and no medium.
static void test_refused_as_file(const struct bytes *file, uint8_t number, uint64_t place,
                                 const char *what) {
    for (size_t i = 0; i < FILE_READERS; i++)
        test_refused(file_readers[i], file, number, place, what);
}

// By all of them: a file is a medium too.
static void test_refused_by_all(const struct bytes *file, uint8_t number, uint64_t place,
                                const char *what) {
    test_refused_as_file(file, number, place, what);
    for (size_t i = 0; i < MEDIUM_READERS; i++)
        test_refused(medium_readers[i], file, number, place, what);
}

static void test_changed(const struct samples *samples) {
    static struct bytes file;
    for (size_t i = 0; i < sizeof damages / sizeof damages[0]; i++) {
        file = samples->m;
        put(&file, damages[i].place, damages[i].bytes);
        test_refused_by_all(&file, damages[i].number, damages[i].refused_at, damages[i].what);
    }
}

// A day of creation that is none comes before what is wrong with the day of execution.
static void test_days(const struct samples *samples) {
    static struct bytes file;
    file = samples->m;
    for (size_t i = 0; i < WRONG_DAYS; i++) {
        put(&file, A7, wrong_days[i].creation);
        put(&file, A11B, wrong_days[i].execution);
        test_refused_by_all(&file, wrong_days[i].number, A11B, wrong_days[i].what);
    }
    put(&file, A7, NO_CREATION);
    test_refused_by_all(&file, DTAUS_NO_DATE, A7, "A7 is no day, A11b a century later");
}

// In a file of debits 05 takes supplements that 04 does not.
static void test_debits(const struct samples *samples) {
    static struct bytes file;
    file = samples->m;
    put(&file, 5, "LK");
    put(&file, 172, "05051");
    test_refused_by_all(&file, DTAUS_NO_SUPPLEMENT, 174, "C7b is the mistyped 051, C7a 05");
    put(&file, 172, "04005");
    test_refused_by_all(&file, DTAUS_NO_SUPPLEMENT, 174, "C7b is 005, C7a 04");
}

static void test_cut(const struct samples *samples) {
    static struct bytes file;
    file = samples->m;
    while (file.length > 0) {
        file.length--;
        test_refused_by_all(&file, DTAUS_SHORT, field_with(file.length), "cut");
    }
}

static void test_surplus(const struct samples *samples) {
    static struct bytes file;
    file = samples->m;
    append(&file, "X", 1);
    test_refused_as_file(&file, DTAUS_SURPLUS, samples->m.length, "one byte more");
    test_refused_as_file(&samples->two.bytes, DTAUS_SURPLUS, samples->m.length, "two files");
}

// The sum of cents is at its top: one cent more, and one payment more.
static void test_cents(const struct samples *samples) {
    static struct bytes file;
    size_t last = M_PAYMENT + 100 * 256, ending = last + 256;
    file = samples->top;
    put(&file, last + C12, "00000000100");
    test_refused_by_all(&file, DTAUS_CENTS_OVER, last + C12, "one cent too many");
    file = samples->top;
    file.length = ending;
    append(&file, samples->m.at + M_PAYMENT, samples->m.length - M_PAYMENT);
    test_refused_by_all(&file, DTAUS_CENTS_OVER, ending, "a payment behind the highest sum");
}

// Payments ahead of the damage: nothing of them stays in the columns or the output.
static void test_late_damage(const struct samples *samples) {
    struct payments payments;
    read_payments(&payments, &samples->four);
    static struct bytes file;
    file = samples->four;
    size_t place = payments.row[3].start + C12;
    put(&file, place, "0000000010X");
    test_refused_by_all(&file, DTAUS_NO_DIGIT, place, "a letter in the last of four amounts");
    file = samples->four;
    put(&file, payments.row[2].start + part_text(15) - 2, "02");
    test_refused_by_all(&file, DTAUS_NO_MARK, payments.row[2].start + part_text(15) - 2,
                        "the fifteenth of fifteen marks");
}

// What is asked for is just not there, and E counts it.
static void test_next_payment(const struct samples *samples) {
    static struct bytes file;
    file = samples->m;
    put(&file, M_E4, "0000002");
    begin("find, the second payment where E counts two");
    struct call call = roomy(FIND, &file);
    call.payment = 1;
    expect_refusal(&call, DTAUS_NOT_COUNTED, M_E4);
    begin("text, of a payment at E where E counts two");
    call = roomy(TEXT, &file);
    call.start = M_ENDING;
    expect_refusal(&call, DTAUS_NOT_COUNTED, M_E4);
}

void test_damaged_files(const struct samples *samples) {
    test_changed(samples);
    test_days(samples);
    test_debits(samples);
    test_cut(samples);
    test_surplus(samples);
    test_cents(samples);
    test_late_damage(samples);
    test_next_payment(samples);
}
