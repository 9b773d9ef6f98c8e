// Tests of the header's constants: each name of a number has its own, also those that no input here
// leads to, and the version is that of the calls tested here and that of the archive.
#include "dtaus.h"
#include "harness.h"
#include "tests.h"

static const int in_order[] = {
    DTAUS_ACCEPTED,        DTAUS_SHORT,      DTAUS_NOT_FIXED,        DTAUS_NO_DIGIT,
    DTAUS_NO_SIGN,         DTAUS_NO_LENGTH,  DTAUS_NO_MORE_PAYMENTS, DTAUS_ACCOUNTS_OVER,
    DTAUS_BANK_CODES_OVER, DTAUS_CENTS_OVER, DTAUS_NO_DATE,          DTAUS_CONDITION,
    DTAUS_NO_KEY,          DTAUS_NO_MARK,    DTAUS_NOT_COUNTED,      DTAUS_SURPLUS,
    DTAUS_NO_ROOM,         DTAUS_NO_LINE,    DTAUS_ENDS_EARLY,       DTAUS_NO_SUCH,
};

void test_header(void) {
    begin("the numbers have their names");
    for (size_t i = 0; i < sizeof in_order / sizeof in_order[0]; i++)
        expect_equal((uint64_t)in_order[i], i, "the number of a name");
    // 20 is given by the programs alone, and has no name.
    expect_equal(DTAUS_NO_SUPPLEMENT, 21, "the number of a name");
    expect_equal(DTAUS_TOO_EARLY, 22, "the number of a name");
    expect_equal(DTAUS_TOO_LATE, 23, "the number of a name");
    begin("header and archive belong together");
    expect_equal(DTAUS_VERSION, 3, "the version of the header");
    expect_equal(dtaus_version(), DTAUS_VERSION, "the version of the archive");
}
