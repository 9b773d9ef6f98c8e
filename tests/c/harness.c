// The counting of tests.
#define _DEFAULT_SOURCE
#include "harness.h"

#include <inttypes.h>
#include <signal.h>
#include <stdarg.h>
#include <stdio.h>
#include <unistd.h>

static const char *ahead = "";
static char test[200];
static unsigned expected, unmet;
static unsigned passed, failed;

void situation(const char *words) { ahead = words; }

static void end(void) {
    if (test[0] == 0)
        return;
    if (expected == 0)
        expect(false, "something is expected");
    if (unmet == 0)
        passed++;
    else
        failed++;
}

void begin(const char *name, ...) {
    end();
    va_list words;
    va_start(words, name);
    vsnprintf(test, sizeof test, name, words);
    va_end(words);
    expected = 0;
    unmet = 0;
}

void expect(bool holds, const char *what) {
    expected++;
    if (holds)
        return;
    unmet++;
    printf("failed: %s, %s: %s\n", ahead, test, what);
}

void expect_equal(uint64_t is, uint64_t should_be, const char *what) {
    expect(is == should_be, what);
    if (is != should_be)
        printf("    it is %" PRIu64 ", it should be %" PRIu64 "\n", is, should_be);
}

int finish(void) {
    end();
    printf("%u passed, %u failed\n", passed, failed);
    return failed == 0 ? 0 : 1;
}

// The touch cannot be passed over, so no further test is run. The signal is raised by the touch
// itself, never within the printing, so printing is safe here.
static void at_bad_touch(int signal) {
    (void)signal;
    expect(false, "no memory is touched that was not lent");
    int status = finish();
    fflush(stdout);
    _exit(status);
}

void end_at_bad_touch(void) {
    signal(SIGSEGV, at_bad_touch);
    signal(SIGBUS, at_bad_touch);
}
