// Tests of the lent memory itself: a touch beyond a slice ends the program, a changed guard is
// seen.
#define _DEFAULT_SOURCE
#include <signal.h>
#include <sys/wait.h>
#include <unistd.h>

#include "harness.h"
#include "lent.h"
#include "tests.h"

enum { SLICE = 24 };

// The exit status of a process that is ended by its touch.
#define TOUCHED 3

static void at_touch(int signal) {
    (void)signal;
    _exit(TOUCHED);
}

// Whether a process that reads this byte is ended for it.
static bool ends_by_touch(const volatile uint8_t *byte) {
    pid_t child = fork();
    if (child == 0) {
        signal(SIGSEGV, at_touch);
        (void)*byte;
        _exit(0);
    }
    int status = 0;
    return waitpid(child, &status, 0) == child && WIFEXITED(status) &&
           WEXITSTATUS(status) == TOUCHED;
}

static void test_edges(struct slice *slice) {
    begin("the byte behind a slice cannot be touched");
    lend(slice, SLICE, BEHIND);
    expect(!ends_by_touch(slice->at + SLICE - 1), "the slice's last byte can be");
    expect(ends_by_touch(slice->at + SLICE), "a touch behind it ends the program");
    begin("the byte ahead of a slice cannot be touched");
    lend(slice, SLICE, AHEAD);
    expect(!ends_by_touch(slice->at), "the slice's first byte can be");
    expect(ends_by_touch(slice->at - 1), "a touch ahead of it ends the program");
}

// Whether it is seen that a byte of the slice, or beside it, is another one.
static bool sees_change(struct slice *slice, uint8_t *byte, size_t first) {
    *byte ^= 1;
    bool seen = !untouched_but_for(slice, first);
    *byte ^= 1;
    return seen;
}

static void test_pattern(struct slice *slice) {
    begin("a changed byte is seen");
    lend(slice, SLICE, BEHIND);
    expect(untouched_but_for(slice, 0), "a slice is lent untouched");
    expect(sees_change(slice, slice->at - 1, SLICE), "a byte ahead of the slice");
    expect(sees_change(slice, slice->at + 8, 8), "the first byte that should be untouched");
    expect(sees_change(slice, slice->at + SLICE - 1, 8), "the last byte of the slice");
    expect(!sees_change(slice, slice->at + 7, 8), "the bytes before may change");
    lend(slice, SLICE, AHEAD);
    expect(sees_change(slice, slice->at + SLICE, SLICE), "a byte behind the slice");
}

void test_lent_memory(void) {
    struct slice slice = make_room();
    test_edges(&slice);
    test_pattern(&slice);
}
