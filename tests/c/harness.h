// Counts the tests that passed and failed. A test is begun by its name and lasts until the next; it
// has passed if it expected something and all that it expected held.
#ifndef HARNESS_H
#define HARNESS_H

#include <stdbool.h>
#include <stdint.h>

// Words that are printed ahead of the names of all tests from here on.
void situation(const char *words);

// Begins a test; its name is made as by printf.
void begin(const char *name, ...) __attribute__((format(printf, 1, 2)));

// Prints the test's name and what was expected where it does not hold.
void expect(bool holds, const char *what);

// The same of two numbers; both are printed where they differ.
void expect_equal(uint64_t is, uint64_t should_be, const char *what);

// From here on, a touch of memory that was not lent ends the program: the test has failed, the
// counts are printed.
void end_at_bad_touch(void);

// Ends the last test and prints 'N passed, M failed'. Returns the program's exit status.
int finish(void);

#endif
