// The loader: reads a DTAUS file, has the library load it, and writes its rows for a store, or says
// why not. It ends with 0 where the output is written, with 1 where the file is refused, and with 2
// where the file cannot be read or the output not be written: then nothing is said about the file.
// It also ends with 2 where the output is written and only the figures could not be printed.
#include <errno.h>
#include <inttypes.h>
#include <stdlib.h>
#include <string.h>

#include "copy_binary.h"
#include "dtaus.h"
#include "input.h"
#include "output.h"
#include "payments.h"
#include "refusals.h"
#include "sql_script.h"

enum { DONE = 0, REFUSED = 1, FAILED = 2 };

// What the command line asks for.
struct request {
    write_rows *rows;
    uint64_t file_number;
    const char *file;
    const char *output;
};

static int failed(const char *name) {
    fprintf(stderr, "%s: %s\n", name, strerror(errno));
    return FAILED;
}

static int usage(void) {
    fputs("usage: loader --postgresql | --sqlite FILE-NUMBER FILE OUTPUT\n", stderr);
    return FAILED;
}

static bool parse_form(const char *word, write_rows **rows) {
    if (strcmp(word, "--postgresql") == 0) {
        *rows = write_copy_binary;
    } else if (strcmp(word, "--sqlite") == 0) {
        *rows = write_sql_script;
    } else {
        return false;
    }
    return true;
}

// Digits alone, and no more than a bigint holds.
static bool parse_file_number(const char *word, uint64_t *number) {
    if (*word == '\0' || word[strspn(word, "0123456789")] != '\0') {
        return false;
    }
    errno = 0;
    *number = strtoull(word, NULL, 10);
    return errno == 0 && *number <= INT64_MAX;
}

static bool parse_request(int count, char **words, struct request *request) {
    if (count != 5 || !parse_form(words[1], &request->rows) ||
        !parse_file_number(words[2], &request->file_number)) {
        return false;
    }
    request->file = words[3];
    request->output = words[4];
    return true;
}

static bool print_figures(const struct payments *payments) {
    printf("payments %" PRIu64 ", accounts %" PRIu64, payments->count, payments->sum_of_accounts);
    printf(", bank codes %" PRIu64 ", cents %" PRIu64 "\n", payments->sum_of_bank_codes,
           payments->sum_of_cents);
    return fflush(stdout) == 0 && !ferror(stdout);
}

// False where the output could not be written; errno then says why.
static bool write_output(const struct request *request, const struct payments *payments) {
    struct output output;
    if (!begin_output(request->output, &output)) {
        return false;
    }
    request->rows(output.stream, request->file_number, payments);
    return end_output(&output);
}

// Answers the request with what the library told: nothing is written before it has accepted the
// whole file.
static int answer(const struct request *request, const struct payments *payments) {
    if (payments->number != DTAUS_ACCEPTED) {
        fprintf(stderr, "%s: refused %u at byte %" PRIu64 ": %s\n", request->file, payments->number,
                payments->place, reason(payments->number));
        return REFUSED;
    }
    if (!write_output(request, payments)) {
        return failed(request->output);
    }
    return print_figures(payments) ? DONE : failed("standard output");
}

int main(int count, char **words) {
    struct request request;
    if (!parse_request(count, words, &request)) {
        return usage();
    }
    struct input file;
    if (!read_input(request.file, &file)) {
        return failed(request.file);
    }
    struct payments payments;
    bool loaded = load_payments(&file, &payments);
    release_input(&file);
    if (!loaded) {
        return failed(request.file);
    }
    int status = answer(&request, &payments);
    release_payments(&payments);
    return status;
}
