// The loader: reads a medium of DTAUS files, has the library load it, and writes its rows for a
// store, or says why not. It ends with 0 where the output is written, with 1 where the medium is
// refused, and with 2 where the medium cannot be read or the output not be written: then nothing is
// said about the medium. It also ends with 2 where the output is written and only the figures could
// not be printed.
#include <errno.h>
#include <inttypes.h>
#include <stdlib.h>
#include <string.h>

#include "copy_script.h"
#include "dtaus.h"
#include "input.h"
#include "medium.h"
#include "medium_refusals.h"
#include "output.h"
#include "rows.h"
#include "sql_script.h"

enum { DONE = 0, REFUSED = 1, FAILED = 2 };

// What the command line asks for.
struct request {
    write_tables *form;
    uint64_t medium_number;
    const char *medium;
    const char *output;
};

static int failed(const char *name) {
    fprintf(stderr, "%s: %s\n", name, strerror(errno));
    return FAILED;
}

static int usage(void) {
    fputs("usage: media-loader --postgresql | --sqlite MEDIUM-NUMBER MEDIUM OUTPUT\n", stderr);
    return FAILED;
}

static bool parse_form(const char *word, write_tables **form) {
    if (strcmp(word, "--postgresql") == 0) {
        *form = write_copy_script;
    } else if (strcmp(word, "--sqlite") == 0) {
        *form = write_sql_script;
    } else {
        return false;
    }
    return true;
}

// Digits alone, and no more than a bigint holds.
static bool parse_medium_number(const char *word, uint64_t *number) {
    if (*word == '\0' || word[strspn(word, "0123456789")] != '\0') {
        return false;
    }
    errno = 0;
    *number = strtoull(word, NULL, 10);
    return errno == 0 && *number <= INT64_MAX;
}

static bool parse_request(int count, char **words, struct request *request) {
    if (count != 5 || !parse_form(words[1], &request->form) ||
        !parse_medium_number(words[2], &request->medium_number)) {
        return false;
    }
    request->medium = words[3];
    request->output = words[4];
    return true;
}

// A line for the medium, then one for each file.
static bool print_figures(const struct medium *medium) {
    printf("files %" PRIu64 ", payments %" PRIu64 "\n", medium->file_count, medium->payment_count);
    for (size_t i = 0; i < medium->file_count; i++) {
        printf("file %zu at %" PRIu64 ": payments %" PRIu64 ", accounts %" PRIu64, i,
               medium->file_starts[i], medium->file_counts[i], medium->file_accounts[i]);
        printf(", bank codes %" PRIu64 ", cents %" PRIu64 "\n", medium->file_bank_codes[i],
               medium->file_cents[i]);
    }
    return fflush(stdout) == 0 && !ferror(stdout);
}

// False where the output could not be written; errno then says why.
static bool write_output(const struct request *request, const struct medium *medium) {
    struct output output;
    if (!begin_output(request->output, &output)) {
        return false;
    }
    struct table tables[TABLES];
    list_tables(request->medium_number, medium, tables);
    request->form(output.stream, tables);
    return end_output(&output);
}

// Answers the request with what the library told: nothing is written before it has accepted the
// whole medium.
static int answer(const struct request *request, const struct medium *medium) {
    if (medium->number != DTAUS_ACCEPTED) {
        fprintf(stderr, "%s: refused %u at byte %" PRIu64 ": %s\n", request->medium, medium->number,
                medium->place, reason_of_medium(medium->number));
        return REFUSED;
    }
    if (!write_output(request, medium)) {
        return failed(request->output);
    }
    return print_figures(medium) ? DONE : failed("standard output");
}

int main(int count, char **words) {
    struct request request;
    if (!parse_request(count, words, &request)) {
        return usage();
    }
    struct input input;
    if (!read_input(request.medium, &input)) {
        return failed(request.medium);
    }
    struct medium medium;
    bool loaded = load_medium(&input, &medium);
    release_input(&input);
    if (!loaded) {
        return failed(request.medium);
    }
    int status = answer(&request, &medium);
    release_medium(&medium);
    return status;
}
