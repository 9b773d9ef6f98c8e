// The two sides that are compared, behind one way to make a call.
#include "sides.h"
#include "c/plain.h"
#include "dtaus.h"

struct side {
    uint8_t (*check)(const uint8_t *, size_t, uint64_t *, size_t);
    uint8_t (*load)(const uint8_t *, size_t, uint64_t *, size_t, uint64_t *, size_t, uint64_t *,
                    size_t, uint64_t *, size_t, uint64_t *, size_t);
    uint8_t (*list)(const uint8_t *, size_t, uint8_t *, size_t, uint64_t *, size_t);
    uint8_t (*compose)(const uint8_t *, size_t, uint8_t *, size_t, uint64_t *, size_t);
    uint8_t (*check_medium)(const uint8_t *, size_t, uint64_t *, size_t);
    uint8_t (*load_medium)(const uint8_t *, size_t, uint64_t *, size_t, uint64_t *, size_t,
                           uint64_t *, size_t, uint64_t *, size_t, uint64_t *, size_t, uint64_t *,
                           size_t, uint64_t *, size_t, uint64_t *, size_t, uint64_t *, size_t,
                           uint64_t *, size_t);
};

const struct side ours = {dtaus_check,   dtaus_load,         dtaus_list,
                          dtaus_compose, dtaus_check_medium, dtaus_load_medium};
const struct side plain = {plain_check,   plain_load,         plain_list,
                           plain_compose, plain_check_medium, plain_load_medium};

const char *call_name(enum call call) {
    static const char *const names[CALLS] = {"check",   "load",         "list",
                                             "compose", "check medium", "load medium"};
    return names[call];
}

size_t rows_of(struct room room, int column) {
    return column < PAYMENT_COLUMNS ? room.payments : room.files;
}

static uint8_t load_file(const struct side *side, const struct work *work,
                         uint64_t result[FIGURES]) {
    uint64_t *const *columns = work->columns;
    size_t rows = work->room.payments;
    return side->load(work->file, work->file_length, columns[0], rows, columns[1], rows, columns[2],
                      rows, columns[3], rows, result, FIGURES);
}

static uint8_t load_medium(const struct side *side, const struct work *work,
                           uint64_t result[FIGURES]) {
    uint64_t *const *columns = work->columns;
    size_t rows = work->room.payments;
    size_t files = work->room.files;
    return side->load_medium(work->medium, work->medium_length, columns[0], rows, columns[1], rows,
                             columns[2], rows, columns[3], rows, columns[4], files, columns[5],
                             files, columns[6], files, columns[7], files, columns[8], files, result,
                             FIGURES);
}

uint8_t make_call(const struct side *side, enum call call, const struct work *work,
                  uint64_t result[FIGURES]) {
    switch (call) {
    case CHECK:
        return side->check(work->file, work->file_length, result, FIGURES);
    case LOAD:
        return load_file(side, work, result);
    case LIST:
        return side->list(work->file, work->file_length, work->output, work->room.output, result,
                          FIGURES);
    case COMPOSE:
        return side->compose(work->listing, work->listing_length, work->output, work->room.output,
                             result, FIGURES);
    case CHECK_MEDIUM:
        return side->check_medium(work->medium, work->medium_length, result, FIGURES);
    default:
        return load_medium(side, work, result);
    }
}
