// Holds check, load, list and compose of the library against plain C, on files that it makes, and
// check and load of media: whether both give the same, or how long both take.
#include "agree.h"
#include "damage.h"
#include "generate.h"
#include "lent.h"
#include "options.h"
#include "timing.h"
#include <stdio.h>
#include <stdlib.h>

enum { SHAPES = 2 };

static const struct shape shapes[SHAPES] = {{"256-byte payments, 0 to 2 parts", 2, 0},
                                            {"mixed payments, 0 to 15 parts", 15, 0}};

enum { MEGABYTE = 1000000 };

// Valid bytes, and the payments in them.
struct made {
    uint8_t *bytes;
    size_t length;
    size_t payments;
};

// A file, and beside it a medium of as many files of 1 MB as the file has MB.
struct input {
    const struct shape *shape;
    int megabytes;
    struct made file;
    struct made medium;
};

static struct input make_input(const struct shape *shape, int megabytes) {
    size_t files = megabytes;
    struct input input = {.shape = shape, .megabytes = megabytes};
    struct made *file = &input.file, *medium = &input.medium;
    file->bytes = allocate(files * MEGABYTE + LONGER);
    file->length = generate(file->bytes, files * MEGABYTE, shape, &file->payments);
    medium->bytes = allocate(files * (MEGABYTE + LONGER));
    medium->length = generate_medium(medium->bytes, files, MEGABYTE, shape, &medium->payments);
    return input;
}

static const struct made *read_by(const struct input *input, enum call call) {
    return call == CHECK_MEDIUM || call == LOAD_MEDIUM ? &input->medium : &input->file;
}

// The smaller the file, the shorter its time, and the more rounds until the best has been seen.
static int default_rounds(int megabytes) { return megabytes < 10 ? 21 : megabytes < 100 ? 7 : 3; }

// One line for each call: files, MB, then of what it reads bytes and payments, rounds, call, then
// of ours and of C the best time and how much of it the processor worked.
static void print_times(const struct input *input, int rounds, const struct times *times) {
    for (enum call call = 0; call < CALLS; call++) {
        const struct made *made = read_by(input, call);
        struct best our_best = times->ours[call], plain_best = times->plain[call];
        printf("%s\t%d\t%zu\t%zu\t%d\t%s", input->shape->name, input->megabytes, made->length,
               made->payments, rounds, call_name(call));
        printf("\t%.0f\t%.0f\t%.0f\t%.0f\n", our_best.took, our_best.worked, plain_best.took,
               plain_best.worked);
    }
    fflush(stdout);
}

// Both loads write into the same columns, which have rows for whichever has more payments.
static bool time_input(const struct input *input, int rounds) {
    const struct made *file = &input->file, *medium = &input->medium;
    struct work work = {.file = file->bytes,
                        .file_length = file->length,
                        .medium = medium->bytes,
                        .medium_length = medium->length};
    struct times times;
    uint8_t *listing = listing_of(file->bytes, file->length, &work.listing_length);
    size_t most = file->payments > medium->payments ? file->payments : medium->payments;
    work.listing = listing;
    lend(&work, (struct room){most, input->megabytes, file->length});
    bool accepted = measure(&work, rounds, &times);
    if (accepted)
        print_times(input, rounds, &times);
    else
        fprintf(stderr, "bench: a call refuses the file, its listing or the medium\n");
    take_back(&work);
    free(listing);
    return accepted;
}

static bool agree_on_valid(const struct input *input) {
    const struct made *file = &input->file, *medium = &input->medium;
    return agree_on_file(file->bytes, file->length, file->payments) &&
           agree_on_medium(medium->bytes, medium->length, input->megabytes, medium->payments);
}

static bool run_on(const struct options *options, const struct shape *shape, int megabytes) {
    struct input input = make_input(shape, megabytes);
    int rounds = options->rounds > 0 ? options->rounds : default_rounds(megabytes);
    bool done = options->verb == AGREE ? agree_on_valid(&input) : time_input(&input, rounds);
    free(input.file.bytes);
    free(input.medium.bytes);
    return done;
}

int main(int count, char **words) {
    struct options options = read_options(count, words);
    if (options.verb == AGREE && !agree_on_damage())
        return 1;
    for (int s = 0; s < SHAPES; s++)
        for (int i = 0; i < options.size_count; i++)
            if (!run_on(&options, &shapes[s], options.sizes[i]))
                return 1;
    return 0;
}
