// The words behind the command.
#include "options.h"
#include <stdio.h>
#include <stdlib.h>
#include <string.h>

static void usage(void) {
    fprintf(stderr, "usage: bench agree | time [--sizes MB,MB,..] [--rounds N]\n");
    exit(2);
}

// A number from 1 to 2000 at the beginning of a word. A file of 2,000 MB has payments and cents
// within the format's limits.
static int read_number(char *word, char **behind) {
    long value = strtol(word, behind, 10);
    if (value < 1 || value > 2000)
        usage();
    return value;
}

static void read_sizes(char *word, struct options *options) {
    options->size_count = 0;
    for (;; word++) {
        if (options->size_count == MOST_SIZES)
            usage();
        options->sizes[options->size_count++] = read_number(word, &word);
        if (*word == '\0')
            return;
        if (*word != ',')
            usage();
    }
}

static void read_rounds(char *word, struct options *options) {
    options->rounds = read_number(word, &word);
    if (*word != '\0')
        usage();
}

static enum verb read_verb(const char *word) {
    if (strcmp(word, "agree") != 0 && strcmp(word, "time") != 0)
        usage();
    return strcmp(word, "agree") == 0 ? AGREE : TIME;
}

struct options read_options(int count, char **words) {
    if (count < 2)
        usage();
    struct options options = {read_verb(words[1]), {1, 10, 100}, 3, 0};
    for (int i = 2; i < count; i += 2) {
        if (i + 1 == count)
            usage();
        if (strcmp(words[i], "--sizes") == 0)
            read_sizes(words[i + 1], &options);
        else if (strcmp(words[i], "--rounds") == 0)
            read_rounds(words[i + 1], &options);
        else
            usage();
    }
    return options;
}
