// Tests the library as C calls it: interface FILE LISTING, with case M and its listing.
#include <stdio.h>

#include "calls.h"
#include "harness.h"
#include "media.h"
#include "payments.h"
#include "tests.h"

static struct samples samples;

static void run_all(const char *words, enum edge edge) {
    situation(words);
    lend_at(edge);
    test_accepted(&samples);
    test_absent(&samples);
    test_damaged_files(&samples);
    test_damaged_listings(&samples);
    test_media(&samples);
    test_damaged_media(&samples);
    test_room(&samples);
}

static void write_media(void) {
    write_one(&samples.two, &samples.m);
    add_file(&samples.two, &samples.m);
    write_one(&samples.three, &samples.four);
    add_file(&samples.three, &samples.top);
    add_file(&samples.three, &samples.m);
}

int main(int count, char **words) {
    if (count != 3) {
        fprintf(stderr, "usage: interface FILE LISTING\n");
        return 2;
    }
    read_bytes(&samples.m, words[1]);
    read_bytes(&samples.listing, words[2]);
    write_four(&samples.four, &samples.m);
    write_top(&samples.top, &samples.m);
    write_media();
    situation("before any call");
    test_lent_memory();
    end_at_bad_touch();
    test_header();
    run_all("slices end at inaccessible memory", BEHIND);
    run_all("slices begin at inaccessible memory", AHEAD);
    situation("slices of no entries");
    test_empty_slices(&samples);
    return finish();
}
