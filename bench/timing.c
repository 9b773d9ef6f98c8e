// The times of both sides on one input.
#define _POSIX_C_SOURCE 200809L
#include "timing.h"
#include <float.h>
#include <time.h>

static double clock_now(clockid_t clock) {
    struct timespec time;
    clock_gettime(clock, &time);
    return time.tv_sec * 1e9 + time.tv_nsec;
}

// Makes the call, and keeps its time where it is the best so far.
static bool keep_best(const struct side *side, enum call call, const struct work *work,
                      struct best *best) {
    uint64_t result[FIGURES];
    double work_began = clock_now(CLOCK_PROCESS_CPUTIME_ID);
    double began = clock_now(CLOCK_MONOTONIC);
    uint8_t number = make_call(side, call, work, result);
    double took = clock_now(CLOCK_MONOTONIC) - began;
    double worked = clock_now(CLOCK_PROCESS_CPUTIME_ID) - work_began;
    if (took < best->took)
        *best = (struct best){took, worked};
    return number == 0;
}

bool measure(const struct work *work, int rounds, struct times *times) {
    bool accepted = true;
    for (enum call call = 0; call < CALLS; call++)
        times->ours[call] = times->plain[call] = (struct best){DBL_MAX, 0};
    for (int round = 0; round < rounds; round++)
        for (enum call call = 0; call < CALLS; call++) {
            // Each side goes first in every second round, so that neither always finds the input in
            // the cache.
            if (round % 2 == 0)
                accepted &= keep_best(&ours, call, work, &times->ours[call]);
            accepted &= keep_best(&plain, call, work, &times->plain[call]);
            if (round % 2 != 0)
                accepted &= keep_best(&ours, call, work, &times->ours[call]);
        }
    return accepted;
}
