// The times of both sides on one input.
#ifndef TIMING_H
#define TIMING_H

#include "sides.h"
#include <stdbool.h>

// The best time of a call in nanoseconds, and how much of it the processor worked for it.
struct best {
    double took;
    double worked;
};

struct times {
    struct best ours[CALLS];
    struct best plain[CALLS];
};

// Makes each call on both sides in turn, so many rounds. False where a call refuses.
bool measure(const struct work *work, int rounds, struct times *times);

#endif
