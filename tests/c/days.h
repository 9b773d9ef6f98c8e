// Days of creation and of execution that do not go together, for files and listings alike.
#ifndef DAYS_H
#define DAYS_H

#include <stdint.h>

// A7 and A11b, and the refusal at A11b that they lead to.
struct days {
    const char *creation;
    const char *execution;
    uint8_t number;
    const char *what;
};

#define WRONG_DAYS 17
extern const struct days wrong_days[WRONG_DAYS];

// An A7 that is no day: it is refused itself, whatever A11b is.
#define NO_CREATION "290203"

#endif
