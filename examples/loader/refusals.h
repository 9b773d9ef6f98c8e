// The refusal numbers in words.
#ifndef REFUSALS_H
#define REFUSALS_H

#include <stdint.h>

const char *reason(uint8_t number);

#endif
