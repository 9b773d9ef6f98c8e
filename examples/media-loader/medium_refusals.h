// The refusal numbers of dtaus_load_medium in words.
#ifndef MEDIUM_REFUSALS_H
#define MEDIUM_REFUSALS_H

#include <stdint.h>

const char *reason_of_medium(uint8_t number);

#endif
