// What is lent to a call: columns and an output, in memory that is there or ends the program.
#ifndef LENT_H
#define LENT_H

#include "sides.h"

void *allocate(size_t bytes);

// Lends columns and an output of this room, all of them filled with the same byte, so that every
// page of them is there.
void lend(struct work *work, struct room room);

void take_back(struct work *work);

#endif
