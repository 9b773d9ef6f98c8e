// Writing an output that is there whole or not at all.
#ifndef OUTPUT_H
#define OUTPUT_H

#include <stdbool.h>
#include <stdio.h>

// An output that is being written, under a temporary name beside its own. Faults of writing stay in
// the stream, where end_output sees them.
struct output {
    const char *name;
    char *temporary;
    FILE *stream;
};

// False where the output cannot be written; errno then says why, and there is nothing to end.
bool begin_output(const char *name, struct output *output);

// False where the output could not be written; errno then says why, and an earlier output of that
// name is as it was.
bool end_output(struct output *output);

#endif
