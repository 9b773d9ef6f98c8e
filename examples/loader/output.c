// Writes an output under a temporary name beside it, and renames it once it is whole and on the
// disk.
#define _POSIX_C_SOURCE 200809L

#include "output.h"

#include <errno.h>
#include <stdlib.h>
#include <string.h>
#include <sys/stat.h>
#include <unistd.h>

// The name of a file that is not there yet, in the same folder: a rename cannot leave the file
// system.
static char *temporary_name(const char *name) {
    static const char ending[] = ".XXXXXX";
    char *temporary = malloc(strlen(name) + sizeof ending);
    if (temporary != NULL) {
        strcpy(temporary, name);
        strcat(temporary, ending);
    }
    return temporary;
}

// A rename replaces whatever has the name, also a device or a link: only a file may be
// replaced.
static bool may_be_replaced(const char *name) {
    struct stat status;
    if (lstat(name, &status) != 0) {
        return errno == ENOENT;
    }
    errno = EEXIST;
    return S_ISREG(status.st_mode);
}

// Closes the stream, whatever has gone wrong with it before.
static bool finish(FILE *stream) {
    bool done = fflush(stream) == 0 && !ferror(stream) && fsync(fileno(stream)) == 0;
    int reason = errno;
    if (fclose(stream) != 0 && done) {
        return false;
    }
    errno = reason;
    return done;
}

// The temporary file is its owner's alone: it gets the mode of any new file.
static bool give_mode(int descriptor) {
    mode_t kept_back = umask(0);
    umask(kept_back);
    return fchmod(descriptor, 0666 & ~kept_back) == 0;
}

// The stream of a new file of that name; NULL where there is none, and then no such file either.
static FILE *open_temporary(char *temporary) {
    int descriptor = mkstemp(temporary);
    if (descriptor < 0) {
        return NULL;
    }
    FILE *stream = give_mode(descriptor) ? fdopen(descriptor, "wb") : NULL;
    if (stream == NULL) {
        int reason = errno;
        close(descriptor);
        unlink(temporary);
        errno = reason;
    }
    return stream;
}

bool begin_output(const char *name, struct output *output) {
    if (!may_be_replaced(name)) {
        return false;
    }
    output->name = name;
    output->temporary = temporary_name(name);
    if (output->temporary == NULL) {
        return false;
    }
    output->stream = open_temporary(output->temporary);
    if (output->stream == NULL) {
        int reason = errno;
        free(output->temporary);
        errno = reason;
        return false;
    }
    return true;
}

bool end_output(struct output *output) {
    bool done = finish(output->stream) && rename(output->temporary, output->name) == 0;
    int reason = errno;
    if (!done) {
        unlink(output->temporary);
    }
    free(output->temporary);
    errno = reason;
    return done;
}
