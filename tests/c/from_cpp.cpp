// The nine functions as C++ sees them by the header: their names must be those of the library.
#include "dtaus.h"

// A second time, as it happens in a program of many headers.
#include "dtaus.h"

// Without this a compiler may leave a constant out that nothing here reads, and the names with it.
extern const void *const functions[9];

const void *const functions[9] = {
    reinterpret_cast<const void *>(dtaus_version),
    reinterpret_cast<const void *>(dtaus_check),
    reinterpret_cast<const void *>(dtaus_load),
    reinterpret_cast<const void *>(dtaus_check_medium),
    reinterpret_cast<const void *>(dtaus_load_medium),
    reinterpret_cast<const void *>(dtaus_list),
    reinterpret_cast<const void *>(dtaus_compose),
    reinterpret_cast<const void *>(dtaus_find),
    reinterpret_cast<const void *>(dtaus_text),
};
