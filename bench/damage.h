// Whether both sides give the same on inputs that are not right.
#ifndef DAMAGE_H
#define DAMAGE_H

#include <stdbool.h>

// Damaged copies of a small file, of its listing and of a small medium, copies with other days of
// creation and of execution, the medium with sections taken out or repeated, and one of each with a
// payment beyond the most cents. Prints how many there were and which numbers they met.
bool agree_on_damage(void);

#endif
