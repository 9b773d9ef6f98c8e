// The rows as a script for PostgreSQL's shell.
#ifndef COPY_SCRIPT_H
#define COPY_SCRIPT_H

#include "rows.h"

write_tables write_copy_script;

#endif
