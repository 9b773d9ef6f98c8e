// The rows as a script for SQLite's shell.
#ifndef SQL_SCRIPT_H
#define SQL_SCRIPT_H

#include "rows.h"

write_tables write_sql_script;

#endif
