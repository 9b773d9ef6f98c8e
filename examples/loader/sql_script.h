// The rows as a script for SQLite's shell.
#ifndef SQL_SCRIPT_H
#define SQL_SCRIPT_H

#include "payments.h"

write_rows write_sql_script;

#endif
