// The rows as a stream for PostgreSQL's COPY .. WITH (FORMAT BINARY).
#ifndef COPY_BINARY_H
#define COPY_BINARY_H

#include "payments.h"

write_rows write_copy_binary;

#endif
