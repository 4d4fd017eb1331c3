/* Words for operation codes, answers and formats of sense, for what the server
   tells a person and is told by one. */
#ifndef RIDGE_NAMES_H
#define RIDGE_NAMES_H

#include <stddef.h>
#include <stdint.h>

const char *name_of_command(const uint8_t *cdb, size_t cdb_bytes);
const char *name_of_answer(uint64_t answer);
const char *name_of_format(uint64_t format);

#endif
