/* What an initiator must be told of a command: the second program's answer
   (host/second), as the module is to put it into iSCSI's words. It knows of the
   module nothing but what its comments promise. */
#ifndef RIDGE_DUE_H
#define RIDGE_DUE_H

#include <stdbool.h>

#include "carried.h"

struct due {
    uint64_t answer;   /* RIDGE_UNUSABLE where the store is not asked */
    uint64_t returned; /* by the store, before it is cut to what is expected */
    size_t cdb_bytes;  /* of those carried, the command's */
    struct outcome outcome;
};

/* Runs the command on the store, which changes. */
void due_of_command(struct store *store, uint64_t nexus,
                    const struct order *order, struct due *due);

/* Of an initiator that is no nexus: CHECK CONDITION with the sense key 5 and
   these codes. */
void due_of_stranger(uint16_t codes, const struct order *order,
                     struct due *due);

#endif
