/* A command as iSCSI carries it to the store, and what it carries back. The test
   through iSCSI (through.c) sends orders (sessions.c) and knows what outcome is
   due (due.c). */
#ifndef RIDGE_CARRIED_H
#define RIDGE_CARRIED_H

#include <stddef.h>
#include <stdint.h>

#include "../differential/generate.h"

enum {
    /* What a command's header has room for, and libiscsi fills. */
    CARRIED_CDB_BYTES = 16
};

enum direction { DIRECTION_NONE, DIRECTION_IN, DIRECTION_OUT, DIRECTIONS };

/* What was moved, beside what the initiator expected. */
enum residual { RESIDUAL_NONE, RESIDUAL_UNDERFLOW, RESIDUAL_OVERFLOW, RESIDUALS };

struct order {
    uint8_t cdb[CARRIED_CDB_BYTES];
    enum direction direction;
    uint32_t expected;       /* bytes in that direction, at most DATA_ROOM */
    const uint8_t *data_out; /* so many, where the direction is out */
};

struct outcome {
    uint32_t status;
    size_t sense_bytes, data_bytes;
    enum residual residual;
    uint64_t residual_bytes;
    uint8_t sense[SENSE_ROOM], data[DATA_ROOM];
};

#endif
