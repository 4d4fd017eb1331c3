/* The store as the host programs keep it, behind functions: store.c is the one
   file of host/serve that knows how ridge.h lays out a store, and how a store
   is laid out in bytes. */
#ifndef RIDGE_STORE_H
#define RIDGE_STORE_H

#include <stddef.h>
#include <stdint.h>

#include "ridge.h"

enum {
    /* The layout of a store in bytes that store_pack writes. */
    STORE_LAYOUT = 3,
    /* Enough for either format. */
    STORE_SENSE_BYTES = RIDGE_DESCRIPTOR_SENSE_BYTES,
    STORE_HEAD_BYTES = 16,
    STORE_RECORD_BYTES = 160,
    STORE_ATTENTION_BYTES = 16,
    STORE_BYTES_MOST = STORE_HEAD_BYTES + STORE_RECORD_BYTES +
                       STORE_ATTENTION_BYTES +
                       (8 + RIDGE_BLOCK_BYTES) * RIDGE_SLOTS
};

struct store {
    uint64_t format; /* of its sense, enum ridge_format */
    struct ridge_unit unit;
    uint64_t owners[RIDGE_SLOTS];
    struct ridge_marks marks;
    uint8_t medium[RIDGE_SLOTS * RIDGE_BLOCK_BYTES];
    size_t slots;
};

/* One command and the buffers lent to it. `returned`, `sense_bytes` and what
   lies in data_in and sense afterwards are the store's. */
struct store_call {
    uint64_t nexus;
    const uint8_t *cdb, *data_out;
    uint8_t *data_in;
    size_t cdb_bytes, data_out_bytes, data_in_bytes;
    uint8_t sense[STORE_SENSE_BYTES];
    size_t sense_bytes; /* that the answer comes with */
    uint64_t returned;
};

/* Gives 1 exactly if format and bounds are good; else nothing is made. */
int store_fresh(struct store *store, uint64_t capacity, uint64_t format,
                uint64_t slots);

/* Gives the answer number. */
uint64_t store_execute(struct store *store, struct store_call *call);

/* How many slots are free, and which is the lowest of them: that of the next new
   block, or the number of slots where none is free. */
struct store_room {
    uint64_t free_slots, lowest_free;
};

/* Gives the answer number; the room is told on GOOD alone. It is the library
   that tells, so another answer says that the store is not in a valid state. */
uint64_t store_room(const struct store *store, struct store_room *room);

uint64_t store_capacity(const struct store *store);
uint64_t store_format(const struct store *store);
size_t store_slots(const struct store *store);
int store_same(const struct store *one, const struct store *other);

/* Writes the store, at most STORE_BYTES_MOST bytes; gives how many. */
size_t store_pack(const struct store *store, uint8_t *bytes);

/* Reads a store in a layout. Gives NULL, or the reason why the bytes are none
   that the proved library would serve. */
const char *store_unpack(struct store *store, uint32_t layout,
                         const uint8_t *bytes, size_t count);

#endif
