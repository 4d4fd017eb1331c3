/* What an initiator must be told of a command (due.h). */
#include "due.h"

#include <string.h>

#include "../differential/sense.h"
#include "../second/second.h"

enum {
    GOOD = 0x00,
    CHECK_CONDITION = 0x02,
    RESERVATION_CONFLICT = 0x18,
    ILLEGAL_REQUEST = 0x05,
    HARDWARE_ERROR = 0x04,
    INTERNAL_TARGET_FAILURE = 0x4400,
    INVALID_FIELD_IN_INFORMATION_UNIT = 0x0E03,
    /* Room for the most that any command returns: data-in is never short. */
    LENT = RIDGE_TRANSFER_BLOCKS * RIDGE_BLOCK_BYTES
};

static uint64_t number(const uint8_t *bytes, size_t count)
{
    uint64_t value = 0;
    for (size_t byte = 0; byte < count; byte++)
        value = value * 256 + bytes[byte];
    return value;
}

/* SAM: group 0 has 6 bytes, 1 and 2 have 10, 4 has 16 and 5 has 12. In the others
   nothing is listed; 7Fh counts its bytes behind the eighth. */
static size_t cdb_bytes(const uint8_t *cdb)
{
    size_t counted = (size_t)cdb[7] + 8;
    if (cdb[0] < 0x20)
        return 6;
    if (cdb[0] < 0x60)
        return 10;
    if (cdb[0] >= 0xA0 && cdb[0] < 0xC0)
        return 12;
    return cdb[0] == 0x7F && counted < CARRIED_CDB_BYTES ? counted
                                                         : CARRIED_CDB_BYTES;
}

/* Bytes of data-out that the CDB asks for; 0 of commands that take none. */
static uint64_t data_out_asked(const uint8_t *cdb)
{
    if (cdb[0] == 0x2A)
        return number(cdb + 7, 2) * 512;
    if (cdb[0] == 0x8A)
        return number(cdb + 10, 4) * 512;
    if (cdb[0] == 0x93)
        return (cdb[1] & 0x01) == 0 ? 512 : 0;
    if (cdb[0] == 0x42)
        return number(cdb + 7, 2);
    if (cdb[0] == 0x5F)
        return number(cdb + 5, 4);
    return 0;
}

/* Sense that is the target's own is fixed, whatever the store's format. */
static void put_sense(struct outcome *outcome, uint8_t key, uint16_t codes)
{
    outcome->status = CHECK_CONDITION;
    outcome->sense_bytes = RIDGE_SENSE_BYTES;
    memset(outcome->sense, 0, RIDGE_SENSE_BYTES);
    outcome->sense[0] = 0x70;
    outcome->sense[2] = key;
    outcome->sense[7] = 0x0A;
    outcome->sense[12] = (uint8_t)(codes >> 8);
    outcome->sense[13] = (uint8_t)codes;
}

/* The sense bytes of the other answers are there already. */
static void put_status(struct outcome *outcome, uint64_t format,
                       uint64_t answer)
{
    switch (answer) {
    case RIDGE_GOOD:
        outcome->status = GOOD;
        break;
    case RIDGE_CONFLICT:
        outcome->status = RESERVATION_CONFLICT;
        break;
    case RIDGE_UNUSABLE:
        put_sense(outcome, HARDWARE_ERROR, INTERNAL_TARGET_FAILURE);
        break;
    case RIDGE_BUFFER_SHORT:
        put_sense(outcome, ILLEGAL_REQUEST, INVALID_FIELD_IN_INFORMATION_UNIT);
        break;
    default:
        outcome->status = CHECK_CONDITION;
        outcome->sense_bytes = sense_written(format, answer);
        break;
    }
}

/* A refusal moves nothing; of a command that sent too little the count says how
   much is missing. Without a direction there is no count. */
static void put_residual(const struct order *order, struct due *due)
{
    struct outcome *outcome = &due->outcome;
    bool asks =
        due->answer == RIDGE_GOOD || due->answer == RIDGE_BUFFER_SHORT;
    uint64_t moved = asks ? data_out_asked(order->cdb) : 0;
    if (order->direction == DIRECTION_IN)
        moved = due->returned;
    outcome->residual = RESIDUAL_NONE;
    outcome->residual_bytes = 0;
    if (order->direction == DIRECTION_NONE || moved == order->expected)
        return;
    if (moved < order->expected) {
        outcome->residual = RESIDUAL_UNDERFLOW;
        outcome->residual_bytes = order->expected - moved;
    } else {
        outcome->residual = RESIDUAL_OVERFLOW;
        outcome->residual_bytes = moved - order->expected;
    }
}

static void put_data(const struct order *order, struct due *due)
{
    uint64_t room =
        order->direction == DIRECTION_IN ? order->expected : 0;
    due->outcome.data_bytes =
        (size_t)(due->returned < room ? due->returned : room);
}

void due_of_command(struct store *store, uint64_t nexus,
                    const struct order *order, struct due *due)
{
    static const uint8_t nothing[1];
    bool out = order->direction == DIRECTION_OUT;
    due->cdb_bytes = cdb_bytes(order->cdb);
    due->answer = second_execute(
        store->format, &store->unit, store->owners, store->slots,
        &store->marks, store->medium, store->slots * RIDGE_BLOCK_BYTES, nexus,
        order->cdb, due->cdb_bytes, out ? order->data_out : nothing,
        out ? order->expected : 0, due->outcome.data, LENT, due->outcome.sense,
        sizeof due->outcome.sense, &due->returned);
    due->outcome.sense_bytes = 0;
    put_status(&due->outcome, store->format, due->answer);
    put_data(order, due);
    put_residual(order, due);
}

void due_of_stranger(uint16_t codes, const struct order *order,
                     struct due *due)
{
    due->cdb_bytes = 0;
    due->returned = 0;
    due->answer = RIDGE_UNUSABLE;
    put_sense(&due->outcome, ILLEGAL_REQUEST, codes);
    put_data(order, due);
    put_residual(order, due);
}
