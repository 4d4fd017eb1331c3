/* Lengths that stand in the CDB (transfer.h). */
#include "transfer.h"

#include "numbers.h"
#include "ridge.h"

enum {
    WRITE_10 = 0x2A,
    UNMAP = 0x42,
    PERSISTENT_RESERVE_OUT = 0x5F,
    VARIABLE_LENGTH = 0x7F,
    WRITE_16 = 0x8A,
    WRITE_SAME_16 = 0x93,
    NO_DATA_OUT_BIT = 1,
    /* Of a CDB of variable length: its bytes before those that it counts. */
    VARIABLE_HEAD_BYTES = 8
};

/* iSCSI carries 16 bytes, or more with a header segment for them. The group of
   the operation code, its three highest bits, tells how many count; where it
   does not, all do. */
size_t transfer_cdb_bytes(const uint8_t *cdb, size_t carried)
{
    static const uint8_t by_group[8] = {6, 10, 10, 0, 16, 12, 0, 0};
    size_t count = by_group[cdb[0] >> 5];
    if (cdb[0] == VARIABLE_LENGTH)
        count = VARIABLE_HEAD_BYTES + (size_t)cdb[VARIABLE_HEAD_BYTES - 1];
    return count == 0 || count > carried ? carried : count;
}

uint64_t transfer_data_out_bytes(const uint8_t *cdb)
{
    switch (cdb[0]) {
    case WRITE_10:
        return number_at(cdb + 7, 2) * RIDGE_BLOCK_BYTES;
    case WRITE_16:
        return number_at(cdb + 10, 4) * RIDGE_BLOCK_BYTES;
    case WRITE_SAME_16:
        return cdb[1] & NO_DATA_OUT_BIT ? 0 : RIDGE_BLOCK_BYTES;
    case UNMAP:
        return number_at(cdb + 7, 2);
    case PERSISTENT_RESERVE_OUT:
        return number_at(cdb + 5, 4);
    default:
        return 0;
    }
}
