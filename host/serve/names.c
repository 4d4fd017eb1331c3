/* Words for operation codes, answers and formats (names.h). They decide nothing:
   what a command is and does is the store's to say. */
#include "names.h"

#include "ridge.h"

/* 9Eh is several commands. */
static const char *name_of_action(const uint8_t *cdb, size_t cdb_bytes)
{
    if (cdb_bytes < 2)
        return "another command";
    switch (cdb[1] & 0x1F) {
    case 0x10: return "READ CAPACITY(16)";
    case 0x12: return "GET LBA STATUS";
    default: return "another command";
    }
}

const char *name_of_command(const uint8_t *cdb, size_t cdb_bytes)
{
    if (cdb_bytes == 0)
        return "no command";
    switch (cdb[0]) {
    case 0x00: return "TEST UNIT READY";
    case 0x12: return "INQUIRY";
    case 0x25: return "READ CAPACITY(10)";
    case 0x28: return "READ(10)";
    case 0x2A: return "WRITE(10)";
    case 0x42: return "UNMAP";
    case 0x5E: return "PERSISTENT RESERVE IN";
    case 0x5F: return "PERSISTENT RESERVE OUT";
    case 0x88: return "READ(16)";
    case 0x8A: return "WRITE(16)";
    case 0x93: return "WRITE SAME(16)";
    case 0x9E: return name_of_action(cdb, cdb_bytes);
    default: return "another command";
    }
}

const char *name_of_answer(uint64_t answer)
{
    switch (answer) {
    case RIDGE_GOOD: return "GOOD";
    case RIDGE_CODE_NOT_LISTED: return "operation code not listed";
    case RIDGE_CDB_FIELD: return "a field of the CDB";
    case RIDGE_ADDRESS_RANGE: return "address out of range";
    case RIDGE_LIST_LENGTH: return "parameter list length";
    case RIDGE_LIST_FIELD: return "a field of the parameter list";
    case RIDGE_PLACES_USED: return "all registration places used";
    case RIDGE_RELEASE_TYPE: return "release of another type";
    case RIDGE_POOL_FULL: return "no room in the pool";
    case RIDGE_CONFLICT: return "reservation conflict";
    case RIDGE_UNUSABLE: return "unusable call";
    case RIDGE_BUFFER_SHORT: return "a buffer too short";
    case RIDGE_ATTENTION: return "an attention was waiting";
    default: return "no answer of the table";
    }
}

const char *name_of_format(uint64_t format)
{
    switch (format) {
    case RIDGE_FIXED: return "fixed";
    case RIDGE_DESCRIPTOR: return "descriptor";
    default: return "no format of sense";
    }
}
