/*
 * occasions.c - what calls came to; occasions.h says what for. What is right
 * does not stand here: of answers it is only asked that there were such, with
 * such a call before them.
 */

#include "occasions.h"

#include <string.h>

#include "sense.h"

/* What an INQUIRY of one kind came to: of the standard data, or of a page that
   is listed. */
enum {
    TOLD_WHOLE,
    TOLD_JUST_ALLOCATED,
    TOLD_BY_HIGH_BYTE,
    TOLD_BUT_A_BYTE,
    TOLD_ABOVE_4_BYTES,
    TOLD_4_BYTES,
    TOLD_BELOW_4_BYTES,
    TOLD_NOTHING,
    TOLD_JUST_THE_ROOM,
    TOLD_MORE_ROOM,
    TOLD_CUT_JUST_THE_ROOM,
    TOLD_ONE_SHORT,
    TOLD_CUT_ONE_SHORT,
    TOLD_IGNORED_BITS,
    TOLD_NACA,
    TOLD_SHUT_OUT,
    TOLD_OCCASIONS
};

/* Of so many fields, those that are wrong together make one of so many sets. */
enum { SETS_OF_2 = 3, SETS_OF_3 = 7, SETS_OF_4 = 15 };

/* After the sets: one bit of WRPROTECT or RDPROTECT alone, by rising bit. */
enum {
    TRANSFER_BIT = SETS_OF_3,
    TRANSFER_OCCASIONS = TRANSFER_BIT + 3,
    SAME_BIT = SETS_OF_4,
    SAME_OCCASIONS = SAME_BIT + 3
};

/* Answers 0 to 8 and 10 to 13. */
enum { ANSWERS = 13 };

/* Addresses that are told, in rising order: the first three have room in four
   bytes, and capacities end before the last. */
enum {
    AT_0,
    BELOW_LAST_OF_4,
    AT_LAST_OF_4,
    AT_FIRST_PAST_4,
    PAST_4,
    FROM_TOP_BIT,
    ADDRESSES_OF_4 = AT_FIRST_PAST_4,
    ADDRESSES_WITHIN = FROM_TOP_BIT,
    ADDRESSES
};

/* Which descriptors of an UNMAP fail. */
enum {
    FAILS_ALONE,
    FAILS_FIRST,
    FAILS_BETWEEN,
    FAILS_LAST,
    FAILS_AS_16TH,
    SEVERAL_FAIL_FROM_FIRST,
    SEVERAL_FAIL_FROM_LATER,
    LOWER_FAILS_BEHIND,
    HIGHER_FAILS_BEHIND,
    FAILS_WITH_COUNT_0,
    FAILS_BY_COUNT,
    FAILS_UNCONSIDERED,
    FAILING_OCCASIONS
};

/* So many bytes of sense, and less or more. */
enum { SENSE_LESS, SENSE_17, SENSE_21 = SENSE_17 + 4, SENSE_MORE, SENSE_SIZES };

/* What sense comes to in a store of one format. A GET LBA STATUS at 0 is never
   out of range, and CDBs of ten bytes have four for the address. */
enum {
    ANSWERED,
    READ_10_RANGE = ANSWERED + ANSWERS,
    READ_16_RANGE = READ_10_RANGE + ADDRESSES_OF_4,
    WRITE_10_RANGE = READ_16_RANGE + ADDRESSES,
    WRITE_16_RANGE = WRITE_10_RANGE + ADDRESSES_OF_4,
    SAME_RANGE = WRITE_16_RANGE + ADDRESSES,
    UNMAP_RANGE = SAME_RANGE + ADDRESSES,
    STATUS_RANGE = UNMAP_RANGE + ADDRESSES - 1,
    WRITE_10_FULL = STATUS_RANGE + ADDRESSES,
    WRITE_16_FULL = WRITE_10_FULL + ADDRESSES_OF_4,
    SAME_FULL = WRITE_16_FULL + ADDRESSES_WITHIN,
    FAILING = SAME_FULL + ADDRESSES_WITHIN,
    SENSE_SIZE = FAILING + FAILING_OCCASIONS,
    LEFT_BY_CDB = SENSE_SIZE + SENSE_SIZES,
    LEFT_BY_LIST = LEFT_BY_CDB + ANSWERS,
    LEFT_BY_ADDRESS = LEFT_BY_LIST + ANSWERS,
    MADE_FRESH = LEFT_BY_ADDRESS + ANSWERS,
    FORMAT_OCCASIONS
};

/* Numbers that are no format; cut to so many bits some of them are one. */
enum {
    FORMAT_0,
    FORMAT_1,
    FORMAT_2,
    FORMAT_6FH,
    FORMAT_71H,
    FORMAT_73H,
    FORMAT_F0H,
    FORMAT_F2H,
    FORMAT_OF_8_BITS,
    FORMAT_OF_16_BITS,
    FORMAT_OF_32_BITS,
    FORMAT_LAST,
    FORMAT_OTHER,
    WRONG_FORMATS
};

enum {
    SAME_UNMAPS_BY_DATA,
    SAME_UNMAPS_BY_NDOB,
    SAME_UNMAPS_WITHOUT_ROOM,
    SAME_UNMAPS_128,
    SAME_WRITES_BLOCK,
    SAME_WRITES_BLOCK_WITH_UNMAP,
    SAME_WRITES_ZEROS,
    SAME_WRITES_NDOB,
    SAME_WRITES_128,
    SAME_FIRST_BYTE,
    SAME_LAST_BYTE,
    SAME_BYTE_BETWEEN,
    SAME_BYTES_BEHIND,
    SAME_IGNORED_BITS,
    SAME_NDOB_SHORT,
    SAME_TO_THE_END,
    SAME_ROOM_ENOUGH,
    SAME_ROOM_ONE_SHORT,
    SAME_COUNT_0,
    SAME_COUNT_129,
    SAME_WRPROTECT,
    SAME_ANCHOR,
    SAME_ANCHOR_WITH_UNMAP,
    SAME_PAST_THE_END,
    SAME_WRAPS,
    SAME_SHORT_UNMAPPING,
    SAME_SHORT_WRITING,
    STATUS_EMPTY,
    STATUS_FULL,
    STATUS_LAST_MAPPED,
    STATUS_INSIDE_MAPPED,
    STATUS_INSIDE_UNMAPPED,
    STATUS_31_RUNS,
    STATUS_32_RUNS,
    STATUS_MORE_RUNS,
    STATUS_CAPPED,
    STATUS_CAPPED_BY_ONE,
    STATUS_FULL_WIDTH,
    STATUS_BELOW_WIDTH,
    STATUS_LAST_BLOCK,
    STATUS_AT_CAPACITY,
    STATUS_PAST_CAPACITY,
    STATUS_CUT,
    STATUS_ONE_SHORT,
    ACTION_BESIDE,
    STANDARD_DATA,
    PAGE_00H = STANDARD_DATA + TOLD_OCCASIONS,
    PAGE_B0H = PAGE_00H + TOLD_OCCASIONS,
    PAGE_B2H = PAGE_B0H + TOLD_OCCASIONS,
    PAGE_01H_REFUSED = PAGE_B2H + TOLD_OCCASIONS,
    PAGE_AFH_REFUSED,
    PAGE_B1H_REFUSED,
    PAGE_B3H_REFUSED,
    PAGE_80H_REFUSED,
    PAGE_83H_REFUSED,
    PAGE_B4H_REFUSED,
    PAGE_FFH_REFUSED,
    PAGE_OTHER_REFUSED,
    PAGE_REFUSED_BY_ONE_BIT,
    PAGE_REFUSED_ALLOCATION_0,
    PAGE_REFUSED_WITHOUT_ROOM,
    PAGE_REFUSED_SHUT_OUT,
    CODE_B0H_REFUSED,
    CODE_B2H_REFUSED,
    CODE_OTHER_REFUSED,
    CODE_REFUSED_OTHER_BITS,
    TEST_UNIT_READY_NACA,
    READ_CAPACITY_10_NACA,
    READ_CAPACITY_16_NACA,
    STATUS_NACA,
    RESERVE_IN_NACA,
    CLEAR_NACA,
    ACTION_OF_9EH,
    ACTION_OF_9EH_NACA,
    ACTION_OF_5EH,
    ACTION_OF_5EH_NACA,
    STANDARD_FIELDS,
    PAGE_FIELDS = STANDARD_FIELDS + SETS_OF_2,
    READ_10_FIELDS = PAGE_FIELDS + SETS_OF_2,
    READ_16_FIELDS = READ_10_FIELDS + TRANSFER_OCCASIONS,
    WRITE_10_FIELDS = READ_16_FIELDS + TRANSFER_OCCASIONS,
    WRITE_16_FIELDS = WRITE_10_FIELDS + TRANSFER_OCCASIONS,
    SAME_FIELDS = WRITE_16_FIELDS + TRANSFER_OCCASIONS,
    UNMAP_FIELDS = SAME_FIELDS + SAME_OCCASIONS,
    UNMAP_OTHER_BITS = UNMAP_FIELDS + SETS_OF_2,
    UNMAP_16,
    UNMAP_17_NAMED,
    UNMAP_17_LENT,
    UNMAP_17_REFUSED,
    UNMAP_MORE_REFUSED,
    UNMAP_17_BEFORE_RANGE,
    RESERVE_FIELDS,
    RELEASE_FIELDS = RESERVE_FIELDS + SETS_OF_3,
    PREEMPT_FIELDS = RELEASE_FIELDS + SETS_OF_3,
    ACTION_FIELDS = PREEMPT_FIELDS + SETS_OF_3,
    ACTION_ALONE = ACTION_FIELDS + SETS_OF_3,
    ACTION_BEFORE_LENGTH,
    SCOPE_BEFORE_LENGTH,
    TYPE_BEFORE_LENGTH,
    SCOPE_BIT,
    TYPE_0 = SCOPE_BIT + 4,
    TYPE_2,
    TYPE_4,
    TYPE_ABOVE_8,
    TYPE_OF_REGISTER,
    TYPE_OF_CLEAR,
    TYPE_OF_REGISTER_AND_IGNORE,
    REGISTER_FLAGS,
    IGNORE_FLAGS = REGISTER_FLAGS + SETS_OF_3,
    FLAGS_NACA = IGNORE_FLAGS + SETS_OF_3,
    FLAGS_BEFORE_KEY,
    FLAGS_BIT_1,
    FLAGS_BITS_7_TO_4,
    FLAGS_OF_RESERVE,
    FLAGS_OF_RELEASE,
    FLAGS_OF_CLEAR,
    FLAGS_OF_PREEMPT,
    ZERO_KEY,
    ZERO_KEY_WITH_FLAGS,
    IN_FIXED,
    IN_DESCRIPTOR = IN_FIXED + FORMAT_OCCASIONS,
    WRONG_AT_EXECUTE = IN_DESCRIPTOR + FORMAT_OCCASIONS,
    WRONG_AT_FRESH = WRONG_AT_EXECUTE + WRONG_FORMATS,
    LAST_OCCASION = WRONG_AT_FRESH + WRONG_FORMATS
};

_Static_assert((int)LAST_OCCASION == (int)OCCASIONS, "occasions.h has as many");

#define TOLD_NAMES(what)                                           \
    what " whole",                                                 \
    what " whole, by an allocation of just its length",            \
    what " whole, by the high byte of the allocation",             \
    what " cut by a byte",                                         \
    what " cut by more, above 4 bytes",                            \
    what " cut to 4 bytes",                                        \
    what " cut below 4 bytes",                                     \
    what " good with allocation 0",                                \
    what " whole with just the room",                              \
    what " whole with a byte more of room",                        \
    what " cut, with just the room",                               \
    what " refused for a byte too few",                            \
    what " refused for a byte too few of what the allocation asks",\
    what " good with bits that are ignored",                       \
    what " refused for NACA",                                      \
    what " told to one that is shut out"

/* In the order of the sets: the first field counts 1, the next 2, 4, 8. */
#define SET(what, fields) what " refused for " fields
#define SETS_2(what, a, b) SET(what, a), SET(what, b), SET(what, a " and " b)
#define SETS_3(what, a, b, c)                                      \
    SETS_2(what, a, b),                                            \
    SET(what, c),                                                  \
    SET(what, a " and " c),                                        \
    SET(what, b " and " c),                                        \
    SET(what, a ", " b " and " c)
#define SETS_4(what, a, b, c, d)                                   \
    SETS_3(what, a, b, c),                                         \
    SET(what, d),                                                  \
    SET(what, a " and " d),                                        \
    SET(what, b " and " d),                                        \
    SET(what, a ", " b " and " d),                                 \
    SET(what, c " and " d),                                        \
    SET(what, a ", " c " and " d),                                 \
    SET(what, b ", " c " and " d),                                 \
    SET(what, a ", " b ", " c " and " d)

#define BITS(what)                                                 \
    SET(what, "bit 5 alone"),                                      \
    SET(what, "bit 6 alone"),                                      \
    SET(what, "bit 7 alone")

#define ANSWER_NAMES(what)                                         \
    "answer 0 " what, "answer 1 " what, "answer 2 " what,          \
    "answer 3 " what, "answer 4 " what, "answer 5 " what,          \
    "answer 6 " what, "answer 7 " what, "answer 8 " what,          \
    "answer 10 " what, "answer 11 " what, "answer 12 " what,       \
    "answer 13 " what

#define AT_OF_4(what)                                              \
    what " at 0",                                                  \
    what " below FFFF_FFFFh",                                      \
    what " at FFFF_FFFFh"
#define AT_WITHIN(what)                                            \
    AT_OF_4(what),                                                 \
    what " at 1_0000_0000h",                                       \
    what " above 1_0000_0000h"
#define AT_ANY(what) AT_WITHIN(what), what " from 2^63 on"

#define FAILING_NAMES(format)                                      \
    format "UNMAP whose one descriptor fails",                     \
    format "UNMAP of which the first alone fails",                 \
    format "UNMAP of which one between fails alone",               \
    format "UNMAP of which the last alone fails",                  \
    format "UNMAP of which the 16th alone fails",                  \
    format "UNMAP of which the first and others fail",             \
    format "UNMAP of which several fail, not the first",           \
    format "UNMAP where one of a lower address fails behind",      \
    format "UNMAP where one of a higher address fails behind",     \
    format "UNMAP where one fails with count 0",                   \
    format "UNMAP where one fails by its count alone",             \
    format "UNMAP good where one fails that is not considered"

#define SIZE_NAMES(format)                                         \
    format "less than 17 bytes of sense",                          \
    format "17 bytes of sense",                                    \
    format "18 bytes of sense",                                    \
    format "19 bytes of sense",                                    \
    format "20 bytes of sense",                                    \
    format "21 bytes of sense",                                    \
    format "more than 21 bytes of sense"

#define FORMAT_NAMES(format, in)                                   \
    ANSWER_NAMES(in),                                              \
    AT_OF_4(format "READ(10) out of range"),                       \
    AT_ANY(format "READ(16) out of range"),                        \
    AT_OF_4(format "WRITE(10) out of range"),                      \
    AT_ANY(format "WRITE(16) out of range"),                       \
    AT_ANY(format "WRITE SAME out of range"),                      \
    AT_ANY(format "UNMAP out of range"),                           \
    format "status out of range below FFFF_FFFFh",                 \
    format "status out of range at FFFF_FFFFh",                    \
    format "status out of range at 1_0000_0000h",                  \
    format "status out of range above 1_0000_0000h",               \
    format "status out of range from 2^63 on",                     \
    AT_OF_4(format "WRITE(10) out of room"),                       \
    AT_WITHIN(format "WRITE(16) out of room"),                     \
    AT_WITHIN(format "WRITE SAME out of room"),                    \
    FAILING_NAMES(format),                                         \
    SIZE_NAMES(format),                                            \
    ANSWER_NAMES(in " over the place of a CDB field"),             \
    ANSWER_NAMES(in " over the place of a list field"),            \
    ANSWER_NAMES(in " over an address"),                           \
    "a fresh store " in

#define WRONG_FORMAT_NAMES(by)                                     \
    "format 0 refused " by,                                        \
    "format 1 refused " by,                                        \
    "format 2 refused " by,                                        \
    "format 6Fh refused " by,                                      \
    "format 71h refused " by,                                      \
    "format 73h refused " by,                                      \
    "format F0h refused " by,                                      \
    "format F2h refused " by,                                      \
    "a format in 8 of its bits alone refused " by,                 \
    "a format in 16 of its bits alone refused " by,                \
    "a format in 32 of its bits alone refused " by,                \
    "format 2^64 - 1 refused " by,                                 \
    "another number for a format refused " by

static const char *const names[OCCASIONS] = {
    "WRITE SAME unmaps by a zero block",
    "WRITE SAME unmaps by NDOB",
    "WRITE SAME unmaps where a write has no room",
    "WRITE SAME unmaps 128 blocks",
    "WRITE SAME writes a block",
    "WRITE SAME writes a block though UNMAP is set",
    "WRITE SAME writes a zero block",
    "WRITE SAME writes zeros by NDOB",
    "WRITE SAME writes 128 blocks",
    "WRITE SAME with UNMAP, only the first byte not 0",
    "WRITE SAME with UNMAP, only the last byte not 0",
    "WRITE SAME with UNMAP, only a byte between not 0",
    "WRITE SAME unmaps, bytes behind the block not 0",
    "WRITE SAME good with bits that are ignored",
    "WRITE SAME good by NDOB with less than a block",
    "WRITE SAME good up to the last block",
    "WRITE SAME good with just the room",
    "WRITE SAME refused for a slot too few",
    "WRITE SAME refused for count 0",
    "WRITE SAME refused for count 129",
    "WRITE SAME refused for WRPROTECT",
    "WRITE SAME refused for ANCHOR",
    "WRITE SAME refused for ANCHOR with UNMAP",
    "WRITE SAME refused for the block past the end",
    "WRITE SAME refused where the sum wraps",
    "WRITE SAME refused for 511 bytes with UNMAP",
    "WRITE SAME refused for 511 bytes without UNMAP",
    "status of a store without blocks",
    "status of a store without gaps",
    "status with the last block mapped",
    "status from inside a mapped run",
    "status from inside an unmapped run",
    "status of 31 runs",
    "status of 32 runs up to the end",
    "status of 32 runs and more behind",
    "status with a capped run",
    "status with a run that is a block above the cap",
    "status with a run of FFFF_FFFFh blocks",
    "status with a run of FFFF_FFFEh blocks",
    "status of the last block",
    "status refused at the capacity",
    "status refused past the capacity",
    "status cut inside a descriptor",
    "status refused for a byte too few",
    "action 11h or 13h refused",
    TOLD_NAMES("standard data"),
    TOLD_NAMES("page 00h"),
    TOLD_NAMES("page B0h"),
    TOLD_NAMES("page B2h"),
    "page 01h refused",
    "page AFh refused",
    "page B1h refused",
    "page B3h refused",
    "page 80h refused",
    "page 83h refused",
    "page B4h refused",
    "page FFh refused",
    "page of another code refused",
    "page refused that one bit parts from a listed one",
    "page refused with allocation 0",
    "page refused with less room than any page wants",
    "page refused to one that is shut out",
    "page code B0h refused with bit 0 clear",
    "page code B2h refused with bit 0 clear",
    "another page code refused with bit 0 clear",
    "page code refused with bit 0 clear and others set",
    SET("TEST UNIT READY", "NACA"),
    SET("READ CAPACITY(10)", "NACA"),
    SET("READ CAPACITY(16)", "NACA"),
    SET("GET LBA STATUS", "NACA"),
    SET("RESERVE IN", "NACA"),
    SET("CLEAR", "NACA"),
    SET("9Eh", "its action"),
    SET("9Eh", "its action and NACA"),
    SET("5Eh", "its action"),
    SET("5Eh", "its action and NACA"),
    SETS_2("INQUIRY", "NACA", "its page code"),
    SETS_2("INQUIRY of a page", "NACA", "its page code"),
    SETS_3("READ(10)", "NACA", "RDPROTECT", "its count"),
    BITS("READ(10)"),
    SETS_3("READ(16)", "NACA", "RDPROTECT", "its count"),
    BITS("READ(16)"),
    SETS_3("WRITE(10)", "NACA", "WRPROTECT", "its count"),
    BITS("WRITE(10)"),
    SETS_3("WRITE(16)", "NACA", "WRPROTECT", "its count"),
    BITS("WRITE(16)"),
    SETS_4("WRITE SAME", "NACA", "WRPROTECT", "ANCHOR", "its count"),
    BITS("WRITE SAME"),
    SETS_2("UNMAP", "NACA", "ANCHOR"),
    "UNMAP good with bits that are ignored",
    "UNMAP good with 16 descriptors",
    "UNMAP good where 17 are named and the list holds 16",
    "UNMAP good where 16 are named and the list holds 17",
    "UNMAP refused for 17 descriptors",
    "UNMAP refused for more than 17 descriptors",
    "UNMAP refused for their number where one is out of range",
    SETS_3("RESERVE", "NACA", "its scope", "its type"),
    SETS_3("RELEASE", "NACA", "its scope", "its type"),
    SETS_3("PREEMPT", "NACA", "its scope", "its type"),
    SETS_3("5Fh of an action not listed", "it and NACA", "it and its scope",
           "it and its type"),
    "5Fh of an action not listed refused for it alone",
    "5Fh of an action not listed with a wrong list length",
    "a scope refused with a wrong list length",
    "a type refused with a wrong list length",
    SET("a scope", "bit 4 alone"),
    SET("a scope", "bit 5 alone"),
    SET("a scope", "bit 6 alone"),
    SET("a scope", "bit 7 alone"),
    "type 0 refused",
    "type 2 refused",
    "type 4 refused",
    "a type above 8 refused",
    "REGISTER good with another's scope or type",
    "CLEAR good with another's scope or type",
    "REGISTER AND IGNORE good with another's scope or type",
    SETS_3("REGISTER", "bit 3", "bit 2", "bit 0"),
    SETS_3("REGISTER AND IGNORE", "bit 3", "bit 2", "bit 0"),
    "flags and NACA refused",
    "flags refused with a wrong key",
    "REGISTER good with bit 1 beside the flags",
    "REGISTER good with bits 7 to 4 beside the flags",
    "RESERVE good with flags",
    "RELEASE good with flags",
    "CLEAR good with flags",
    "PREEMPT good with flags",
    "PREEMPT refused for the zero key",
    "PREEMPT refused for the zero key, with flags",
    FORMAT_NAMES("fixed: ", "in fixed format"),
    FORMAT_NAMES("descriptor: ", "in descriptor format"),
    WRONG_FORMAT_NAMES("by a call"),
    WRONG_FORMAT_NAMES("for a fresh store"),
};

static uint64_t number(const uint8_t *bytes, size_t count)
{
    uint64_t value = 0;

    while (count-- > 0)
        value = value << 8 | *bytes++;
    return value;
}

static bool is_mapped(const struct occasion *call, uint64_t address)
{
    for (size_t slot = 0; slot < call->slots; slot++) {
        if (call->owners[slot] == address + 1)
            return true;
    }
    return false;
}

static uint64_t mapped_blocks(const struct occasion *call)
{
    uint64_t count = 0;

    for (size_t slot = 0; slot < call->slots; slot++)
        count += call->owners[slot] != 0 ? 1 : 0;
    return count;
}

/* ---- WRITE SAME ---- */

struct same {
    uint64_t address;
    uint64_t count;
    uint8_t refused;   /* WRPROTECT and ANCHOR */
    bool unmap;
    bool ndob;
    bool zero;         /* all bytes of data-out's block are 0 */
    size_t not_0;      /* its first byte that is not, and its last; */
    size_t last_not_0; /* RIDGE_BLOCK_BYTES if there is none */
};

static void read_same(const struct occasion *call, struct same *same)
{
    size_t at = 0;

    same->address = number(call->cdb + 2, 8);
    same->count = number(call->cdb + 10, 4);
    same->refused = call->cdb[1] & 0xF0;
    same->unmap = (call->cdb[1] & 0x08) != 0;
    same->ndob = (call->cdb[1] & 0x01) != 0;
    same->not_0 = same->last_not_0 = RIDGE_BLOCK_BYTES;
    for (; at < RIDGE_BLOCK_BYTES && at < call->data_out_bytes; at++) {
        if (call->data_out[at] == 0)
            continue;
        if (same->not_0 == RIDGE_BLOCK_BYTES)
            same->not_0 = at;
        same->last_not_0 = at;
    }
    same->zero = same->not_0 == RIDGE_BLOCK_BYTES;
}

/* Of a range of 1 to 128 blocks within the capacity: the unmapped ones. */
static uint64_t blocks_wanted(const struct occasion *call,
                              const struct same *same)
{
    uint64_t wanted = 0;

    for (uint64_t index = 0; index < same->count; index++)
        wanted += is_mapped(call, same->address + index) ? 0 : 1;
    return wanted;
}

static void count_unmapping(const struct occasion *call,
                            const struct same *same, uint64_t *counts)
{
    uint64_t room = call->slots - mapped_blocks(call);
    size_t behind = RIDGE_BLOCK_BYTES;

    if (same->ndob)
        counts[SAME_UNMAPS_BY_NDOB]++;
    else
        counts[SAME_UNMAPS_BY_DATA]++;
    if (blocks_wanted(call, same) > room)
        counts[SAME_UNMAPS_WITHOUT_ROOM]++;
    if (same->count == 128)
        counts[SAME_UNMAPS_128]++;
    if (!same->ndob && call->data_out_bytes > behind &&
        call->data_out[behind] != 0)
        counts[SAME_BYTES_BEHIND]++;
}

static void count_writing(const struct occasion *call, const struct same *same,
                          uint64_t *counts)
{
    bool one_byte = !same->ndob && same->unmap &&
                    same->not_0 == same->last_not_0;

    if (same->ndob)
        counts[SAME_WRITES_NDOB]++;
    else if (same->zero)
        counts[SAME_WRITES_ZEROS]++;
    else if (same->unmap)
        counts[SAME_WRITES_BLOCK_WITH_UNMAP]++;
    else
        counts[SAME_WRITES_BLOCK]++;
    if (same->count == 128)
        counts[SAME_WRITES_128]++;
    if (one_byte && same->not_0 == 0)
        counts[SAME_FIRST_BYTE]++;
    else if (one_byte && same->not_0 == RIDGE_BLOCK_BYTES - 1)
        counts[SAME_LAST_BYTE]++;
    else if (one_byte)
        counts[SAME_BYTE_BETWEEN]++;
    if (blocks_wanted(call, same) == call->slots - mapped_blocks(call))
        counts[SAME_ROOM_ENOUGH]++;
}

static void count_good_same(const struct occasion *call,
                            const struct same *same, uint64_t *counts)
{
    if (same->unmap && (same->ndob || same->zero))
        count_unmapping(call, same, counts);
    else
        count_writing(call, same, counts);
    if ((call->cdb[1] & 0x06) != 0 && call->cdb[14] != 0)
        counts[SAME_IGNORED_BITS]++;
    if (same->ndob && call->data_out_bytes < RIDGE_BLOCK_BYTES)
        counts[SAME_NDOB_SHORT]++;
    if (same->address + same->count == call->unit->capacity)
        counts[SAME_TO_THE_END]++;
}

/* A field that is refused, with all others right. */
static void count_fields(const struct occasion *call, const struct same *same,
                         uint64_t *counts)
{
    bool count_right = same->count >= 1 && same->count <= 128;

    if ((call->cdb[15] & 0x04) != 0)
        return;
    if (same->refused == 0 && same->count == 0)
        counts[SAME_COUNT_0]++;
    if (same->refused == 0 && same->count == 129)
        counts[SAME_COUNT_129]++;
    if (count_right && same->refused == 0x10)
        counts[same->unmap ? SAME_ANCHOR_WITH_UNMAP : SAME_ANCHOR]++;
    if (count_right && same->refused != 0 && (same->refused & 0x10) == 0)
        counts[SAME_WRPROTECT]++;
}

static void count_same(const struct occasion *call, uint64_t *counts)
{
    uint64_t room = call->slots - mapped_blocks(call);
    struct same same;

    read_same(call, &same);
    if (call->answer == RIDGE_GOOD)
        count_good_same(call, &same, counts);
    if (call->answer == RIDGE_CDB_FIELD)
        count_fields(call, &same, counts);
    if (call->answer == RIDGE_ADDRESS_RANGE &&
        same.address + same.count == call->unit->capacity + 1)
        counts[SAME_PAST_THE_END]++;
    if (call->answer == RIDGE_ADDRESS_RANGE &&
        same.address + same.count < same.address)
        counts[SAME_WRAPS]++;
    if (call->answer == RIDGE_BUFFER_SHORT && call->data_out_bytes == 511)
        counts[same.unmap ? SAME_SHORT_UNMAPPING : SAME_SHORT_WRITING]++;
    if (call->answer == RIDGE_POOL_FULL &&
        blocks_wanted(call, &same) == room + 1)
        counts[SAME_ROOM_ONE_SHORT]++;
}

/* ---- GET LBA STATUS ---- */

/* One run as it was returned. */
struct told_run {
    uint64_t address;
    uint64_t count;
    uint8_t status;
};

static struct told_run told_run(const struct occasion *call, size_t index)
{
    const uint8_t *bytes = call->data_in + 8 + 16 * index;
    struct told_run run = {number(bytes, 8), number(bytes + 8, 4), bytes[12]};

    return run;
}

/* The run's width, and whether the next descriptor goes on with it. */
static void count_width(const struct occasion *call, size_t index, size_t runs,
                        uint64_t *counts)
{
    struct told_run run = told_run(call, index);
    struct told_run next = {0};
    bool ends = run.address + run.count == call->unit->capacity;

    if (index + 1 < runs) {
        next = told_run(call, index + 1);
        ends = next.status != run.status;
    }
    if (run.count == UINT32_MAX && !ends)
        counts[STATUS_CAPPED]++;
    if (run.count == UINT32_MAX && !ends && next.count == 1)
        counts[STATUS_CAPPED_BY_ONE]++;
    if (run.count == UINT32_MAX && ends)
        counts[STATUS_FULL_WIDTH]++;
    if (run.count == UINT32_MAX - 1 && ends)
        counts[STATUS_BELOW_WIDTH]++;
}

/* Of a list that was not cut. */
static void count_list(const struct occasion *call, size_t runs,
                       uint64_t *counts)
{
    struct told_run last = told_run(call, runs - 1);
    bool to_the_end = last.address + last.count == call->unit->capacity;

    for (size_t index = 0; index < runs; index++)
        count_width(call, index, runs, counts);
    if (to_the_end && last.status == 0)
        counts[STATUS_LAST_MAPPED]++;
    if (runs == RUNS_TOLD - 1)
        counts[STATUS_31_RUNS]++;
    if (runs == RUNS_TOLD)
        counts[to_the_end ? STATUS_32_RUNS : STATUS_MORE_RUNS]++;
}

static void count_good_status(const struct occasion *call, uint64_t start,
                              uint64_t *counts)
{
    bool mapped = is_mapped(call, start);
    uint64_t blocks = mapped_blocks(call);
    uint64_t runs = 0;

    if (blocks == 0)
        counts[STATUS_EMPTY]++;
    if (blocks == call->unit->capacity)
        counts[STATUS_FULL]++;
    if (start != 0 && is_mapped(call, start - 1) == mapped)
        counts[mapped ? STATUS_INSIDE_MAPPED : STATUS_INSIDE_UNMAPPED]++;
    if (start == call->unit->capacity - 1)
        counts[STATUS_LAST_BLOCK]++;
    if (call->returned >= 4)
        runs = (number(call->data_in, 4) - 4) / 16;
    if (runs != 0 && call->returned == 8 + 16 * runs)
        count_list(call, (size_t)runs, counts);
    else if (call->returned > 8 && call->returned % 16 != 8)
        counts[STATUS_CUT]++;
}

static void count_status(const struct occasion *call, uint64_t *counts)
{
    uint64_t start = number(call->cdb + 2, 8);

    if (call->answer == RIDGE_GOOD)
        count_good_status(call, start, counts);
    if (call->answer == RIDGE_ADDRESS_RANGE)
        counts[start == call->unit->capacity ? STATUS_AT_CAPACITY
                                             : STATUS_PAST_CAPACITY]++;
    if (call->answer == RIDGE_BUFFER_SHORT && call->data_in_bytes % 16 == 7)
        counts[STATUS_ONE_SHORT]++;
}

/* ---- INQUIRY ---- */

static uint64_t inquiry_allocation(const struct occasion *call)
{
    return number(call->cdb + 3, 2);
}

/* How much was told, of so many bytes. */
static void count_told_bytes(const struct occasion *call, uint64_t bytes,
                             uint64_t *counts)
{
    uint64_t allocation = inquiry_allocation(call);
    uint64_t told = call->returned;

    if (told == bytes && allocation > bytes)
        counts[TOLD_WHOLE]++;
    if (told == bytes && allocation == bytes)
        counts[TOLD_JUST_ALLOCATED]++;
    if (told == bytes && (allocation & 0xFF) < bytes)
        counts[TOLD_BY_HIGH_BYTE]++;
    if (told == bytes - 1)
        counts[TOLD_BUT_A_BYTE]++;
    if (told > 4 && told < bytes - 1)
        counts[TOLD_ABOVE_4_BYTES]++;
    if (told == 4)
        counts[TOLD_4_BYTES]++;
    if (told > 0 && told < 4)
        counts[TOLD_BELOW_4_BYTES]++;
    if (told == 0)
        counts[TOLD_NOTHING]++;
}

static void count_good_inquiry(const struct occasion *call, uint64_t bytes,
                               uint64_t *counts)
{
    bool whole = call->returned == bytes;

    count_told_bytes(call, bytes, counts);
    if (whole && call->data_in_bytes == bytes)
        counts[TOLD_JUST_THE_ROOM]++;
    if (whole && call->data_in_bytes == bytes + 1)
        counts[TOLD_MORE_ROOM]++;
    if (!whole && call->data_in_bytes == call->returned)
        counts[TOLD_CUT_JUST_THE_ROOM]++;
    if ((call->cdb[1] & 0xFE) != 0)
        counts[TOLD_IGNORED_BITS]++;
    if (is_shut_out(&call->unit->rights, call->nexus))
        counts[TOLD_SHUT_OUT]++;
}

/* Of the standard data or a listed page, which has so many bytes; the counts
   are those of its kind. */
static void count_told(const struct occasion *call, uint64_t bytes,
                       uint64_t *counts)
{
    uint64_t allocation = inquiry_allocation(call);
    bool cut = allocation < bytes;

    if (call->answer == RIDGE_GOOD)
        count_good_inquiry(call, bytes, counts);
    if (call->answer == RIDGE_CDB_FIELD && (call->cdb[5] & 0x04) != 0)
        counts[TOLD_NACA]++;
    if (call->answer == RIDGE_BUFFER_SHORT && !cut &&
        call->data_in_bytes == bytes - 1)
        counts[TOLD_ONE_SHORT]++;
    if (call->answer == RIDGE_BUFFER_SHORT && cut &&
        call->data_in_bytes == allocation - 1)
        counts[TOLD_CUT_ONE_SHORT]++;
}

static size_t refused_page(uint8_t code)
{
    static const struct {
        uint8_t code;
        size_t occasion;
    } pages[] = {
        {0x01, PAGE_01H_REFUSED}, {0xAF, PAGE_AFH_REFUSED},
        {0xB1, PAGE_B1H_REFUSED}, {0xB3, PAGE_B3H_REFUSED},
        {0x80, PAGE_80H_REFUSED}, {0x83, PAGE_83H_REFUSED},
        {0xB4, PAGE_B4H_REFUSED}, {0xFF, PAGE_FFH_REFUSED},
    };

    for (size_t index = 0; index < sizeof pages / sizeof *pages; index++) {
        if (pages[index].code == code)
            return pages[index].occasion;
    }
    return PAGE_OTHER_REFUSED;
}

static bool is_one_bit(unsigned bits)
{
    return bits != 0 && (bits & (bits - 1)) == 0;
}

/* The shortest page has 7 bytes: with less room, and more asked for, a library
   might say that first. */
static void count_refused_page(const struct occasion *call, uint64_t *counts)
{
    uint8_t code = call->cdb[2];
    uint64_t allocation = inquiry_allocation(call);

    counts[refused_page(code)]++;
    if (is_one_bit(code) || is_one_bit(code ^ 0xB0u) ||
        is_one_bit(code ^ 0xB2u))
        counts[PAGE_REFUSED_BY_ONE_BIT]++;
    if (allocation == 0)
        counts[PAGE_REFUSED_ALLOCATION_0]++;
    if (call->data_in_bytes < allocation && call->data_in_bytes < 7)
        counts[PAGE_REFUSED_WITHOUT_ROOM]++;
    if (is_shut_out(&call->unit->rights, call->nexus))
        counts[PAGE_REFUSED_SHUT_OUT]++;
}

/* Of a page code where no page is asked for. */
static void count_refused_code(const struct occasion *call, uint64_t *counts)
{
    uint8_t code = call->cdb[2];

    counts[code == 0xB0   ? CODE_B0H_REFUSED
           : code == 0xB2 ? CODE_B2H_REFUSED
                          : CODE_OTHER_REFUSED]++;
    if (call->cdb[1] != 0)
        counts[CODE_REFUSED_OTHER_BITS]++;
}

/* Where the counts of a listed page begin. */
static size_t listed_page(uint8_t code)
{
    switch (code) {
    case 0x00:
        return PAGE_00H;
    case 0xB0:
        return PAGE_B0H;
    default:
        return PAGE_B2H;
    }
}

/* A refusal of the page or of its code is told only where NACA is clear. */
static void count_inquiry(const struct occasion *call, uint64_t *counts)
{
    uint64_t bytes = inquiry_bytes(call->cdb);
    bool of_page = (call->cdb[1] & 0x01) != 0;
    bool field = call->answer == RIDGE_CDB_FIELD && (call->cdb[5] & 0x04) == 0;

    if (of_page && bytes != 0)
        count_told(call, bytes, counts + listed_page(call->cdb[2]));
    else if (!of_page && call->cdb[2] == 0)
        count_told(call, bytes, counts + STANDARD_DATA);
    else if (of_page && field)
        count_refused_page(call, counts);
    else if (field)
        count_refused_code(call, counts);
}

/* ---- Fields that are wrong ---- */

static bool has_naca(const struct occasion *call)
{
    return (call->cdb[call->cdb_bytes - 1] & 0x04) != 0;
}

/* Nothing is counted where no field is wrong. */
static void count_set(unsigned set, uint64_t *counts)
{
    if (set != 0)
        counts[set - 1]++;
}

static unsigned set_of_3(bool first, bool second, bool third)
{
    return (first ? 1u : 0u) | (second ? 2u : 0u) | (third ? 4u : 0u);
}

/* A bit from `lowest` up that is the only one of its field. */
static void count_bit(unsigned bits, unsigned lowest, uint64_t *counts)
{
    if (is_one_bit(bits >> lowest)) {
        while ((bits >> lowest & 1) == 0) {
            bits >>= 1;
            counts++;
        }
        counts[0]++;
    }
}

static size_t first_of_transfer(uint8_t code)
{
    switch (code) {
    case 0x28:
        return READ_10_FIELDS;
    case 0x88:
        return READ_16_FIELDS;
    case 0x2A:
        return WRITE_10_FIELDS;
    default:
        return WRITE_16_FIELDS;
    }
}

static void count_transfer_fields(const struct occasion *call, uint64_t *counts)
{
    size_t first = first_of_transfer(call->cdb[0]);
    bool sixteen = call->cdb_bytes == 16;
    uint64_t count = sixteen ? number(call->cdb + 10, 4)
                             : number(call->cdb + 7, 2);
    unsigned protect = call->cdb[1] & 0xE0;
    unsigned set = set_of_3(has_naca(call), protect != 0, count > 128);

    count_set(set, counts + first);
    if (set == 2)
        count_bit(protect, 5, counts + first + TRANSFER_BIT);
}

static void count_same_fields(const struct occasion *call, uint64_t *counts)
{
    uint64_t count = number(call->cdb + 10, 4);
    unsigned protect = call->cdb[1] & 0xE0;
    unsigned set = set_of_3(has_naca(call), protect != 0,
                            (call->cdb[1] & 0x10) != 0);

    set |= count == 0 || count > 128 ? 8u : 0u;
    count_set(set, counts + SAME_FIELDS);
    if (set == 2)
        count_bit(protect, 5, counts + SAME_FIELDS + SAME_BIT);
}

static void count_inquiry_fields(const struct occasion *call, uint64_t *counts)
{
    bool of_page = (call->cdb[1] & 0x01) != 0;
    bool code = of_page ? inquiry_bytes(call->cdb) == 0 : call->cdb[2] != 0;

    count_set(set_of_3(has_naca(call), code, false),
              counts + (of_page ? PAGE_FIELDS : STANDARD_FIELDS));
}

/* Of 9Eh and 5Eh, where the action is the one field beside NACA. */
static void count_action(const struct occasion *call, bool listed, size_t naca,
                         size_t action, uint64_t *counts)
{
    if (listed)
        counts[naca]++;
    else
        counts[has_naca(call) ? action + 1 : action]++;
}

/* Where a field of RESERVE OUT was refused with a wrong list length too: it
   would be the next. */
static void count_before_length(const struct occasion *call, size_t field,
                                uint64_t *counts)
{
    if (!has_naca(call) && number(call->cdb + 5, 4) != 24)
        counts[field]++;
}

static bool is_type(uint8_t type)
{
    return type == 1 || type == 3 || (type >= 5 && type <= 8);
}

static void count_type(uint8_t type, uint64_t *counts)
{
    counts[type == 0   ? TYPE_0
           : type == 2 ? TYPE_2
           : type == 4 ? TYPE_4
                       : TYPE_ABOVE_8]++;
}

static void count_scope_and_type(const struct occasion *call, size_t first,
                                 uint64_t *counts)
{
    unsigned scope = call->cdb[2] & 0xF0;
    uint8_t type = call->cdb[2] & 0x0F;
    unsigned set = set_of_3(has_naca(call), scope != 0, !is_type(type));

    count_set(set, counts + first);
    if (first == ACTION_FIELDS)
        return;
    if (set == 2)
        count_bit(scope, 4, counts + SCOPE_BIT);
    if (set == 4)
        count_type(type, counts);
    count_before_length(call, scope != 0 ? SCOPE_BEFORE_LENGTH
                                         : TYPE_BEFORE_LENGTH, counts);
}

static bool has_flags(const struct occasion *call)
{
    return call->data_out_bytes > 20 && (call->data_out[20] & 0x0D) != 0;
}

static void count_reserve_out_fields(const struct occasion *call,
                                     uint64_t *counts)
{
    switch (call->cdb[1] & 0x1F) {
    case 0:
    case 6:
        if (has_flags(call))
            counts[FLAGS_NACA]++;
        break;
    case 1:
        count_scope_and_type(call, RESERVE_FIELDS, counts);
        break;
    case 2:
        count_scope_and_type(call, RELEASE_FIELDS, counts);
        break;
    case 3:
        counts[CLEAR_NACA]++;
        break;
    case 4:
        count_scope_and_type(call, PREEMPT_FIELDS, counts);
        break;
    default:
        count_scope_and_type(call, ACTION_FIELDS, counts);
        if (!has_naca(call) && is_type(call->cdb[2]))
            counts[ACTION_ALONE]++;
        count_before_length(call, ACTION_BEFORE_LENGTH, counts);
        break;
    }
}

static void count_action_9eh(const struct occasion *call, uint64_t *counts)
{
    uint8_t action = call->cdb[1] & 0x1F;

    count_action(call, action == 0x10 || action == 0x12,
                 action == 0x10 ? READ_CAPACITY_16_NACA : STATUS_NACA,
                 ACTION_OF_9EH, counts);
}

/* Of an answer 2, by command. */
static void count_cdb_fields(const struct occasion *call, uint64_t *counts)
{
    switch (call->cdb[0]) {
    case 0x00:
        counts[TEST_UNIT_READY_NACA]++;
        break;
    case 0x12:
        count_inquiry_fields(call, counts);
        break;
    case 0x25:
        counts[READ_CAPACITY_10_NACA]++;
        break;
    case 0x28:
    case 0x2A:
    case 0x88:
    case 0x8A:
        count_transfer_fields(call, counts);
        break;
    case 0x42:
        count_set(set_of_3(has_naca(call), (call->cdb[1] & 0x01) != 0, false),
                  counts + UNMAP_FIELDS);
        break;
    case 0x5E:
        count_action(call, (call->cdb[1] & 0x1F) < 2, RESERVE_IN_NACA,
                     ACTION_OF_5EH, counts);
        break;
    case 0x5F:
        count_reserve_out_fields(call, counts);
        break;
    case 0x93:
        count_same_fields(call, counts);
        break;
    default:
        count_action_9eh(call, counts);
        break;
    }
}

/* ---- Parameter lists ---- */

/* Of so many descriptors in the list, the first from there on that reaches past
   the end; their number if none does. */
static size_t next_failing(const struct occasion *call, size_t from,
                           size_t descriptors)
{
    return failing_descriptor(call->data_out, from, descriptors,
                              call->unit->capacity);
}

static void count_unmap(const struct occasion *call, uint64_t *counts)
{
    uint64_t length = number(call->cdb + 7, 2);
    uint64_t named, lent;

    if (call->answer == RIDGE_GOOD && (call->cdb[1] & 0xFE) != 0)
        counts[UNMAP_OTHER_BITS]++;
    if (length < 8 || call->data_out_bytes < length)
        return;
    named = number(call->data_out + 2, 2) / 16;
    lent = (length - 8) / 16;
    if (call->answer == RIDGE_GOOD && named == 16 && lent == 16)
        counts[UNMAP_16]++;
    if (call->answer == RIDGE_GOOD && named > 16 && lent == 16)
        counts[UNMAP_17_NAMED]++;
    if (call->answer == RIDGE_GOOD && named == 16 && lent > 16)
        counts[UNMAP_17_LENT]++;
    if (call->answer != RIDGE_LIST_FIELD)
        return;
    counts[named == 17 || lent == 17 ? UNMAP_17_REFUSED
                                     : UNMAP_MORE_REFUSED]++;
    if (next_failing(call, 0, RIDGE_DESCRIPTORS) != RIDGE_DESCRIPTORS)
        counts[UNMAP_17_BEFORE_RANGE]++;
}

/* Of REGISTER, and REGISTER AND IGNORE EXISTING KEY, whose flags count. */
static void count_register(const struct occasion *call, bool ignores,
                           uint64_t *counts)
{
    uint8_t flags = call->data_out[20];
    uint64_t key = number(call->data_out, 8);

    if (call->answer == RIDGE_LIST_FIELD) {
        count_set(set_of_3((flags & 8) != 0, (flags & 4) != 0,
                           (flags & 1) != 0),
                  counts + (ignores ? IGNORE_FLAGS : REGISTER_FLAGS));
        if (!ignores && key != key_of(&call->unit->rights, call->nexus))
            counts[FLAGS_BEFORE_KEY]++;
    }
    if (call->answer != RIDGE_GOOD)
        return;
    if ((flags & 0x02) != 0)
        counts[FLAGS_BIT_1]++;
    if ((flags & 0xF0) != 0)
        counts[FLAGS_BITS_7_TO_4]++;
    if (!is_type(call->cdb[2]))
        counts[ignores ? TYPE_OF_REGISTER_AND_IGNORE : TYPE_OF_REGISTER]++;
}

/* Of the other actions, whose flags do not. */
static void count_flags_ignored(const struct occasion *call, uint8_t action,
                                uint64_t *counts)
{
    bool flags = has_flags(call);

    if (call->answer == RIDGE_LIST_FIELD)
        counts[flags ? ZERO_KEY_WITH_FLAGS : ZERO_KEY]++;
    if (call->answer == RIDGE_GOOD && flags)
        counts[action == 1   ? FLAGS_OF_RESERVE
               : action == 2 ? FLAGS_OF_RELEASE
               : action == 3 ? FLAGS_OF_CLEAR
                             : FLAGS_OF_PREEMPT]++;
    if (call->answer == RIDGE_GOOD && action == 3 && !is_type(call->cdb[2]))
        counts[TYPE_OF_CLEAR]++;
}

/* The list of a RESERVE OUT tells only where it was looked at. */
static void count_reserve_out(const struct occasion *call, uint64_t *counts)
{
    uint8_t action = call->cdb[1] & 0x1F;

    if (call->answer != RIDGE_GOOD && call->answer != RIDGE_LIST_FIELD)
        return;
    if (action == 0 || action == 6)
        count_register(call, action == 6, counts);
    else
        count_flags_ignored(call, action, counts);
}

/* ---- Sense, in either format ---- */

static uint64_t *counts_of_format(uint64_t format, uint64_t *counts)
{
    return counts + (format == RIDGE_FIXED ? IN_FIXED : IN_DESCRIPTOR);
}

static size_t answer_index(const struct occasion *call)
{
    return (size_t)(call->answer < 9 ? call->answer : call->answer - 1);
}

/* What the sense buffer held: the place or the address of an earlier answer in
   the same format, which an answer with sense must cover as far as it writes,
   and one without must leave. */
static void count_left(const struct occasion *call, uint64_t *counts)
{
    size_t answer = answer_index(call);
    struct told left;

    if (call->sense_bytes < sense_wanted(call->format) ||
        !sense_read(call->format, call->sense, &left))
        return;
    if (left.has_place && left.codes[1] == 0x24)
        counts[LEFT_BY_CDB + answer]++;
    if (left.has_place && left.codes[1] == 0x26)
        counts[LEFT_BY_LIST + answer]++;
    if (left.has_address)
        counts[LEFT_BY_ADDRESS + answer]++;
}

/* Where sense is long enough, only answers that wrote to it tell. */
static void count_sense_size(const struct occasion *call, uint64_t *counts)
{
    size_t bytes = call->sense_bytes;
    bool refused = bytes < sense_wanted(call->format);

    if (!call->sound || (!refused && sense_written(call->format,
                                                   call->answer) == 0))
        return;
    counts[SENSE_SIZE + (bytes < 17   ? SENSE_LESS
                         : bytes > 21 ? SENSE_MORE
                                      : SENSE_17 + bytes - 17)]++;
}

static size_t kind_of_address(uint64_t address)
{
    if (address == 0)
        return AT_0;
    if (address < UINT32_MAX)
        return BELOW_LAST_OF_4;
    if (address == UINT32_MAX)
        return AT_LAST_OF_4;
    if (address == UINT64_C(1) << 32)
        return AT_FIRST_PAST_4;
    return address >> 63 == 0 ? PAST_4 : FROM_TOP_BIT;
}

static size_t count_from(uint8_t code, bool room)
{
    switch (code) {
    case 0x28:
        return READ_10_RANGE;
    case 0x88:
        return READ_16_RANGE;
    case 0x2A:
        return room ? WRITE_10_FULL : WRITE_10_RANGE;
    case 0x8A:
        return room ? WRITE_16_FULL : WRITE_16_RANGE;
    case 0x93:
        return room ? SAME_FULL : SAME_RANGE;
    case 0x42:
        return UNMAP_RANGE;
    default:
        return STATUS_RANGE;
    }
}

static uint64_t descriptor_address(const struct occasion *call, size_t index)
{
    return number(call->data_out + 8 + 16 * index, 8);
}

/* Of the descriptors that fail behind the first that does: how many, and
   whether their addresses are lower or higher. */
static size_t count_behind(const struct occasion *call, size_t first,
                           size_t considered, uint64_t *counts)
{
    uint64_t address = descriptor_address(call, first);
    size_t index = next_failing(call, first + 1, considered);
    bool lower = false;
    bool higher = false;
    size_t behind = 0;

    for (; index < considered; behind++) {
        lower |= descriptor_address(call, index) < address;
        higher |= descriptor_address(call, index) > address;
        index = next_failing(call, index + 1, considered);
    }
    counts[LOWER_FAILS_BEHIND] += lower ? 1 : 0;
    counts[HIGHER_FAILS_BEHIND] += higher ? 1 : 0;
    return behind;
}

/* Of an UNMAP out of range; the counts are those of its failing ones. */
static void count_failing(const struct occasion *call, size_t first,
                          size_t considered, uint64_t *counts)
{
    size_t behind = count_behind(call, first, considered, counts);
    uint64_t count = number(call->data_out + 8 + 16 * first + 8, 4);

    if (behind > 0)
        counts[first == 0 ? SEVERAL_FAIL_FROM_FIRST
                          : SEVERAL_FAIL_FROM_LATER]++;
    else if (considered == 1)
        counts[FAILS_ALONE]++;
    else if (first == 0)
        counts[FAILS_FIRST]++;
    else
        counts[first + 1 == considered ? FAILS_LAST : FAILS_BETWEEN]++;
    if (first + 1 == RIDGE_DESCRIPTORS)
        counts[FAILS_AS_16TH]++;
    if (count == 0)
        counts[FAILS_WITH_COUNT_0]++;
    if (descriptor_address(call, first) < call->unit->capacity)
        counts[FAILS_BY_COUNT]++;
}

/* The list of an UNMAP that was good, or out of range; the address that the
   latter is to tell. */
static uint64_t count_descriptors(const struct occasion *call, uint64_t *counts)
{
    uint64_t length = number(call->cdb + 7, 2);
    size_t lent = length < 8 ? 0 : (size_t)(length - 8) / 16;
    size_t considered = lent;
    size_t first;

    if (lent > 0 && number(call->data_out + 2, 2) / 16 < lent)
        considered = (size_t)number(call->data_out + 2, 2) / 16;
    first = next_failing(call, 0, lent);
    if (call->answer == RIDGE_GOOD && first < lent)
        counts[FAILS_UNCONSIDERED]++;
    if (call->answer == RIDGE_GOOD || first >= considered)
        return 0;
    count_failing(call, first, considered, counts);
    return descriptor_address(call, first);
}

/* Of an answer 3 or 8, or a good UNMAP. */
static void count_addresses(const struct occasion *call, uint64_t *counts)
{
    bool room = call->answer == RIDGE_POOL_FULL;
    uint64_t address = number(call->cdb + 2, call->cdb_bytes == 16 ? 8 : 4);

    if (call->cdb[0] == 0x42)
        address = count_descriptors(call, counts + FAILING);
    if (call->answer != RIDGE_GOOD)
        counts[count_from(call->cdb[0], room) + kind_of_address(address)]++;
}

static void count_format(const struct occasion *call, uint64_t *counts)
{
    counts[ANSWERED + answer_index(call)]++;
    count_left(call, counts);
    count_sense_size(call, counts);
    switch (call->answer) {
    case RIDGE_GOOD:
        if (call->cdb[0] == 0x42)
            count_addresses(call, counts);
        break;
    case RIDGE_ADDRESS_RANGE:
    case RIDGE_POOL_FULL:
        count_addresses(call, counts);
        break;
    default:
        break;
    }
}

static size_t kind_of_wrong_format(uint64_t format)
{
    static const struct {
        uint64_t format;
        size_t kind;
    } kinds[] = {
        {0, FORMAT_0},       {1, FORMAT_1},       {2, FORMAT_2},
        {0x6F, FORMAT_6FH},  {0x71, FORMAT_71H},  {0x73, FORMAT_73H},
        {0xF0, FORMAT_F0H},  {0xF2, FORMAT_F2H},  {UINT64_MAX, FORMAT_LAST},
    };

    for (size_t index = 0; index < sizeof kinds / sizeof *kinds; index++) {
        if (kinds[index].format == format)
            return kinds[index].kind;
    }
    if (is_format((uint32_t)format))
        return FORMAT_OF_32_BITS;
    if (is_format((uint16_t)format))
        return FORMAT_OF_16_BITS;
    return is_format((uint8_t)format) ? FORMAT_OF_8_BITS : FORMAT_OTHER;
}

void occasions_count_fresh(uint64_t format, uint64_t answer,
                           uint64_t counts[OCCASIONS])
{
    if (!is_format(format))
        counts[WRONG_AT_FRESH + kind_of_wrong_format(format)]++;
    else if (answer == RIDGE_GOOD)
        counts_of_format(format, counts)[MADE_FRESH]++;
}

/* Of an answer 11 nothing else tells, the state may be invalid; nor of 13, for
   which the call is not looked at. With any other but 1 the CDB has as many
   bytes as its code wants. */
void occasions_count(const struct occasion *call, uint64_t counts[OCCASIONS])
{
    uint8_t action = call->cdb[1] & 0x1F;

    if (is_format(call->format))
        count_format(call, counts_of_format(call->format, counts));
    else if (call->sound && call->sense_bytes >= RIDGE_DESCRIPTOR_SENSE_BYTES)
        counts[WRONG_AT_EXECUTE + kind_of_wrong_format(call->format)]++;
    if (call->answer == RIDGE_UNUSABLE || call->answer == RIDGE_ATTENTION ||
        call->answer == RIDGE_CODE_NOT_LISTED)
        return;
    if (call->answer == RIDGE_CDB_FIELD)
        count_cdb_fields(call, counts);
    if (call->cdb[0] == 0x42)
        count_unmap(call, counts);
    if (call->cdb[0] == 0x5F)
        count_reserve_out(call, counts);
    if (call->cdb[0] == 0x12)
        count_inquiry(call, counts);
    else if (call->cdb[0] == 0x93)
        count_same(call, counts);
    else if (call->cdb[0] == 0x9E && action == 0x12)
        count_status(call, counts);
    else if (call->cdb[0] == 0x9E && (action == 0x11 || action == 0x13) &&
             call->answer == RIDGE_CDB_FIELD)
        counts[ACTION_BESIDE]++;
}

const char *occasion_name(size_t occasion)
{
    return names[occasion];
}
