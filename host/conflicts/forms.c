#include "forms.h"

/* The address and count of these calls fit into the last byte of their fields. */
#define MOVE_10(code, at, blocks) \
    .cdb_bytes = 10, .cdb = {code, [5] = at, [8] = blocks}
#define MOVE_16(code, at, blocks) \
    .cdb_bytes = 16, .cdb = {code, [9] = at, [13] = blocks}
#define WRITES(blocks) .sends = BLOCKS, .data_out_bytes = (blocks)*RIDGE_BLOCK_BYTES
#define ZEROS .sends = NOTHING, .data_out_bytes = RIDGE_BLOCK_BYTES
#define SAME(flags, at, blocks) \
    .cdb_bytes = 16, .cdb = {0x93, flags, [9] = at, [13] = blocks}
#define STATUS(at, allocation)    \
    .cdb_bytes = 16,              \
    .cdb = {0x9E, 0x12, [9] = at, \
            [12] = (allocation) >> 8, (allocation)&0xFF}
#define UNMAPS(number, at, bytes)                                       \
    .sends = DESCRIPTORS, .descriptors = number, .address = at,         \
    .data_out_bytes = bytes, .cdb_bytes = 10,                           \
    .cdb = {0x42, [7] = (bytes) >> 8, (bytes)&0xFF}
#define ACTION(number)                                                  \
    .sends = KEYS, .data_out_bytes = LIST_BYTES, .cdb_bytes = 10,       \
    .cdb = {0x5F, number, [8] = LIST_BYTES}
#define FAULT(number) .rule = LATER, .answer = number
#define AT_ONCE(number) .rule = ALWAYS, .answer = number
#define KNOWN (HOLDS | REGISTERED)

/* It has its code from READ CAPACITY(16), and the action tells them apart. The
   bits above the action's are ignored. */
static const struct form status[] = {
    {"GET LBA STATUS, mapped", STATUS(MAPPED, STATUS_BYTES)},
    {"GET LBA STATUS, unmapped", STATUS(UNMAPPED, STATUS_BYTES)},
    {"GET LBA STATUS, the last block", STATUS(CAPACITY - 1, STATUS_BYTES)},
    {"GET LBA STATUS, cut", STATUS(0, 24)},
    {"GET LBA STATUS, allocation length 0", STATUS(MAPPED, 0)},
    {"GET LBA STATUS, upper bits of byte 1", .cdb_bytes = 16,
     .cdb = {0x9E, 0xF2, [9] = MAPPED, [13] = 24}},
    {"GET LBA STATUS, start at the end", FAULT(RIDGE_ADDRESS_RANGE),
     STATUS(CAPACITY, STATUS_BYTES)},
    {"GET LBA STATUS, start past the end", FAULT(RIDGE_ADDRESS_RANGE),
     STATUS(CAPACITY + 1, 0)},
    {"GET LBA STATUS, short data-in", FAULT(RIDGE_BUFFER_SHORT),
     .data_in_bytes = 23, STATUS(MAPPED, 24)},
};

static const struct form inquiry[] = {
    {"INQUIRY", .cdb_bytes = 6, .cdb = {0x12, [4] = 36}},
    {"INQUIRY, allocation length 0", .cdb_bytes = 6, .cdb = {0x12}},
    {"INQUIRY, short data-in", FAULT(RIDGE_BUFFER_SHORT), .data_in_bytes = 35,
     .cdb_bytes = 6, .cdb = {0x12, [4] = 36}},
    {"INQUIRY, page 00h", .cdb_bytes = 6, .cdb = {0x12, 1, 0x00, [4] = 64}},
    {"INQUIRY, page B0h", .cdb_bytes = 6, .cdb = {0x12, 1, 0xB0, [4] = 64}},
    {"INQUIRY, page B2h", .cdb_bytes = 6, .cdb = {0x12, 1, 0xB2, [4] = 64}},
    {"INQUIRY, page B0h, short data-in", FAULT(RIDGE_BUFFER_SHORT),
     .data_in_bytes = 63, .cdb_bytes = 6, .cdb = {0x12, 1, 0xB0, [4] = 64}},
    {"INQUIRY, a page that is not listed", AT_ONCE(RIDGE_CDB_FIELD),
     .cdb_bytes = 6, .cdb = {0x12, 1, 0xB1, [4] = 64}},
    {"INQUIRY, a page code alone", AT_ONCE(RIDGE_CDB_FIELD), .cdb_bytes = 6,
     .cdb = {0x12, 0, 0xB0, [4] = 64}},
};

static const struct form reserve_in[] = {
    {"READ KEYS", .cdb_bytes = 10, .cdb = {0x5E, 0, [7] = 1}},
    {"READ RESERVATION", .cdb_bytes = 10, .cdb = {0x5E, 1, [7] = 1}},
    {"READ KEYS, short data-in", FAULT(RIDGE_BUFFER_SHORT), .data_in_bytes = 7,
     .cdb_bytes = 10, .cdb = {0x5E, 0, [7] = 1}},
    {"an action that is not listed", AT_ONCE(RIDGE_CDB_FIELD), .cdb_bytes = 10,
     .cdb = {0x5E, 2, [7] = 1}},
};

/* PERSISTENT RESERVE OUT is no row of conflicts, but its actions have conflicts
   of their own: those come last. */
static const struct form reserve_out[] = {
    {"REGISTER AND IGNORE EXISTING KEY, a new key", ACTION(6), .action_key = NEW},
    {"REGISTER AND IGNORE EXISTING KEY, the key 0", ACTION(6)},
    {"REGISTER, a new key", ACTION(0), .key = RIGHT, .action_key = NEW},
    {"REGISTER, the key 0", ACTION(0), .key = RIGHT},
    {"RESERVE, the first", ACTION(1), .key = OWN, .named = STANDING_TYPE,
     .who = REGISTERED, .reservation = NO_RESERVATION},
    {"RESERVE again", ACTION(1), .key = OWN, .named = STANDING_TYPE, .who = HOLDS},
    {"RELEASE", ACTION(2), .key = OWN, .named = STANDING_TYPE, .who = KNOWN},
    {"RELEASE of another type", ACTION(2), .key = OWN, .named = OTHER_TYPE,
     .who = REGISTERED},
    {"CLEAR", ACTION(3), .key = OWN, .who = KNOWN},
    {"PREEMPT of the other's key", ACTION(4), .key = OWN, .action_key = OTHERS,
     .named = OTHER_TYPE, .who = KNOWN},
    {"PREEMPT of its own key", ACTION(4), .key = OWN, .action_key = OWN,
     .named = STANDING_TYPE, .who = KNOWN},
    {"PREEMPT of the key 0", ACTION(4), .key = OWN, .named = OTHER_TYPE,
     .who = HOLDS, .reservation = ALL_HOLD},
    {"REGISTER with a wrong key", AT_ONCE(RIDGE_CONFLICT), ACTION(0),
     .key = NOBODYS, .action_key = NEW},
    {"RESERVE, not registered", AT_ONCE(RIDGE_CONFLICT), ACTION(1),
     .named = STANDING_TYPE, .who = UNREGISTERED},
    {"RELEASE, not registered", AT_ONCE(RIDGE_CONFLICT), ACTION(2),
     .named = STANDING_TYPE, .who = UNREGISTERED},
    {"CLEAR, not registered", AT_ONCE(RIDGE_CONFLICT), ACTION(3),
     .key = OTHERS, .who = UNREGISTERED},
    {"PREEMPT, not registered", AT_ONCE(RIDGE_CONFLICT), ACTION(4),
     .key = OTHERS, .action_key = OTHERS, .named = STANDING_TYPE,
     .who = UNREGISTERED},
    {"CLEAR with a wrong key", AT_ONCE(RIDGE_CONFLICT), ACTION(3),
     .key = NOBODYS, .who = KNOWN},
    {"RESERVE against a reservation", AT_ONCE(RIDGE_CONFLICT), ACTION(1),
     .key = OWN, .named = STANDING_TYPE, .who = REGISTERED,
     .reservation = ONE_HOLDS | ALL_HOLD},
    {"RESERVE of another type by a holder", AT_ONCE(RIDGE_CONFLICT), ACTION(1),
     .key = OWN, .named = OTHER_TYPE, .who = HOLDS},
    {"PREEMPT of a key that nobody has", AT_ONCE(RIDGE_CONFLICT), ACTION(4),
     .key = OWN, .action_key = NOBODYS, .named = STANDING_TYPE, .who = KNOWN},
    {"PREEMPT of the key 0", AT_ONCE(RIDGE_LIST_FIELD), ACTION(4), .key = OWN,
     .named = STANDING_TYPE, .who = KNOWN,
     .reservation = NO_RESERVATION | ONE_HOLDS},
    {"RELEASE of another type by a holder", AT_ONCE(RIDGE_RELEASE_TYPE),
     ACTION(2), .key = OWN, .named = OTHER_TYPE, .who = HOLDS},
};

static const struct form reading[] = {
    {"READ(10), mapped", MOVE_10(0x28, MAPPED, 2)},
    {"READ(10), unmapped", MOVE_10(0x28, UNMAPPED, 1)},
    {"READ(10), count 0", MOVE_10(0x28, MAPPED, 0)},
    {"READ(16), mapped", MOVE_16(0x88, MAPPED, 2)},
    {"READ(16), unmapped", MOVE_16(0x88, UNMAPPED, 1)},
    {"READ(16), count 0", MOVE_16(0x88, CAPACITY, 0)},
    {"READ(10), past the end", FAULT(RIDGE_ADDRESS_RANGE),
     MOVE_10(0x28, CAPACITY, 1)},
    {"READ(16), past the end", FAULT(RIDGE_ADDRESS_RANGE),
     MOVE_16(0x88, CAPACITY, 1)},
    {"READ(10), count 0 past the end", FAULT(RIDGE_ADDRESS_RANGE),
     MOVE_10(0x28, CAPACITY + 1, 0)},
    {"READ(10), short data-in", FAULT(RIDGE_BUFFER_SHORT), .data_in_bytes = 511,
     MOVE_10(0x28, MAPPED, 1)},
    {"READ(16), short data-in", FAULT(RIDGE_BUFFER_SHORT), .data_in_bytes = 511,
     MOVE_16(0x88, MAPPED, 1)},
    {"READ(10), 129 blocks", AT_ONCE(RIDGE_CDB_FIELD), MOVE_10(0x28, MAPPED, 129)},
    {"READ(16), RDPROTECT", AT_ONCE(RIDGE_CDB_FIELD), .cdb_bytes = 16,
     .cdb = {0x88, 0x20, [9] = MAPPED, [13] = 1}},
};

static const struct form capacity[] = {
    {"READ CAPACITY(10)", .cdb_bytes = 10, .cdb = {0x25}},
    {"READ CAPACITY(16)", .cdb_bytes = 16, .cdb = {0x9E, 0x10, [13] = 32}},
    {"READ CAPACITY(10), short data-in", FAULT(RIDGE_BUFFER_SHORT),
     .data_in_bytes = 7, .cdb_bytes = 10, .cdb = {0x25}},
    {"READ CAPACITY(16), short data-in", FAULT(RIDGE_BUFFER_SHORT),
     .data_in_bytes = 31, .cdb_bytes = 16, .cdb = {0x9E, 0x10, [13] = 32}},
};

static const struct form test_ready[] = {
    {"TEST UNIT READY", .cdb_bytes = 6, .cdb = {0}},
};

static const struct form unmapping[] = {
    {"UNMAP, mapped", UNMAPS(1, MAPPED, 24)},
    {"UNMAP, unmapped", UNMAPS(1, UNMAPPED, 24)},
    {"UNMAP, 16 descriptors", UNMAPS(16, MAPPED, 264)},
    {"UNMAP, no descriptor", UNMAPS(0, 0, 8)},
    {"UNMAP, list length 0", UNMAPS(0, 0, 0)},
    {"UNMAP, list length 7", FAULT(RIDGE_LIST_LENGTH), UNMAPS(0, 0, 7)},
    {"UNMAP, short data-out", FAULT(RIDGE_BUFFER_SHORT), .sends = DESCRIPTORS,
     .data_out_bytes = 23, .cdb_bytes = 10, .cdb = {0x42, [8] = 24}},
    {"UNMAP, 17 descriptors", FAULT(RIDGE_LIST_FIELD), UNMAPS(17, MAPPED, 280)},
    {"UNMAP, past the end", FAULT(RIDGE_ADDRESS_RANGE), UNMAPS(1, CAPACITY, 24)},
    {"UNMAP, ANCHOR", AT_ONCE(RIDGE_CDB_FIELD), .cdb_bytes = 10,
     .cdb = {0x42, 1}},
};

static const struct form writing[] = {
    {"WRITE(10), mapped", WRITES(2), MOVE_10(0x2A, MAPPED, 2)},
    {"WRITE(10), new", WRITES(1), MOVE_10(0x2A, UNMAPPED, 1)},
    {"WRITE(10), count 0", MOVE_10(0x2A, MAPPED, 0)},
    {"WRITE(16), mapped", WRITES(2), MOVE_16(0x8A, MAPPED, 2)},
    {"WRITE(16), new", WRITES(1), MOVE_16(0x8A, UNMAPPED, 1)},
    {"WRITE(16), count 0", MOVE_16(0x8A, CAPACITY, 0)},
    {"WRITE(10), past the end", FAULT(RIDGE_ADDRESS_RANGE), WRITES(1),
     MOVE_10(0x2A, CAPACITY, 1)},
    {"WRITE(16), past the end", FAULT(RIDGE_ADDRESS_RANGE), WRITES(1),
     MOVE_16(0x8A, CAPACITY, 1)},
    {"WRITE(10), short data-out", FAULT(RIDGE_BUFFER_SHORT), .sends = BLOCKS,
     .data_out_bytes = 511, MOVE_10(0x2A, MAPPED, 1)},
    {"WRITE(16), short data-out", FAULT(RIDGE_BUFFER_SHORT), .sends = BLOCKS,
     .data_out_bytes = 511, MOVE_16(0x8A, MAPPED, 1)},
    {"WRITE(10), no room", FAULT(RIDGE_POOL_FULL), WRITES(2),
     MOVE_10(0x2A, UNMAPPED, 2)},
    {"WRITE(16), no room", FAULT(RIDGE_POOL_FULL), WRITES(2),
     MOVE_16(0x8A, UNMAPPED, 2)},
    {"WRITE(10), WRPROTECT", AT_ONCE(RIDGE_CDB_FIELD), WRITES(1),
     .cdb_bytes = 10, .cdb = {0x2A, 0x20, [5] = MAPPED, [8] = 1}},
    {"WRITE(16), 129 blocks", AT_ONCE(RIDGE_CDB_FIELD), WRITES(2),
     MOVE_16(0x8A, MAPPED, 129)},
};

/* Of byte 1. */
enum { WRPROTECT = 0x20, ANCHOR = 0x10, UNMAP = 0x08, NDOB = 0x01 };

static const struct form writing_same[] = {
    {"WRITE SAME(16), mapped", WRITES(1), SAME(0, MAPPED, 2)},
    {"WRITE SAME(16), new", WRITES(1), SAME(0, UNMAPPED, 1)},
    {"WRITE SAME(16), NDOB", SAME(NDOB, MAPPED, 2)},
    {"WRITE SAME(16), UNMAP and zeros", ZEROS, SAME(UNMAP, MAPPED, 2)},
    {"WRITE SAME(16), UNMAP and zeros, unmapped", ZEROS,
     SAME(UNMAP, UNMAPPED, 40)},
    {"WRITE SAME(16), UNMAP and NDOB", SAME(UNMAP | NDOB, MAPPED, 2)},
    {"WRITE SAME(16), UNMAP and a pattern", WRITES(1), SAME(UNMAP, MAPPED, 2)},
    {"WRITE SAME(16), past the end", FAULT(RIDGE_ADDRESS_RANGE), WRITES(1),
     SAME(0, CAPACITY, 1)},
    {"WRITE SAME(16), UNMAP past the end", FAULT(RIDGE_ADDRESS_RANGE), ZEROS,
     SAME(UNMAP, CAPACITY - 1, 2)},
    {"WRITE SAME(16), short data-out", FAULT(RIDGE_BUFFER_SHORT),
     .sends = BLOCKS, .data_out_bytes = 511, SAME(0, MAPPED, 1)},
    {"WRITE SAME(16), UNMAP, short data-out", FAULT(RIDGE_BUFFER_SHORT),
     .data_out_bytes = 511, SAME(UNMAP, MAPPED, 1)},
    {"WRITE SAME(16), no room", FAULT(RIDGE_POOL_FULL), WRITES(1),
     SAME(0, UNMAPPED, 2)},
    {"WRITE SAME(16), zeros, no room", FAULT(RIDGE_POOL_FULL), ZEROS,
     SAME(0, UNMAPPED, 2)},
    {"WRITE SAME(16), NDOB, no room", FAULT(RIDGE_POOL_FULL),
     SAME(NDOB, UNMAPPED, 2)},
    {"WRITE SAME(16), UNMAP and a pattern, no room", FAULT(RIDGE_POOL_FULL),
     WRITES(1), SAME(UNMAP, UNMAPPED, 2)},
    {"WRITE SAME(16), WRPROTECT", AT_ONCE(RIDGE_CDB_FIELD), WRITES(1),
     SAME(WRPROTECT, MAPPED, 1)},
    {"WRITE SAME(16), ANCHOR", AT_ONCE(RIDGE_CDB_FIELD), WRITES(1),
     SAME(ANCHOR, MAPPED, 1)},
    {"WRITE SAME(16), UNMAP and ANCHOR", AT_ONCE(RIDGE_CDB_FIELD), ZEROS,
     SAME(UNMAP | ANCHOR, MAPPED, 1)},
    {"WRITE SAME(16), count 0", AT_ONCE(RIDGE_CDB_FIELD), WRITES(1),
     SAME(0, MAPPED, 0)},
    {"WRITE SAME(16), 129 blocks", AT_ONCE(RIDGE_CDB_FIELD), WRITES(1),
     SAME(0, MAPPED, 129)},
};

#define OF(forms) forms, sizeof forms / sizeof forms[0]

/* The cells are those of 004, typed off its Table 3 and, for UNMAP, off the line
   that it adds below. */
const struct row rows[] = {
    {"GET LBA STATUS", "", "uuuuu", OF(status)},
    {"INQUIRY", "", "ppppp", OF(inquiry)},
    {"PERSISTENT RESERVE IN", "", "ppppp", OF(reserve_in)},
    {"PERSISTENT RESERVE OUT", "", "ppppp", OF(reserve_out)},
    {"READ (10)/(16)", "READ (6)/(10)/(12)/(16)/(32)", "ACAAC", OF(reading)},
    {"READ CAPACITY (10)/(16)", "READ CAPACITY (10)/(16)", "AAAAA", OF(capacity)},
    {"TEST UNIT READY", "", "ppppp", OF(test_ready)},
    {"UNMAP", "UNMAP", "CCACC", OF(unmapping)},
    {"WRITE (10)/(16)", "WRITE (6)/(10)/(12)/(16)/(32)", "CCACC", OF(writing)},
    {"WRITE SAME (16)", "WRITE SAME (10)/(16)/(32)", "CCACC", OF(writing_same)},
};
const size_t rows_count = sizeof rows / sizeof rows[0];

#define CODE_6(form, ...) {form, 6, {__VA_ARGS__}}
#define CODE_10(form, ...) {form, 10, {__VA_ARGS__}}
#define CODE_12(form, ...) {form, 12, {__VA_ARGS__}}
#define CODE_16(form, ...) {form, 16, {__VA_ARGS__}}
#define CODE_32(action) {"(32)", 32, {0x7F, [7] = 24, [9] = action}}

/* Typed off Table 3 too; the titles of PREVENT ALLOW MEDIUM REMOVAL and of START
   STOP UNIT are broken there and made whole by SBC's words for the fields. */
const struct other_row other_rows[] = {
    {"FORMAT UNIT", "CCACC", {CODE_6("", 0x04)}},
    {"ORWRITE", "CCACC", {CODE_16("", 0x8B, [13] = 1)}},
    {"PRE-FETCH (10)/(16)", "ACAAC",
     {CODE_10("(10)", 0x34, [8] = 1), CODE_16("(16)", 0x90, [13] = 1)}},
    {"PREVENT ALLOW MEDIUM REMOVAL (Prevent=0) (f)", "AAAAA", {CODE_6("", 0x1E)}},
    {"PREVENT ALLOW MEDIUM REMOVAL (Prevent<>0) (f)", "CCACC",
     {CODE_6("", 0x1E, [4] = 1)}},
    {"READ (6)/(12)/(32)", "ACAAC",
     {CODE_6("(6)", 0x08, [4] = 1), CODE_12("(12)", 0xA8, [9] = 1),
      CODE_32(0x09)}},
    {"READ DEFECT DATA (10)/(12)", "nCAnC",
     {CODE_10("(10)", 0x37, [8] = 4), CODE_12("(12)", 0xB7, [9] = 4)}},
    {"READ LONG (10)/(16)", "CCACC",
     {CODE_10("(10)", 0x3E, [8] = 1), CODE_16("(16)", 0x9E, 0x11, [13] = 1)}},
    {"REASSIGN BLOCKS", "CCACC", {CODE_6("", 0x07)}},
    {"START STOP UNIT, START=1 and POWER CONDITION=0 (f)", "AAAAA",
     {CODE_6("", 0x1B, [4] = 0x01)}},
    {"START STOP UNIT, START=0 or POWER CONDITION<>0 (f)", "CCACC",
     {CODE_6("", 0x1B), CODE_6("", 0x1B, [4] = 0x11)}},
    {"SYNCHRONIZE CACHE (10)/(16)", "CCACC",
     {CODE_10("(10)", 0x35), CODE_16("(16)", 0x91)}},
    {"VERIFY (10)/(12)/(16)/(32)", "ACAAC",
     {CODE_10("(10)", 0x2F, [8] = 1), CODE_12("(12)", 0xAF, [9] = 1),
      CODE_16("(16)", 0x8F, [13] = 1), CODE_32(0x0A)}},
    {"WRITE (6)/(12)/(32)", "CCACC",
     {CODE_6("(6)", 0x0A, [4] = 1), CODE_12("(12)", 0xAA, [9] = 1),
      CODE_32(0x0B)}},
    {"WRITE AND VERIFY (10)/(12)/(16)/(32)", "CCACC",
     {CODE_10("(10)", 0x2E, [8] = 1), CODE_12("(12)", 0xAE, [9] = 1),
      CODE_16("(16)", 0x8E, [13] = 1), CODE_32(0x0C)}},
    {"WRITE LONG (10)/(16)", "CCACC",
     {CODE_10("(10)", 0x3F, [8] = 1), CODE_16("(16)", 0x9F, 0x11, [13] = 1)}},
    {"WRITE SAME (10)/(32)", "CCACC",
     {CODE_10("(10)", 0x41, [8] = 1), CODE_32(0x0D)}},
    {"XDREAD (10)/(32)", "ACAAC",
     {CODE_10("(10)", 0x52, [8] = 1), CODE_32(0x03)}},
    {"XDWRITE (10)/(32)", "CCACC",
     {CODE_10("(10)", 0x50, [8] = 1), CODE_32(0x04)}},
    {"XDWRITEREAD (10)/(32)", "CCACC",
     {CODE_10("(10)", 0x53, [8] = 1), CODE_32(0x07)}},
    {"XPWRITE (10)/(32)", "CCAC-",
     {CODE_10("(10)", 0x51, [8] = 1), CODE_32(0x06)}},
};
const size_t other_rows_count = sizeof other_rows / sizeof other_rows[0];
