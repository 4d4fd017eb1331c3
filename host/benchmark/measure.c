/* Runs one operation of the benchmark many times. Three programs are built of
   this file: with the proved library, with the second program (its names stand
   in for the proved library's) and, under MEASURE_COPY, with a plain copy of
   the bytes the operation moves.

     measure list                  the operations: number, bytes moved, title
     measure restore NUMBER CALLS  restores the store CALLS times
     measure execute NUMBER CALLS  restores it and executes, CALLS times
     measure timing NUMBER CALLS   prints nanoseconds per call

   An operation may change the store, so every program copies record, owners and
   marks back before each call; `restore` does that alone, and the difference of
   the two runs is the cost of the calls. Nothing else is cleared or restored: the
   medium, data-in and sense keep what earlier calls left. */
#define _POSIX_C_SOURCE 199309L
#include <stdio.h>
#include <stdlib.h>
#include <string.h>
#include <time.h>

#include "ridge.h"

enum {
    CAPACITY = 1024,
    ROUNDS = 9,
    TRANSFER_BYTES = RIDGE_TRANSFER_BLOCKS * RIDGE_BLOCK_BYTES,
    LIST_BYTES = 24,
    DESCRIPTORS_BYTES = 8 + RIDGE_DESCRIPTORS * 16,
    DESCRIPTOR_BLOCKS = RIDGE_SLOTS / RIDGE_DESCRIPTORS,
    STATUS_BYTES = 8 + RIDGE_STATUS_DESCRIPTORS * 16
};

/* One block: a pattern, zeros, or zeros up to its last byte. Descriptors that
   all fit, or all but the last. */
enum sends {
    NOTHING, BLOCKS, PATTERN, ZEROS, ALMOST_ZEROS, DESCRIPTORS, LAST_FAILS, KEYS
};

/* Which block slot i holds. SCATTERED: 37 i mod 128, so that blocks in rising
   order lie in scattered slots. APART: step times that. EVERY: i x 2^step.
   FALLING: the same from the last slot down, which is the dearest order for a
   search of the next block. RANDOM: any below 2^40. CHOSEN: of those whose owner
   numbers share a bucket of the check, the ith. TWICE: as SCATTERED, but the
   last slot holds the block of the one before. ASTRAY: as SCATTERED, but the last
   slot has an owner and no mark. */
enum layout { SCATTERED, APART, EVERY, FALLING, RANDOM, CHOSEN, TWICE, ASTRAY };

/* One row of the table. Place i is nexus i with key 10h + i, or 10h in all places
   but the sender's where one_key says so. The sense is fixed where the row does
   not say that it is in descriptor format. Nothing waits for a nexus but for the
   sender, where the row says what. A row that asks for the room sends no
   command. */
struct operation {
    const char *title;
    int descriptor_sense, one_key, asks_room;
    uint8_t waiting; /* for the sender, enum ridge_attention */
    size_t slots, full, places, moved;
    enum layout layout;
    unsigned step;
    uint32_t type;
    uint64_t holder, nexus, answer, key, action_key;
    enum sends sends;
    size_t cdb_bytes;
    uint8_t cdb[16];
};

#define FULL .slots = 128, .full = 128
#define AT(where, every) FULL, .layout = where, .step = every
#define FAR(where, every) AT(where, every), .cdb_bytes = 6
#define SAME(flags, blocks) \
    .cdb_bytes = 16, .cdb = {0x93, flags, [13] = blocks}
#define SAME_128(flags) .moved = TRANSFER_BYTES, SAME(flags, 128)
#define PAGE(code) .cdb_bytes = 6, .cdb = {0x12, 1, code, 0, 64}
#define STATUS(bytes)                \
    .moved = bytes, .cdb_bytes = 16, \
    .cdb = {0x9E, 0x12, [12] = STATUS_BYTES >> 8, STATUS_BYTES & 0xFF}
#define HELD FULL, .places = 8, .type = 1, .holder = 7, .cdb_bytes = 10
#define SHARED FULL, .places = 8, .type = 6, .holder = 7, .cdb_bytes = 10
#define OUT HELD, .sends = KEYS, .moved = LIST_BYTES
#define OUT_OF_6 SHARED, .sends = KEYS, .moved = LIST_BYTES, .nexus = 7, .key = 0x17
#define TOLD                                                 \
    .cdb_bytes = 6, .waiting = RIDGE_REGISTRATIONS_PREEMPTED, \
    .answer = RIDGE_ATTENTION
#define PAST_THE_END                                    \
    .answer = RIDGE_ADDRESS_RANGE, .cdb_bytes = 10,     \
    .cdb = {0x28, [4] = CAPACITY >> 8, CAPACITY & 0xFF, \
            [8] = 1}

/* Of byte 1 of WRITE SAME. */
enum { UNMAP = 0x08, NDOB = 0x01 };

static const struct operation operations[] = {
    {"TEST UNIT READY, 1 full slot", .slots = 1, .full = 1, .cdb_bytes = 6},
    {"TEST UNIT READY, 16 full slots", .slots = 16, .full = 16, .cdb_bytes = 6},
    {"TEST UNIT READY, 64 full slots", .slots = 64, .full = 64, .cdb_bytes = 6},
    {"TEST UNIT READY, 128 full slots", FULL, .cdb_bytes = 6},
    {"TEST UNIT READY, 128 free slots", .slots = 128, .cdb_bytes = 6},
    {"TEST UNIT READY, 128 random blocks", FAR(RANDOM, 0)},
    {"TEST UNIT READY, 128 blocks, one every 2^8", FAR(EVERY, 8)},
    {"TEST UNIT READY, 128 blocks, one every 2^16", FAR(EVERY, 16)},
    {"TEST UNIT READY, 128 blocks, one every 2^24", FAR(EVERY, 24)},
    {"TEST UNIT READY, 128 blocks, one every 2^30", FAR(EVERY, 30)},
    {"TEST UNIT READY, 128 blocks, one every 1000", FAR(APART, 1000)},
    {"TEST UNIT READY, 128 blocks, every second one", FAR(APART, 2)},
    {"TEST UNIT READY, 128 blocks, every second one, falling", FAR(FALLING, 1)},
    {"TEST UNIT READY, 128 blocks, one every 2^32, falling", FAR(FALLING, 32)},
    {"TEST UNIT READY, capacity 2^40, 128 free slots", .slots = 128,
     .layout = EVERY, .cdb_bytes = 6},
    {"TEST UNIT READY, 128 blocks of one bucket", FAR(CHOSEN, 0)},
    {"TEST UNIT READY, 128 full slots, the last two alike (11)",
     FAR(TWICE, 0), .answer = RIDGE_UNUSABLE},
    {"TEST UNIT READY, 128 full slots, a mark beside its owner (11)",
     FAR(ASTRAY, 0), .answer = RIDGE_UNUSABLE},
    {"TEST UNIT READY, told of an attention (13), fixed sense, 1 full slot",
     .slots = 1, .full = 1, TOLD},
    {"TEST UNIT READY, told of an attention (13), fixed sense, 128 full slots",
     FULL, TOLD},
    {"TEST UNIT READY, told of an attention (13), descriptor sense, 1 full slot",
     .descriptor_sense = 1, .slots = 1, .full = 1, TOLD},
    {"TEST UNIT READY, told of an attention (13), descriptor sense, 128 full slots",
     .descriptor_sense = 1, FULL, TOLD},
    {"room told, 1 full slot", .slots = 1, .full = 1, .asks_room = 1},
    {"room told, 128 full slots", FULL, .asks_room = 1},
    {"room told, 128 free slots", .slots = 128, .asks_room = 1},
    {"INQUIRY", FULL, .moved = 36, .cdb_bytes = 6, .cdb = {0x12, 0, 0, 0, 36}},
    {"INQUIRY, page 00h", FULL, .moved = 7, PAGE(0x00)},
    {"INQUIRY, page B0h, the limits", FULL, .moved = 64, PAGE(0xB0)},
    {"INQUIRY, page B2h", FULL, .moved = 8, PAGE(0xB2)},
    {"READ CAPACITY(10)", FULL, .moved = 8, .cdb_bytes = 10, .cdb = {0x25}},
    {"READ CAPACITY(16)", FULL, .moved = 32, .cdb_bytes = 16,
     .cdb = {0x9E, 0x10, [13] = 32}},
    {"READ(10), 1 block, mapped", FULL, .moved = 512, .cdb_bytes = 10,
     .cdb = {0x28, [5] = 5, [8] = 1}},
    {"READ(10), 1 block, unmapped", FULL, .moved = 512, .cdb_bytes = 10,
     .cdb = {0x28, [4] = 2, [8] = 1}},
    {"READ(10), 128 blocks, mapped", FULL, .moved = TRANSFER_BYTES,
     .cdb_bytes = 10, .cdb = {0x28, [8] = 128}},
    {"READ(10), 128 blocks, unmapped", FULL, .moved = TRANSFER_BYTES,
     .cdb_bytes = 10, .cdb = {0x28, [4] = 2, [8] = 128}},
    {"READ(10), 128 blocks, unmapped, 128 free slots", .slots = 128,
     .moved = TRANSFER_BYTES, .cdb_bytes = 10, .cdb = {0x28, [8] = 128}},
    {"READ(10), 129 blocks, refused for the count (2)", FULL,
     .answer = RIDGE_CDB_FIELD, .cdb_bytes = 10, .cdb = {0x28, [8] = 129}},
    {"READ(10), 129 blocks, refused for the count (2), descriptor sense", FULL,
     .descriptor_sense = 1, .answer = RIDGE_CDB_FIELD, .cdb_bytes = 10,
     .cdb = {0x28, [8] = 129}},
    {"READ(10), refused past the end (3), fixed sense, 1 full slot", .slots = 1,
     .full = 1, PAST_THE_END},
    {"READ(10), refused past the end (3), fixed sense, 128 full slots", FULL,
     PAST_THE_END},
    {"READ(10), refused past the end (3), descriptor sense, 1 full slot",
     .descriptor_sense = 1, .slots = 1, .full = 1, PAST_THE_END},
    {"READ(10), refused past the end (3), descriptor sense, 128 full slots",
     .descriptor_sense = 1, FULL, PAST_THE_END},
    {"WRITE(10), 1 block, mapped", FULL, .moved = 512, .sends = BLOCKS,
     .cdb_bytes = 10, .cdb = {0x2A, [5] = 5, [8] = 1}},
    {"WRITE(10), 1 block, new, 127 full slots", .slots = 128, .full = 127,
     .moved = 512, .sends = BLOCKS, .cdb_bytes = 10,
     .cdb = {0x2A, [4] = 2, [8] = 1}},
    {"WRITE(10), 1 block, new, 63 full of 64 slots", .slots = 64, .full = 63,
     .moved = 512, .sends = BLOCKS, .cdb_bytes = 10,
     .cdb = {0x2A, [4] = 2, [8] = 1}},
    {"WRITE(10), 128 blocks, mapped", FULL, .moved = TRANSFER_BYTES,
     .sends = BLOCKS, .cdb_bytes = 10, .cdb = {0x2A, [8] = 128}},
    {"WRITE(10), 128 blocks, new, 128 free slots", .slots = 128,
     .moved = TRANSFER_BYTES, .sends = BLOCKS, .cdb_bytes = 10,
     .cdb = {0x2A, [8] = 128}},
    {"WRITE(10), 1 block, refused for room (8)", FULL, .sends = BLOCKS,
     .answer = RIDGE_POOL_FULL, .cdb_bytes = 10, .cdb = {0x2A, [4] = 2, [8] = 1}},
    {"WRITE(10), 128 blocks, refused for room (8)", FULL, .sends = BLOCKS,
     .answer = RIDGE_POOL_FULL, .cdb_bytes = 10,
     .cdb = {0x2A, [4] = 2, [8] = 128}},
    {"WRITE SAME(16), 1 block, mapped", FULL, .moved = 512, .sends = PATTERN,
     SAME(0, 1)},
    {"WRITE SAME(16), 128 blocks, mapped", FULL, .sends = PATTERN, SAME_128(0)},
    {"WRITE SAME(16), 128 blocks, new, 128 free slots", .slots = 128,
     .sends = PATTERN, SAME_128(0)},
    {"WRITE SAME(16), 128 blocks, NDOB, mapped", FULL, SAME_128(NDOB)},
    {"WRITE SAME(16), 128 blocks, NDOB, new, 128 free slots", .slots = 128,
     SAME_128(NDOB)},
    {"WRITE SAME(16), 128 blocks, UNMAP, zeros up to the last byte, mapped",
     FULL, .sends = ALMOST_ZEROS, SAME_128(UNMAP)},
    {"WRITE SAME(16), 128 blocks, UNMAP and zeros, mapped", FULL,
     .sends = ZEROS, .moved = 512, SAME(UNMAP, 128)},
    {"WRITE SAME(16), 128 blocks, UNMAP and NDOB, mapped", FULL,
     SAME(UNMAP | NDOB, 128)},
    {"WRITE SAME(16), 128 blocks, UNMAP and NDOB, 128 free slots",
     .slots = 128, SAME(UNMAP | NDOB, 128)},
    {"GET LBA STATUS, 1 run, 128 free slots", .slots = 128, STATUS(24)},
    {"GET LBA STATUS, 1 run, 128 full slots", FULL, .moved = 24,
     .cdb_bytes = 16, .cdb = {0x9E, 0x12, [8] = 2, [13] = 24}},
    {"GET LBA STATUS, 2 runs, 128 full slots", FULL, STATUS(40)},
    {"GET LBA STATUS, 32 runs, 128 blocks, one every 1000", AT(APART, 1000),
     STATUS(STATUS_BYTES)},
    {"GET LBA STATUS, 32 runs, 128 blocks, every second one", AT(APART, 2),
     STATUS(STATUS_BYTES)},
    {"GET LBA STATUS, 32 runs, 128 blocks, every second one, falling",
     AT(FALLING, 1), STATUS(STATUS_BYTES)},
    {"GET LBA STATUS, 32 runs, 128 blocks, one every 2^32, falling",
     AT(FALLING, 32), STATUS(STATUS_BYTES)},
    {"GET LBA STATUS, 32 runs, capacity 2^40, 128 free slots", .slots = 128,
     .layout = EVERY, STATUS(STATUS_BYTES)},
    {"GET LBA STATUS, 32 runs, 128 random blocks", AT(RANDOM, 0),
     STATUS(STATUS_BYTES)},
    {"GET LBA STATUS, refused by the reservation (10)", FULL,
     .places = 8, .type = 6, .holder = 7, .nexus = 8,
     .answer = RIDGE_CONFLICT, .cdb_bytes = 16, .cdb = {0x9E, 0x12, [13] = 24}},
    {"UNMAP, 16 descriptors, all 128 slots freed", FULL, .sends = DESCRIPTORS,
     .moved = DESCRIPTORS_BYTES, .cdb_bytes = 10,
     .cdb = {0x42, [7] = DESCRIPTORS_BYTES >> 8, DESCRIPTORS_BYTES & 0xFF}},
    {"UNMAP, 16 descriptors, refused for the last (3)", FULL,
     .sends = LAST_FAILS, .answer = RIDGE_ADDRESS_RANGE, .cdb_bytes = 10,
     .cdb = {0x42, [7] = DESCRIPTORS_BYTES >> 8, DESCRIPTORS_BYTES & 0xFF}},
    {"READ(10), 1 block, refused by the reservation (10)", SHARED, .nexus = 8,
     .answer = RIDGE_CONFLICT, .cdb = {0x28, [5] = 5, [8] = 1}},
    {"READ(10), 1 block, by a registrant under 6", SHARED, .nexus = 6,
     .moved = 512, .cdb = {0x28, [5] = 5, [8] = 1}},
    {"RESERVE IN, READ KEYS, 8 places", HELD, .moved = 72,
     .cdb = {0x5E, 0, [7] = 1, 0}},
    {"RESERVE IN, READ RESERVATION", HELD, .moved = 24,
     .cdb = {0x5E, 1, [7] = 1, 0}},
    {"RESERVE OUT, REGISTER, new, eighth place", FULL, .places = 7, .nexus = 7,
     .sends = KEYS, .moved = LIST_BYTES, .action_key = 0x77, .cdb_bytes = 10,
     .cdb = {0x5F, 0, [8] = LIST_BYTES}},
    {"RESERVE OUT, REGISTER, change of key", OUT, .nexus = 7, .key = 0x17,
     .action_key = 0x77, .cdb = {0x5F, 0, [8] = LIST_BYTES}},
    {"RESERVE OUT, REGISTER AND IGNORE", OUT, .nexus = 7,
     .action_key = 0x77, .cdb = {0x5F, 6, [8] = LIST_BYTES}},
    {"RESERVE OUT, RESERVE", FULL, .places = 8, .nexus = 7, .sends = KEYS,
     .moved = LIST_BYTES, .key = 0x17, .cdb_bytes = 10,
     .cdb = {0x5F, 1, 1, [8] = LIST_BYTES}},
    {"RESERVE OUT, RELEASE", OUT, .nexus = 7, .key = 0x17,
     .cdb = {0x5F, 2, 1, [8] = LIST_BYTES}},
    {"RESERVE OUT, RELEASE of type 6, 7 others told", OUT_OF_6,
     .cdb = {0x5F, 2, 6, [8] = LIST_BYTES}},
    {"RESERVE OUT, REGISTER of the key 0 by the holder of type 6, 7 others told",
     OUT_OF_6, .cdb = {0x5F, 0, [8] = LIST_BYTES}},
    {"RESERVE OUT, CLEAR", OUT, .nexus = 7, .key = 0x17,
     .cdb = {0x5F, 3, 0, [8] = LIST_BYTES}},
    {"RESERVE OUT, CLEAR, nobody else registered", FULL, .places = 1,
     .sends = KEYS, .moved = LIST_BYTES, .key = 0x10, .cdb_bytes = 10,
     .cdb = {0x5F, 3, 0, [8] = LIST_BYTES}},
    {"RESERVE OUT, PREEMPT of the holder", OUT, .nexus = 0, .key = 0x10,
     .action_key = 0x17, .cdb = {0x5F, 4, 3, [8] = LIST_BYTES}},
    {"RESERVE OUT, PREEMPT of 8 registrants by the key 0", FULL, .places = 8,
     .type = 7, .nexus = 7, .sends = KEYS, .moved = LIST_BYTES, .key = 0x17,
     .cdb_bytes = 10, .cdb = {0x5F, 4, 3, [8] = LIST_BYTES}},
    {"RESERVE OUT, PREEMPT of 7 others with one key, all told", FULL,
     .places = 8, .one_key = 1, .nexus = 7, .sends = KEYS, .moved = LIST_BYTES,
     .key = 0x17, .action_key = 0x10, .cdb_bytes = 10,
     .cdb = {0x5F, 4, 3, [8] = LIST_BYTES}},
    {"RESERVE OUT, PREEMPT by the holder from type 6 to 5, 7 others told",
     OUT_OF_6, .action_key = 0x17, .cdb = {0x5F, 4, 5, [8] = LIST_BYTES}},
    {"RESERVE OUT, PREEMPT by the key 0, refused (5)", HELD, .sends = KEYS,
     .nexus = 7, .key = 0x17, .answer = RIDGE_LIST_FIELD,
     .cdb = {0x5F, 4, 3, [8] = LIST_BYTES}},
};
enum { OPERATIONS = sizeof operations / sizeof operations[0] };

static const struct operation *operation;
static uint64_t format;
static _Alignas(64) struct ridge_unit unit, saved_unit;
static _Alignas(64) uint64_t owners[RIDGE_SLOTS], saved_owners[RIDGE_SLOTS];
static _Alignas(64) struct ridge_marks marks, saved_marks;
static _Alignas(64) uint8_t medium[TRANSFER_BYTES];
static _Alignas(64) uint8_t data_out[TRANSFER_BYTES];
static _Alignas(64) uint8_t data_in[TRANSFER_BYTES];
static size_t data_out_bytes;
static uint64_t answer, free_slots, lowest_free;

static void store(uint8_t *at, size_t bytes, uint64_t number)
{
    for (size_t place = 0; place < bytes; place++)
        at[place] = (uint8_t)(number >> (8 * (bytes - 1 - place)));
}

/* A well known sequence of 64-bit numbers that look random (xorshift). */
static uint64_t next_random(uint64_t number)
{
    number ^= number << 13;
    number ^= number >> 7;
    return number ^ number << 17;
}

/* As crate audit has it. */
static uint64_t bucket(uint64_t owner)
{
    return owner % (UINT64_C(1) << 36) * 247175911 / (1 << 28) % 256;
}

/* The layouts that go by the slot alone. */
static uint64_t block_of(uint64_t slot)
{
    uint64_t scattered = slot * 37 % RIDGE_SLOTS;
    switch (operation->layout) {
    case APART:
        return scattered * operation->step;
    case EVERY:
        return slot << operation->step;
    case FALLING:
        return (RIDGE_SLOTS - 1 - slot) << operation->step;
    default:
        return scattered;
    }
}

static void prepare_owners(void)
{
    uint64_t random = 1, chosen = 0;
    for (size_t slot = 0; slot < operation->full; slot++) {
        random = next_random(random);
        do
            chosen++;
        while (bucket(chosen) != 0);
        saved_owners[slot] =
            operation->layout == RANDOM ? 1 + random % RIDGE_CAPACITY_LAST
            : operation->layout == CHOSEN ? chosen
                                          : 1 + block_of(slot);
    }
    if (operation->layout == TWICE)
        saved_owners[operation->full - 1] = saved_owners[operation->full - 2];
}

static void prepare_marks(void)
{
    for (size_t slot = 0; slot < operation->full; slot++)
        saved_marks.words[slot / RIDGE_WORD_SLOTS] |=
            UINT64_C(1) << slot % RIDGE_WORD_SLOTS;
    if (operation->layout == ASTRAY)
        saved_marks.words[RIDGE_MARK_WORDS - 1] ^= UINT64_C(1) << 63;
}

static void prepare_store(void)
{
    struct ridge_rights *rights = &saved_unit.rights;
    format = operation->descriptor_sense ? RIDGE_DESCRIPTOR : RIDGE_FIXED;
    saved_unit.capacity =
        operation->layout == SCATTERED ? CAPACITY : RIDGE_CAPACITY_LAST;
    rights->type = operation->type;
    rights->holder = operation->holder;
    for (size_t place = 0; place < operation->places; place++) {
        int shares = operation->one_key && place != operation->nexus;
        rights->places[place].nexus = place;
        rights->places[place].key = shares ? 0x10 : 0x10 + place;
    }
    saved_unit.attentions[operation->nexus] = operation->waiting;
    prepare_owners();
    prepare_marks();
    for (size_t i = 0; i < sizeof medium; i++)
        medium[i] = (uint8_t)(i * 7 + i / 512);
}

static void prepare_blocks(void)
{
    data_out_bytes = TRANSFER_BYTES;
    for (size_t i = 0; i < sizeof data_out; i++)
        data_out[i] = (uint8_t)(i * 5 + i / 512);
}

/* What WRITE SAME sends. */
static void prepare_block(void)
{
    prepare_blocks();
    data_out_bytes = RIDGE_BLOCK_BYTES;
    if (operation->sends == PATTERN)
        return;
    memset(data_out, 0, RIDGE_BLOCK_BYTES);
    if (operation->sends == ALMOST_ZEROS)
        data_out[RIDGE_BLOCK_BYTES - 1] = 1;
}

/* The descriptors take equal shares of the pool's 128 blocks. */
static void prepare_descriptors(void)
{
    data_out_bytes = DESCRIPTORS_BYTES;
    store(data_out, 2, DESCRIPTORS_BYTES - 2);
    store(data_out + 2, 2, DESCRIPTORS_BYTES - 8);
    for (size_t i = 0; i < RIDGE_DESCRIPTORS; i++) {
        store(data_out + 8 + 16 * i, 8, DESCRIPTOR_BLOCKS * i);
        store(data_out + 16 + 16 * i, 4, DESCRIPTOR_BLOCKS);
    }
    if (operation->sends == LAST_FAILS)
        store(data_out + 16 * RIDGE_DESCRIPTORS - 8, 8, CAPACITY);
}

static void prepare_keys(void)
{
    data_out_bytes = LIST_BYTES;
    store(data_out, 8, operation->key);
    store(data_out + 8, 8, operation->action_key);
}

static void prepare(void)
{
    prepare_store();
    switch (operation->sends) {
    case NOTHING:
        return;
    case BLOCKS:
        prepare_blocks();
        return;
    case PATTERN:
    case ZEROS:
    case ALMOST_ZEROS:
        prepare_block();
        return;
    case DESCRIPTORS:
    case LAST_FAILS:
        prepare_descriptors();
        return;
    case KEYS:
        prepare_keys();
        return;
    }
}

static void restore(void)
{
    memcpy(&unit, &saved_unit, sizeof unit);
    memcpy(owners, saved_owners, sizeof owners);
    memcpy(&marks, &saved_marks, sizeof marks);
}

static void call_nothing(void)
{
}

#ifdef MEASURE_COPY
/* Through a pointer the compiler cannot see, so that it is the C library's. */
static void *(*volatile copy)(void *, const void *, size_t) = memcpy;

static void call(void)
{
    if (operation->sends == NOTHING)
        copy(data_in, medium, operation->moved);
    else
        copy(medium, data_out, operation->moved);
    answer = operation->answer;
}

/* It moves no bytes. */
static void call_room(void)
{
    answer = operation->answer;
    free_slots = operation->slots - operation->full;
    lowest_free = operation->full;
}
#else
static void call(void)
{
    static uint8_t sense[RIDGE_DESCRIPTOR_SENSE_BYTES];
    uint64_t returned;
    answer = ridge_execute(
        format, &unit, owners, operation->slots, &marks, medium,
        operation->slots * RIDGE_BLOCK_BYTES, operation->nexus, operation->cdb,
        operation->cdb_bytes, data_out, data_out_bytes, data_in, sizeof data_in,
        sense, sizeof sense, &returned);
}

static void call_room(void)
{
    answer = ridge_room(format, &unit, owners, operation->slots, &marks, medium,
                        operation->slots * RIDGE_BLOCK_BYTES, &free_slots,
                        &lowest_free);
}
#endif

/* The full slots are the lowest ones. */
static int is_right(void)
{
    return answer == operation->answer &&
           (!operation->asks_room ||
            (free_slots == operation->slots - operation->full &&
             lowest_free == operation->full));
}

/* The pointer is volatile so that neither loop is optimised for its call. */
static void repeat(void (*action)(void), unsigned long calls)
{
    void (*volatile act)(void) = action;
    for (unsigned long i = 0; i < calls; i++) {
        restore();
        act();
    }
}

static double least_nanoseconds(void (*action)(void), unsigned long calls)
{
    double least = 1e18;
    for (int round = 0; round < ROUNDS; round++) {
        struct timespec start, end;
        clock_gettime(CLOCK_MONOTONIC, &start);
        repeat(action, calls);
        clock_gettime(CLOCK_MONOTONIC, &end);
        double taken = (double)(end.tv_sec - start.tv_sec) * 1e9 +
                       (double)(end.tv_nsec - start.tv_nsec);
        least = taken < least ? taken : least;
    }
    return least;
}

static int list(void)
{
    for (size_t i = 0; i < OPERATIONS; i++)
        printf("%02zu %zu %s\n", i, operations[i].moved, operations[i].title);
    return 0;
}

static void run(const char *mode, void (*action)(void), unsigned long calls)
{
    if (strcmp(mode, "restore") == 0)
        repeat(call_nothing, calls);
    else if (strcmp(mode, "execute") == 0)
        repeat(action, calls);
    else
        printf("%.1f\n", (least_nanoseconds(action, calls) -
                          least_nanoseconds(call_nothing, calls)) / (double)calls);
}

int main(int count, char **arguments)
{
    if (count == 2 && strcmp(arguments[1], "list") == 0)
        return list();
    size_t number = count == 4 ? strtoul(arguments[2], NULL, 10) : OPERATIONS;
    if (number >= OPERATIONS)
        return 2;
    operation = &operations[number];
    void (*action)(void) = operation->asks_room ? call_room : call;
    prepare();
    repeat(action, 1); /* both kinds of run make it, so its cost cancels */
    if (!is_right()) {
        fprintf(stderr, "%s: answer %d, or another room\n", operation->title,
                (int)answer);
        return 1;
    }
    run(arguments[1], action, strtoul(arguments[3], NULL, 10));
    return 0;
}
