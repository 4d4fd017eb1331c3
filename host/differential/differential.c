/*
 * differential.c - runs random histories over the proved library (prefix
 * ridge_) and the second program (prefix second_) and compares everything that
 * either may write, to the last byte.
 *
 *   differential [CALLS [SEED]]
 *
 * Without a SEED each run takes a new one; it is printed first, and the same
 * seed gives the same calls on every machine.
 *
 * Both get equal copies of every lent buffer, with random guard bytes on both
 * sides. After each call: the answers and the returned counts are equal, so is
 * every byte of every buffer, and what 01 says of all calls holds (a refusal
 * changes nothing stored, nor does a command that only asks; sense is written
 * for the answers 1 to 8 and 13 only, data-in not past the returned bytes, CDB,
 * data-out and guards never; 11 for each of the reasons that come first in 01's
 * order, and else for the length of the CDB alone).
 *
 * Stores are of both formats of sense, and all bytes lent for it are compared.
 * It holds random bytes before a call, or what an answer 2, 3, 5 or 8 left
 * there, so that a place or an address left over shows. And what
 * say of all calls holds: sense is laid out as the store's format has it, with
 * the key and codes of the answer; 2 and 5 have a place, one within the CDB or
 * the list, no other answer has one; 3 and 8 have the address of the CDB, or of
 * the first descriptor that fails, where the format holds it, no other answer
 * has one; no byte past those is written. A format that is none is answered 11.
 *
 * Something waits for some nexuses, registered or not, and calls let others
 * know of what they did. What Q-6 says of all calls holds: while something
 * waits for the sender every command but INQUIRY is answered 13, if not 1 or
 * 11, and 13 takes away that and changes nothing else; afterwards there waits
 * for each nexus what was there before, or what it has to know by what the call
 * did to registrations and reservation.
 *
 * After most calls both are asked for the room of the store as it is then, be
 * it valid or not. What Q-7 says holds: marks that are not those of the owners
 * make every call unusable; a call that was usable leaves the marks that its
 * owners have; room is what a walk over the owners tells, is told of every
 * valid store, whatever the call was, and of no other, and nothing is written
 * where it is not told.
 *
 * Exit status: 0 no difference and every answer met often enough; 1 a
 * difference, which is printed; 2 an answer, command, take-over, cell of the
 * conflict rule, occasion of or damage too rare
 * (asked of long runs alone), bad usage.
 */

#include <inttypes.h>
#include <stdio.h>
#include <stdlib.h>
#include <string.h>

#include "../second/second.h"
#include "attentions.h"
#include "cells.h"
#include "console.h"
#include "damage.h"
#include "generate.h"
#include "marks.h"
#include "occasions.h"
#include "sense.h"

enum {
    CALLS_DEFAULT = 200000,
    CALLS_LONG = 200000, /* from here on every answer must be met often */
    GUARD = 64,         /* bytes before and after each buffer */
    EXTRA_SLOTS = 2,    /* so that 129 slots can be lent */
    ROOM_SLOTS = RIDGE_SLOTS + EXTRA_SLOTS,
    ROWS = 14,          /* commands that are counted apart */
    NOTICES = 13,       /* of 100 calls, those that others must know of, */
    ATTENDED = 7,       /* those of one for whom something waits */
    ROOMS = 9,          /* and those that take or free slots at an end */
    RENEWED = 6,        /* of 100 calls, those before which others register */
    FAULTY = 30,        /* of 100 on damaged stores, those with a fault too */
    ASKED = 45          /* of 100 on many slots, those before room is asked */
};

/* The first four are the store; the last two are what room tells. */
enum part {
    UNIT,
    OWNERS,
    MARKS,
    MEDIUM,
    CDB,
    DATA_OUT,
    DATA_IN,
    SENSE,
    FREE_SLOTS,
    LOWEST_FREE,
    PARTS
};

static const char *const part_names[PARTS] = {
    "unit",     "owners",  "marks", "medium",     "cdb",
    "data-out", "data-in", "sense", "free slots", "lowest free"};

/* All that is lent to one library, with guards before and after each part, and
   what it answered. */
struct world {
    uint8_t guard_of_unit[GUARD];
    struct ridge_unit unit;
    uint8_t guard_of_owners[2 * GUARD];
    uint64_t owners[ROOM_SLOTS];
    uint8_t guard_of_marks[2 * GUARD];
    struct ridge_marks marks;
    uint8_t guard_of_medium[2 * GUARD];
    uint8_t medium[ROOM_SLOTS * RIDGE_BLOCK_BYTES];
    uint8_t guard_of_cdb[2 * GUARD];
    uint8_t cdb[CDB_ROOM];
    uint8_t guard_of_data_out[2 * GUARD];
    uint8_t data_out[DATA_ROOM];
    uint8_t guard_of_data_in[2 * GUARD];
    uint8_t data_in[DATA_ROOM];
    uint8_t guard_of_sense[2 * GUARD];
    uint8_t sense[SENSE_ROOM];
    uint8_t guard_of_free_slots[2 * GUARD];
    uint64_t free_slots;
    uint8_t guard_of_lowest_free[2 * GUARD];
    uint64_t lowest_free;
    uint8_t guard_of_end[GUARD];
    uint64_t answer;
    uint64_t returned;
    uint64_t room; /* its answer, if it was asked for */
};

static const size_t part_offsets[PARTS] = {
    offsetof(struct world, unit),       offsetof(struct world, owners),
    offsetof(struct world, marks),      offsetof(struct world, medium),
    offsetof(struct world, cdb),        offsetof(struct world, data_out),
    offsetof(struct world, data_in),    offsetof(struct world, sense),
    offsetof(struct world, free_slots), offsetof(struct world, lowest_free)};

/* What one call lends: bytes of each part, the format that it is told, and who
   sends it. The store is whole if nothing was spoiled; it is bad if its format,
   a size or the state is known to be wrong by how it was made; 11 is due if it
   is bad, or the call is known to be unusable. Room may be asked for then. */
struct lending {
    size_t bytes[PARTS];
    uint64_t format;
    uint64_t nexus;
    bool whole;
    bool bad;
    bool due_11;
    bool asked;
};

struct figures {
    uint64_t calls;
    uint64_t fresh;
    uint64_t damaged;
    uint64_t damages[DAMAGE_WAYS];
    uint64_t large_reads;  /* good, of 100 blocks and more */
    uint64_t large_writes;
    uint64_t answers[16];
    uint64_t by_row[ROWS + 1]; /* the last is for what no row has */
    uint64_t good_by_row[ROWS + 1];
    uint64_t good_actions[32];
    /* PREEMPT with service action key 0, by type held and type named: taken
       over; by type held: refused by 5, which in PREEMPT has no other cause. */
    uint64_t taken_over[16][16];
    uint64_t zero_keys_refused[16];
    uint64_t cells[CELLS]; /* calls that tell what the cell says */
    uint64_t occasions[OCCASIONS];
    struct attention_counts attentions;
    struct mark_counts marks;
};

struct run {
    struct random random;
    uint64_t seed;
    struct store store;
    struct request request;
    struct lending lending;
    struct world before;
    struct world ridge;
    struct world second;
    struct world without; /* the same call without what came in its way */
    bool marks_wrong;     /* before it, and nothing else of the store */
    uint8_t sense_of_cdb[SENSE_ROOM]; /* as the last answer 2 left it, */
    uint8_t sense_of_list[SENSE_ROOM]; /* the last 5 */
    uint8_t sense_of_address[SENSE_ROOM]; /* and the last 3 or 8 */
    struct figures figures;
};

/* ---- The worlds ---- */

/* Where a part begins; its guard lies before it. */
static uint8_t *part_of(struct world *world, enum part part)
{
    return (uint8_t *)world + part_offsets[part];
}

/* Random bytes in a part and its guards, as far as the call may see them. */
static void fill_part(struct run *run, enum part part)
{
    random_fill(&run->random, part_of(&run->before, part) - GUARD,
                run->lending.bytes[part] + 2 * GUARD);
}

static void put_part(struct run *run, enum part part, const void *bytes,
                     size_t count)
{
    if (count > run->lending.bytes[part])
        count = run->lending.bytes[part];
    memcpy(part_of(&run->before, part), bytes, count);
}

/* Both libraries get what stands in `before`. */
static void copy_worlds(struct run *run)
{
    for (enum part part = 0; part < PARTS; part++) {
        const uint8_t *from = part_of(&run->before, part) - GUARD;
        size_t count = run->lending.bytes[part] + 2 * GUARD;

        memcpy(part_of(&run->ridge, part) - GUARD, from, count);
        memcpy(part_of(&run->second, part) - GUARD, from, count);
    }
    run->ridge.returned = run->second.returned = random_word(&run->random);
}

/* ---- Reports ---- */

static void print_hex(const char *name, const uint8_t *bytes, size_t count)
{
    enum { SHOWN = 64 };

    printf("  %s (%zu bytes)", name, count);
    for (size_t index = 0; index < count && index < SHOWN; index++)
        printf("%s%02X", index % 8 == 0 ? " " : "", bytes[index]);
    printf("%s\n", count > SHOWN ? " ..." : "");
}

static void print_outcome(struct run *run, const char *name,
                          struct world *world)
{
    printf("%s: answer %" PRIu64 ", returned %" PRIu64 "; room %" PRIu64
           ", free %" PRIX64 ", lowest %" PRIX64 "\n",
           name, world->answer, world->returned, world->room,
           world->free_slots, world->lowest_free);
    console_store(run->lending.format, &world->unit, world->owners,
                  run->lending.bytes[OWNERS] / 8, &world->marks);
    print_hex("data-in", world->data_in, run->lending.bytes[DATA_IN]);
    print_hex("sense", world->sense, run->lending.bytes[SENSE]);
}

/* Prints what is needed to find the call again, and ends the program. */
static void fail(struct run *run, const char *what)
{
    printf("difference: %s\n", what);
    printf("seed %" PRIu64 ", call number %" PRIu64 ", fresh store %" PRIu64
           "\n",
           run->seed, run->figures.calls, run->figures.fresh);
    printf("the call: nexus %" PRIu64 ", medium of %zu bytes\n",
           run->lending.nexus, run->lending.bytes[MEDIUM]);
    print_hex("cdb", run->before.cdb, run->lending.bytes[CDB]);
    print_hex("data-out", run->before.data_out, run->lending.bytes[DATA_OUT]);
    run->before.answer = run->before.returned = run->before.room = 0;
    print_outcome(run, "before", &run->before);
    print_outcome(run, "ridge", &run->ridge);
    print_outcome(run, "second", &run->second);
    exit(1);
}

static void fail_part(struct run *run, const char *what, enum part part,
                      size_t at)
{
    char text[160];

    snprintf(text, sizeof text, "%s: %s byte %td", what, part_names[part],
             (ptrdiff_t)at - GUARD);
    fail(run, text);
}

/* ---- Comparing ---- */

/* The first place where the two differ, or count. */
static size_t first_difference(const uint8_t *left, const uint8_t *right,
                               size_t count)
{
    size_t at = 0;

    if (memcmp(left, right, count) == 0)
        return count;
    while (left[at] == right[at])
        at++;
    return at;
}

static void compare_libraries(struct run *run)
{
    if (run->ridge.answer != run->second.answer)
        fail(run, "the answers differ");
    if (run->ridge.returned != run->second.returned)
        fail(run, "the returned counts differ");
    if (run->ridge.room != run->second.room)
        fail(run, "the answers of room differ");
    for (enum part part = 0; part < PARTS; part++) {
        size_t count = run->lending.bytes[part] + 2 * GUARD;
        size_t at = first_difference(part_of(&run->ridge, part) - GUARD,
                                     part_of(&run->second, part) - GUARD,
                                     count);

        if (at != count)
            fail_part(run, "the libraries differ", part, at);
    }
}

/* The part is as before, save its bytes from 0 to `writable` - 1. */
static void hold_unchanged(struct run *run, enum part part, size_t writable)
{
    const uint8_t *was = part_of(&run->before, part) - GUARD;
    const uint8_t *is = part_of(&run->ridge, part) - GUARD;
    size_t count = run->lending.bytes[part] + 2 * GUARD;
    size_t from = GUARD + writable;
    size_t at = first_difference(was, is, GUARD);

    if (at != GUARD)
        fail_part(run, "changed before its start", part, at);
    at = from + first_difference(was + from, is + from, count - from);
    if (at != count)
        fail_part(run, "changed against 01", part, at);
}

/* Whether the call in hand may change what is stored: WRITE, WRITE SAME, UNMAP
   and RESERVE OUT do, and so does making a fresh store, which has no CDB. */
static bool may_store(const struct run *run)
{
    if (run->lending.bytes[CDB] == 0)
        return true;
    switch (run->before.cdb[0]) {
    case 0x2A:
    case 0x8A:
    case 0x93:
    case 0x42:
    case 0x5F:
        return true;
    default:
        return false;
    }
}

/* What Q-4 says of the place: answers 2 and 5 have one, and the field lies
   within what it is a field of. */
static void hold_place(struct run *run, const struct told *told)
{
    bool of_cdb = run->ridge.answer == RIDGE_CDB_FIELD;
    bool of_list = run->ridge.answer == RIDGE_LIST_FIELD;
    size_t first_byte = (size_t)(told->place[1] << 8 | told->place[2]);
    size_t bound = run->lending.bytes[of_cdb ? CDB : DATA_OUT];

    if (told->has_place != (of_cdb || of_list))
        fail(run, "sense has a place, or has none, against Q-4");
    if (!told->has_place)
        return;
    if ((told->place[0] & 0x40) != (of_cdb ? 0x40 : 0))
        fail(run, "the place is told to be where it is not");
    if (first_byte >= bound)
        fail(run, "sense points where there is no field");
}

/* The address that an answer 3 or 8 is about: that of the CDB, of UNMAP that of
   the first descriptor that fails. */
static uint64_t address_due(const struct run *run)
{
    const uint8_t *cdb = run->before.cdb;
    const uint8_t *list = run->before.data_out;
    const uint8_t *bytes = cdb + 2;
    size_t count = run->lending.bytes[CDB] == 16 ? 8 : 4;
    uint64_t address = 0;

    if (cdb[0] == 0x42) {
        bytes = list + 8 +
                16 * failing_descriptor(list, 0, RIDGE_DESCRIPTORS,
                                        run->before.unit.capacity);
        count = 8;
    }
    while (count-- > 0)
        address = address << 8 | *bytes++;
    return address;
}

/* What Q-8 says of the address: fixed format leaves out one above four bytes,
   whole. */
static void hold_address(struct run *run, const struct told *told)
{
    bool due = run->ridge.answer == RIDGE_ADDRESS_RANGE ||
               run->ridge.answer == RIDGE_POOL_FULL;
    uint64_t address = due ? address_due(run) : 0;

    if (run->lending.format == RIDGE_FIXED && address > UINT32_MAX)
        due = false;
    if (told->has_address != due)
        fail(run, "sense has an address, or has none, against Q-8");
    if (due && told->address != address)
        fail(run, "sense has another address than the call");
}

/* What waits for the sender of the call in hand. */
static uint8_t waiting(const struct run *run)
{
    return run->lending.nexus > RIDGE_NEXUS_LAST
               ? RIDGE_NO_ATTENTION
               : run->before.unit.attentions[run->lending.nexus];
}

/* What 01, Q-4, Q-6 and Q-8 say of sense, whichever command it is. */
static void hold_sense(struct run *run)
{
    uint64_t format = run->lending.format;
    size_t written = sense_written(format, run->ridge.answer);
    struct told told;

    hold_unchanged(run, SENSE, written);
    if (written == 0)
        return;
    if (!sense_read(format, run->ridge.sense, &told))
        fail(run, "sense is laid out in another way than its format");
    if (memcmp(told.codes, sense_codes(run->ridge.answer, waiting(run)),
               SENSE_CODES) != 0)
        fail(run, "key and codes of sense are those of another answer");
    hold_place(run, &told);
    hold_address(run, &told);
}

/* The call in hand and what came of it, once the libraries agree on that. */
static struct occasion describe(const struct run *run)
{
    const struct world *before = &run->before;
    const size_t *bytes = run->lending.bytes;
    bool sound = run->lending.whole && bytes[CDB] != 0 &&
                 run->lending.nexus <= RIDGE_NEXUS_LAST;
    bool sized = bytes[OWNERS] == 8 * run->store.slots &&
                 bytes[MEDIUM] == RIDGE_BLOCK_BYTES * run->store.slots;
    struct occasion call = {.format = run->lending.format,
                            .sound = sound,
                            .sized = sized,
                            .marks_wrong = run->marks_wrong,
                            .unit = &before->unit,
                            .after = &run->second.unit,
                            .owners = before->owners,
                            .owners_after = run->second.owners,
                            .slots = bytes[OWNERS] / 8,
                            .marks = &before->marks,
                            .marks_after = &run->second.marks,
                            .medium_bytes = bytes[MEDIUM],
                            .nexus = run->lending.nexus,
                            .cdb = before->cdb,
                            .cdb_bytes = bytes[CDB],
                            .data_out = before->data_out,
                            .data_out_bytes = bytes[DATA_OUT],
                            .data_in = run->second.data_in,
                            .data_in_bytes = bytes[DATA_IN],
                            .sense = before->sense,
                            .sense_bytes = bytes[SENSE],
                            .answer = run->second.answer,
                            .without = run->without.answer,
                            .returned = run->second.returned,
                            .asked = run->lending.asked,
                            .room = run->second.room,
                            .free_slots = run->second.free_slots,
                            .lowest_free = run->second.lowest_free};

    return call;
}

/* What Q-6 says of a command that was not unusable: when it is answered 13, and
   what waits for each nexus afterwards. */
static void hold_attentions(struct run *run)
{
    struct occasion call = describe(run);
    bool told = call.answer == RIDGE_ATTENTION;

    if (call.answer == RIDGE_UNUSABLE)
        return;
    if (call.answer != RIDGE_CODE_NOT_LISTED && told != attention_is_due(&call))
        fail(run, "13 is answered, or is not, against Q-6");
    for (uint64_t nexus = 0; nexus < RIDGE_NEXUSES; nexus++) {
        if (call.after->attentions[nexus] != attention_due(&call, nexus))
            fail(run, "there waits for a nexus what Q-6 does not say");
    }
}

/* An answer 13 leaves the record as it was, but for what waited for the
   sender. */
static void hold_told(struct run *run)
{
    struct ridge_unit due = run->before.unit;

    due.attentions[run->lending.nexus] = RIDGE_NO_ATTENTION;
    if (memcmp(&due, &run->ridge.unit, sizeof due) != 0)
        fail(run, "13 changed more than what waited for the sender");
}

static bool marks_are_due(const struct lending *lending,
                          const struct world *world)
{
    struct ridge_marks due = marks_due(world->owners,
                                       lending->bytes[OWNERS] / 8);

    return same_marks(&world->marks, &due);
}

/* What Q-7 says of the marks: a call that was usable leaves those that its
   owners have. */
static void hold_marks(struct run *run)
{
    if (run->ridge.answer != RIDGE_UNUSABLE &&
        !marks_are_due(&run->lending, &run->ridge))
        fail(run, "the marks are not those of the owners");
}

/* What a walk over the owners tells of room. */
static bool room_is_due(const struct run *run)
{
    size_t slots = run->lending.bytes[OWNERS] / 8;
    uint64_t free_slots = 0;
    uint64_t lowest_free = slots;

    for (size_t slot = slots; slot-- > 0;) {
        if (run->ridge.owners[slot] == 0) {
            free_slots++;
            lowest_free = slot;
        }
    }
    return run->ridge.free_slots == free_slots &&
           run->ridge.lowest_free == lowest_free;
}

/* What Q-7 says of room, which is asked after the call: a store is valid then
   if it was whole, or if the call found it so. */
static void hold_room(struct run *run)
{
    const struct lending *lending = &run->lending;
    bool told = run->ridge.room == RIDGE_GOOD;
    bool valid = (lending->whole && is_format(lending->format)) ||
                 run->ridge.answer != RIDGE_UNUSABLE;

    if (!lending->asked)
        return;
    if (!told && run->ridge.room != RIDGE_UNUSABLE)
        fail(run, "room is answered neither 0 nor 11");
    if (told && lending->bad)
        fail(run, "room is told where 11 is due");
    if (!told && valid)
        fail(run, "room is refused where the store is valid");
    if (told && !room_is_due(run))
        fail(run, "room is not what a walk over the owners tells");
    for (enum part part = FREE_SLOTS; part <= LOWEST_FREE; part++)
        hold_unchanged(run, part, told ? lending->bytes[part] : 0);
}

/* The length of the CDB, by the group of its code; those that are listed are of
   these groups. */
static size_t cdb_wanted(uint8_t code)
{
    return code < 0x20 ? 6 : code < 0x60 ? 10 : 16;
}

/* When 11 is answered. A store that is whole, and lent by a call that is known
   to be usable, leaves one reason for it. */
static void hold_11(struct run *run)
{
    const struct lending *lending = &run->lending;
    bool answered = run->ridge.answer == RIDGE_UNUSABLE;

    if (lending->due_11 && !answered)
        fail(run, "another answer where 11 is due");
    if (answered && lending->whole && !lending->due_11 &&
        lending->bytes[CDB] == cdb_wanted(run->before.cdb[0]))
        fail(run, "11 where nothing is unusable");
}

/* What 01 says of every call, whichever command it is. */
static void hold_rules(struct run *run)
{
    bool good = run->ridge.answer == RIDGE_GOOD;
    bool told = run->ridge.answer == RIDGE_ATTENTION;

    hold_11(run);
    if (!good && run->ridge.returned != 0)
        fail(run, "bytes returned on a refusal");
    if (run->ridge.returned > run->lending.bytes[DATA_IN])
        fail(run, "more bytes returned than lent");
    for (enum part part = UNIT; part <= MEDIUM; part++)
        hold_unchanged(run, part,
                       (good && may_store(run)) || (told && part == UNIT)
                           ? run->lending.bytes[part]
                           : 0);
    if (told)
        hold_told(run);
    hold_unchanged(run, CDB, 0);
    hold_unchanged(run, DATA_OUT, 0);
    hold_unchanged(run, DATA_IN, (size_t)run->ridge.returned);
    hold_sense(run);
    hold_marks(run);
}

/* ---- Making calls ---- */

/* Mostly the store's format; at times the other one, which is as good while the
   sense buffer is long enough for it, or none. */
static uint64_t lend_format(struct run *run)
{
    uint64_t kind = random_below(&run->random, 100);

    if (kind < 3)
        return generate_wrong_format(&run->random);
    if (kind < 6)
        return generate_format(&run->random);
    return run->store.format;
}

static void lend_request(struct run *run)
{
    const struct request *request = &run->request;
    struct lending *lending = &run->lending;

    memset(lending, 0, sizeof *lending);
    lending->nexus = request->nexus;
    lending->format = lend_format(run);
    lending->bytes[UNIT] = sizeof run->store.unit;
    lending->bytes[OWNERS] = 8 * run->store.slots;
    lending->bytes[MARKS] = sizeof run->store.marks;
    lending->bytes[MEDIUM] = RIDGE_BLOCK_BYTES * run->store.slots;
    lending->bytes[CDB] = request->cdb_bytes;
    lending->bytes[DATA_OUT] = request->data_out_bytes;
    lending->bytes[DATA_IN] = request->data_in_bytes;
    lending->bytes[SENSE] = request->sense_bytes;
    lending->bytes[FREE_SLOTS] = sizeof run->before.free_slots;
    lending->bytes[LOWEST_FREE] = sizeof run->before.lowest_free;
    lending->bad = !is_format(lending->format);
    lending->due_11 = request->nexus > RIDGE_NEXUS_LAST ||
                      request->cdb_bytes == 0 ||
                      request->sense_bytes < sense_wanted(lending->format);
}

/* Lends another number of slots or medium bytes than the store has. */
static void damage_sizes(struct run *run)
{
    size_t *bytes = run->lending.bytes;

    run->lending.bad = true;
    switch (random_below(&run->random, 3)) {
    case 0:
        bytes[OWNERS] = 8 * (size_t)RANDOM_CHOICE(&run->random, 0, 129);
        bytes[MEDIUM] = bytes[OWNERS] / 8 * RIDGE_BLOCK_BYTES;
        break;
    case 1:
        bytes[MEDIUM] = (size_t)RANDOM_CHOICE(
            &run->random, 0, bytes[MEDIUM] - 1, bytes[MEDIUM] + 1,
            bytes[MEDIUM] - 512, bytes[MEDIUM] + 512);
        break;
    default:
        bytes[OWNERS] += 8;
        break;
    }
}

/* What such slots hold: those that the store lacks are free, and the marks go
   with the others, so that the sizes alone are wrong. */
static void fit_slots(struct run *run)
{
    size_t slots = run->lending.bytes[OWNERS] / 8;

    for (size_t slot = run->store.slots; slot < slots; slot++)
        run->before.owners[slot] = 0;
    run->before.marks = marks_due(run->before.owners, slots);
}

static void damage_lent(struct run *run)
{
    struct lent lent = {&run->before.unit, run->before.owners,
                        run->store.slots, &run->before.marks};
    size_t way = damage_store(&run->random, &lent);

    run->lending.bad |= damage_is_invalid(way);
    run->figures.damages[way]++;
}

/*
 * At times what lies behind the owners looks like one more of them, the block
 * of another slot. A library that reads one word too far then answers
 * otherwise.
 */
static void mimic_behind(struct run *run)
{
    if (random_percent(&run->random, 50))
        run->before.owners[run->lending.bytes[OWNERS] / 8] =
            run->store.owners[random_below(&run->random, run->store.slots)];
}

/* The sense buffer that an answer 2, 5, 3 or 8 was given in, lent once more; it
   may have been in a store of the other format. */
static void lend_sense_again(struct run *run)
{
    uint64_t kind = random_below(&run->random, 100);

    if (kind < 20)
        put_part(run, SENSE, run->sense_of_cdb, SENSE_ROOM);
    else if (kind < 40)
        put_part(run, SENSE, run->sense_of_list, SENSE_ROOM);
    else if (kind < 60)
        put_part(run, SENSE, run->sense_of_address, SENSE_ROOM);
}

static void keep_sense(struct run *run)
{
    size_t bytes = run->lending.bytes[SENSE];

    switch (run->second.answer) {
    case RIDGE_CDB_FIELD:
        memcpy(run->sense_of_cdb, run->second.sense, bytes);
        break;
    case RIDGE_LIST_FIELD:
        memcpy(run->sense_of_list, run->second.sense, bytes);
        break;
    case RIDGE_ADDRESS_RANGE:
    case RIDGE_POOL_FULL:
        memcpy(run->sense_of_address, run->second.sense, bytes);
        break;
    default:
        break;
    }
}

/* Fills `before` with the store as it is, as far as the call lends it. */
static void fill_before(struct run *run)
{
    const struct request *request = &run->request;

    for (enum part part = 0; part < PARTS; part++)
        if (part != MEDIUM || run->lending.bytes[MEDIUM] !=
                                  RIDGE_BLOCK_BYTES * run->store.slots)
            fill_part(run, part);
    put_part(run, UNIT, &run->store.unit, sizeof run->store.unit);
    put_part(run, OWNERS, run->store.owners, 8 * run->store.slots);
    put_part(run, MARKS, &run->store.marks, sizeof run->store.marks);
    put_part(run, MEDIUM, run->store.medium,
             RIDGE_BLOCK_BYTES * run->store.slots);
    put_part(run, CDB, request->cdb, request->cdb_bytes);
    put_part(run, DATA_OUT, request->data_out, request->data_out_bytes);
    lend_sense_again(run);
}

/* Mostly the store is lent as it is. Where it is not, the call may have a fault
   as well, which must not come first. A check of many slots takes long, so that
   then room is not asked for each time. */
static void prepare(struct run *run)
{
    bool many = run->store.slots >= EDGE_SLOTS;
    bool whole = !random_percent(&run->random, many ? 20 : 11);
    bool sizes = !whole && random_percent(&run->random, 20);

    if (!whole && random_percent(&run->random, FAULTY))
        generate_fault(&run->random, &run->store, &run->request);
    lend_request(run);
    run->lending.whole = whole;
    run->lending.asked = !many || !whole || random_percent(&run->random, ASKED);
    if (sizes)
        damage_sizes(run);
    fill_before(run);
    if (sizes)
        fit_slots(run);
    else if (!whole)
        damage_lent(run);
    mimic_behind(run);
    run->lending.bad |= !marks_are_due(&run->lending, &run->before);
    run->lending.due_11 |= run->lending.bad;
    run->figures.damaged += whole ? 0 : 1;
}

typedef uint64_t execute_function(
    uint64_t format, struct ridge_unit *unit, uint64_t *owners, size_t slots,
    struct ridge_marks *marks, uint8_t *medium, size_t medium_bytes,
    uint64_t nexus, const uint8_t *cdb, size_t cdb_bytes,
    const uint8_t *data_out, size_t data_out_bytes, uint8_t *data_in,
    size_t data_in_bytes, uint8_t *sense, size_t sense_bytes,
    uint64_t *returned);

static void execute(const struct lending *lending, struct world *world,
                    execute_function *function)
{
    const size_t *bytes = lending->bytes;

    world->answer = function(
        lending->format, &world->unit, world->owners, bytes[OWNERS] / 8,
        &world->marks, world->medium, bytes[MEDIUM], lending->nexus, world->cdb,
        bytes[CDB], world->data_out, bytes[DATA_OUT], world->data_in,
        bytes[DATA_IN], world->sense, bytes[SENSE], &world->returned);
}

typedef uint64_t room_function(uint64_t format, const struct ridge_unit *unit,
                               const uint64_t *owners, size_t slots,
                               const struct ridge_marks *marks,
                               const uint8_t *medium, size_t medium_bytes,
                               uint64_t *free_slots, uint64_t *lowest_free);

static void ask_room(const struct lending *lending, struct world *world,
                     room_function *function)
{
    const size_t *bytes = lending->bytes;

    world->room = RIDGE_GOOD;
    if (!lending->asked)
        return;
    world->room = function(lending->format, &world->unit, world->owners,
                           bytes[OWNERS] / 8, &world->marks, world->medium,
                           bytes[MEDIUM], &world->free_slots,
                           &world->lowest_free);
}

/* The store goes on as the second program left it. */
static void keep_store(struct run *run)
{
    const struct world *world = &run->second;

    run->store.unit = world->unit;
    run->store.marks = world->marks;
    memcpy(run->store.owners, world->owners, run->lending.bytes[OWNERS]);
    memcpy(run->store.medium, world->medium, run->lending.bytes[MEDIUM]);
}

/* ---- Counting ---- */

/* The actions of 9Eh are commands of their own, and INQUIRY of a page counts as
   one; of other codes byte 1 does not tell. */
static const struct row {
    const char *name;
    uint8_t code;
    uint8_t action_bits;
    uint8_t action;
} rows[ROWS] = {
    {"TEST UNIT READY", 0x00, 0, 0},
    {"INQUIRY", 0x12, 0x01, 0x00},
    {"INQUIRY of a page", 0x12, 0x01, 0x01},
    {"READ CAPACITY(10)", 0x25, 0, 0},
    {"READ CAPACITY(16)", 0x9E, 0x1F, 0x10},
    {"GET LBA STATUS", 0x9E, 0x1F, 0x12},
    {"READ(10)", 0x28, 0, 0},
    {"READ(16)", 0x88, 0, 0},
    {"WRITE(10)", 0x2A, 0, 0},
    {"WRITE(16)", 0x8A, 0, 0},
    {"WRITE SAME(16)", 0x93, 0, 0},
    {"UNMAP", 0x42, 0, 0},
    {"RESERVE IN", 0x5E, 0, 0},
    {"RESERVE OUT", 0x5F, 0, 0},
};

static size_t row_of(const struct run *run)
{
    const uint8_t *cdb = run->request.cdb;
    size_t index = 0;

    if (run->lending.bytes[CDB] == 0)
        return ROWS;
    while (index < ROWS && (rows[index].code != cdb[0] ||
                            rows[index].action !=
                                (cdb[1] & rows[index].action_bits)))
        index++;
    return index;
}

/* The bytes tell how many blocks moved, or what room was lent for them. */
static void count_large(struct run *run, uint8_t code)
{
    const size_t least = (size_t)LARGE_SLOTS * RIDGE_BLOCK_BYTES;

    if ((code == 0x28 || code == 0x88) && run->second.returned >= least)
        run->figures.large_reads++;
    if ((code == 0x2A || code == 0x8A) && run->lending.bytes[DATA_OUT] >= least)
        run->figures.large_writes++;
}

static void count_preempt(struct run *run)
{
    static const uint8_t zero_key[8];
    const uint8_t *action_key = run->before.data_out + 8;
    uint32_t held = run->before.unit.rights.type & 15;
    uint8_t named = run->before.cdb[2] & 15;

    if (run->second.answer == RIDGE_LIST_FIELD)
        run->figures.zero_keys_refused[held]++;
    if (run->second.answer == RIDGE_GOOD &&
        memcmp(action_key, zero_key, sizeof zero_key) == 0)
        run->figures.taken_over[held][named]++;
}

/*
 * A call tells of its cell of the conflict rule where nothing else decided:
 * where it is good, since it was right in all else, and where it conflicts,
 * though RESERVE OUT conflicts for its keys too.
 */
static void count_cell(struct run *run, uint8_t code)
{
    bool told = run->second.answer == RIDGE_GOOD ||
                (run->second.answer == RIDGE_CONFLICT && code != 0x5F);
    size_t cell = CELLS;

    if (told)
        cell = cell_of(&run->before.unit.rights, run->lending.nexus,
                       run->before.cdb);
    if (cell != CELLS)
        run->figures.cells[cell]++;
}

static void copy_without(struct run *run)
{
    for (enum part part = 0; part < PARTS; part++)
        memcpy(part_of(&run->without, part), part_of(&run->before, part),
               run->lending.bytes[part]);
}

/* What the call in hand is answered where nothing waits for its sender. */
static void execute_without_waiting(struct run *run)
{
    copy_without(run);
    run->without.unit.attentions[run->lending.nexus] = RIDGE_NO_ATTENTION;
    execute(&run->lending, &run->without, second_execute);
}

/* What it is answered with right marks; whether with those room is told, so
   that nothing else was wrong. */
static void execute_with_right_marks(struct run *run)
{
    copy_without(run);
    run->without.marks = marks_due(run->before.owners,
                                   run->lending.bytes[OWNERS] / 8);
    ask_room(&run->lending, &run->without, second_room);
    run->marks_wrong = run->without.room == RIDGE_GOOD;
    execute(&run->lending, &run->without, second_execute);
}

static void count_occasions(struct run *run)
{
    struct occasion call;

    run->marks_wrong = false;
    if (run->second.answer == RIDGE_ATTENTION)
        execute_without_waiting(run);
    else if (!marks_are_due(&run->lending, &run->before))
        execute_with_right_marks(run);
    call = describe(run);
    occasions_count(&call, run->figures.occasions);
    attentions_count(&call, &run->figures.attentions);
    marks_count(&call, &run->figures.marks);
}

static void count_call(struct run *run)
{
    struct figures *figures = &run->figures;
    uint8_t code = run->lending.bytes[CDB] == 0 ? 0xFF : run->request.cdb[0];
    size_t row = row_of(run);
    bool good = run->second.answer == RIDGE_GOOD;

    figures->answers[run->second.answer & 15]++;
    figures->by_row[row]++;
    figures->good_by_row[row] += good ? 1 : 0;
    if (code == 0x5F && good)
        figures->good_actions[run->request.cdb[1] & 0x1F]++;
    if (code == 0x5F && (run->request.cdb[1] & 0x1F) == 4)
        count_preempt(run);
    if (good)
        count_large(run, code);
    count_cell(run, code);
    count_occasions(run);
}

/* Types 7 and 8 stand seldom, and much of what is rare wants them. */
static void make_call(struct run *run)
{
    const struct store *store = &run->store;
    unsigned rare = store->unit.rights.type >= 7 ? 13 : 7;
    uint64_t kind = random_below(&run->random, 100);

    if (kind < rare)
        generate_rare(&run->random, store, &run->request);
    else if (kind < rare + NOTICES)
        generate_notice(&run->random, store, &run->request);
    else if (kind < rare + NOTICES + ROOMS)
        generate_room(&run->random, store, &run->request);
    else if (kind >= rare + NOTICES + ROOMS + ATTENDED ||
             !generate_attended(&run->random, store, &run->request))
        generate_request(&run->random, store,
                         generate_nexus(&run->random, &store->unit.rights),
                         &run->request);
}

static void one_call(struct run *run)
{
    make_call(run);
    prepare(run);
    copy_worlds(run);
    run->figures.calls++;
    execute(&run->lending, &run->ridge, ridge_execute);
    execute(&run->lending, &run->second, second_execute);
    ask_room(&run->lending, &run->ridge, ridge_room);
    ask_room(&run->lending, &run->second, second_room);
    compare_libraries(run);
    hold_rules(run);
    hold_attentions(run);
    hold_room(run);
    count_call(run);
    keep_sense(run);
    if (run->lending.whole)
        keep_store(run);
}

/* ---- Fresh stores ---- */

/* Bounds and format for fresh: good ones mostly, else one of them is not. */
static uint64_t fresh_bounds(struct run *run)
{
    size_t slots = generate_slots(&run->random);
    uint64_t capacity = generate_capacity(&run->random, slots);
    struct lending *lending = &run->lending;

    memset(lending, 0, sizeof *lending);
    lending->format = generate_format(&run->random);
    lending->bytes[UNIT] = sizeof(struct ridge_unit);
    lending->bytes[OWNERS] = 8 * slots;
    lending->bytes[MARKS] = sizeof(struct ridge_marks);
    switch (random_below(&run->random, 8)) {
    case 0:
        lending->due_11 = true;
        return RANDOM_CHOICE(&run->random, 0, RIDGE_CAPACITY_LAST + 1,
                             UINT64_C(1) << 63, UINT64_MAX);
    case 1:
        lending->due_11 = true;
        lending->bytes[OWNERS] =
            8 * (size_t)RANDOM_CHOICE(&run->random, 0, 129);
        return capacity;
    case 2:
    case 3:
        lending->due_11 = true;
        lending->format = generate_wrong_format(&run->random);
        return capacity;
    default:
        return capacity;
    }
}

/* Any bytes for what was there before, but for the marks, of which a word may
   be 0. */
static void fill_before_fresh(struct run *run)
{
    uint64_t kind = random_below(&run->random, 10);

    for (enum part part = 0; part < PARTS; part++)
        fill_part(run, part);
    if (kind == 0 || kind == 1)
        run->before.marks.words[0] = 0;
    if (kind == 0 || kind == 2)
        run->before.marks.words[1] = 0;
}

/* What 01 and Q-7 say of a fresh store. */
static void hold_fresh(struct run *run, uint64_t capacity)
{
    const struct ridge_unit due = {.capacity = capacity};
    const struct world *world = &run->ridge;

    if (world->answer != RIDGE_GOOD)
        fail(run, "good bounds are refused");
    if (memcmp(&world->unit, &due, sizeof due) != 0)
        fail(run, "the record of a fresh store is another");
    for (size_t slot = 0; slot < run->lending.bytes[OWNERS] / 8; slot++) {
        if (world->owners[slot] != 0)
            fail(run, "a fresh store has a mapping");
    }
    if (world->marks.words[0] != 0 || world->marks.words[1] != 0)
        fail(run, "a fresh store has a mark");
}

static void count_fresh(struct run *run, uint64_t capacity)
{
    const struct fresh_asked asked = {capacity, run->lending.format,
                                      run->lending.bytes[OWNERS] / 8,
                                      &run->before.marks};

    run->figures.fresh++;
    occasions_count_fresh(run->lending.format, run->second.answer,
                          run->figures.occasions);
    marks_count_fresh(&asked, &run->figures.marks);
}

/* Makes a fresh store by both libraries; false if they refuse it. */
static bool fresh_store(struct run *run)
{
    uint64_t capacity = fresh_bounds(run);
    uint64_t format = run->lending.format;
    size_t slots = run->lending.bytes[OWNERS] / 8;

    fill_before_fresh(run);
    copy_worlds(run);
    run->ridge.returned = run->second.returned = 0;
    run->ridge.room = run->second.room = 0;
    run->ridge.answer =
        ridge_fresh(capacity, format, &run->ridge.unit, run->ridge.owners,
                    slots, &run->ridge.marks);
    run->second.answer =
        second_fresh(capacity, format, &run->second.unit, run->second.owners,
                     slots, &run->second.marks);
    compare_libraries(run);
    hold_rules(run);
    count_fresh(run, capacity);
    if (run->lending.due_11)
        return false;
    hold_fresh(run, capacity);
    run->store.format = format;
    run->store.slots = slots;
    keep_store(run);
    random_fill(&run->random, run->store.medium, RIDGE_BLOCK_BYTES * slots);
    return true;
}

/* ---- Figures at the end ---- */

static bool often_enough(const char *name, uint64_t count, uint64_t floor)
{
    if (count >= floor)
        return true;
    printf("too rare: %s, %" PRIu64 " times, floor %" PRIu64 "\n", name, count,
           floor);
    return false;
}

static bool print_answers(const struct figures *figures, uint64_t floor)
{
    bool enough = true;

    for (unsigned answer = 0; answer <= RIDGE_ATTENTION; answer++) {
        char name[32];

        if (answer == 9)
            continue;
        snprintf(name, sizeof name, "answer %u", answer);
        printf("%s: %" PRIu64 "\n", name, figures->answers[answer]);
        enough &= often_enough(name, figures->answers[answer], floor);
    }
    return enough;
}

static bool print_commands(const struct figures *figures, uint64_t floor)
{
    static const uint8_t actions[] = {0, 1, 2, 3, 4, 6};
    bool enough = true;

    for (size_t row = 0; row < ROWS; row++) {
        printf("%s: %" PRIu64 " calls, %" PRIu64 " good\n", rows[row].name,
               figures->by_row[row], figures->good_by_row[row]);
        enough &= often_enough(rows[row].name, figures->good_by_row[row],
                               floor);
    }
    printf("other codes or actions, or none: %" PRIu64 " calls\n",
           figures->by_row[ROWS]);
    printf("RESERVE OUT good by action:");
    for (size_t index = 0; index < sizeof actions; index++)
        printf(" %u: %" PRIu64, actions[index],
               figures->good_actions[actions[index]]);
    printf("\n");
    for (size_t index = 0; index < sizeof actions; index++)
        enough &= often_enough("an action of RESERVE OUT",
                               figures->good_actions[actions[index]], floor);
    return enough;
}

static bool print_large(const struct figures *figures, uint64_t floor)
{
    bool enough =
        often_enough("a large READ", figures->large_reads, floor);

    printf("good transfers of %d blocks and more: %" PRIu64 " READ, %" PRIu64
           " WRITE\n",
           LARGE_SLOTS, figures->large_reads, figures->large_writes);
    enough &= often_enough("a large WRITE", figures->large_writes, floor);
    return enough;
}

/* One row of a table by reservation type; each type listed must be met. */
static bool print_types(const char *name, const uint64_t counts[16],
                        const uint8_t *types, size_t count, uint64_t floor)
{
    bool enough = true;

    printf("%s:", name);
    for (size_t index = 0; index < count; index++)
        printf(" %u: %" PRIu64, types[index], counts[types[index]]);
    printf("\n");
    for (size_t index = 0; index < count; index++)
        enough &= often_enough(name, counts[types[index]], floor);
    return enough;
}

static bool print_zero_keys(const struct figures *figures, uint64_t floor)
{
    static const uint8_t refused[] = {0, 1, 3, 5, 6};
    static const uint8_t named[] = {1, 3, 5, 6, 7, 8};
    bool enough = print_types("PREEMPT with key 0 refused by type held",
                              figures->zero_keys_refused, refused,
                              sizeof refused, floor);

    enough &= print_types("taken over under 7 by type named",
                          figures->taken_over[7], named, sizeof named, floor);
    enough &= print_types("taken over under 8 by type named",
                          figures->taken_over[8], named, sizeof named, floor);
    return enough;
}

/* The cell of the conflict rule that the fewest calls tell of. */
static bool print_cells(const struct figures *figures, uint64_t floor)
{
    size_t least = 0;
    char name[CELL_NAME_ROOM];

    for (size_t cell = 1; cell < CELLS; cell++) {
        if (figures->cells[cell] < figures->cells[least])
            least = cell;
    }
    cell_name(least, name);
    printf("rarest of the %d cells of the conflict rule: %s, %" PRIu64 "\n",
           CELLS, name, figures->cells[least]);
    return often_enough(name, figures->cells[least], floor);
}

static bool print_occasions(const struct figures *figures, uint64_t floor)
{
    bool enough = true;
    size_t least = 0;

    for (size_t occasion = 0; occasion < OCCASIONS; occasion++) {
        uint64_t met = figures->occasions[occasion];

        printf("%s: %" PRIu64 "\n", occasion_name(occasion), met);
        enough &= often_enough(occasion_name(occasion), met, floor);
        if (met < figures->occasions[least])
            least = occasion;
    }
    printf("rarest of the %d occasions: %s, %" PRIu64 "\n", OCCASIONS,
           occasion_name(least), figures->occasions[least]);
    return enough;
}

/* Of a table the rarest cell. */
static bool print_table(const struct tables *tables, size_t table,
                        const uint64_t *met, uint64_t floor)
{
    char name[TABLE_NAME_ROOM];
    bool enough = true;
    size_t least = 0;

    for (size_t cell = 0; cell < table_cells(tables, table); cell++) {
        table_cell_name(tables, table, cell, name);
        enough &= often_enough(name, met[cell], floor);
        if (met[cell] < met[least])
            least = cell;
    }
    table_cell_name(tables, table, least, name);
    printf("rarest of %zu cells: %s: %" PRIu64 "\n",
           table_cells(tables, table), name, met[least]);
    return enough;
}

static bool print_tables(const struct figures *figures, uint64_t floor)
{
    bool enough = true;

    for (size_t table = 0; table < ATTENTION_TABLES; table++)
        enough &= print_table(&attention_tables, table,
                              figures->attentions.of[table], floor);
    for (size_t table = 0; table < MARK_TABLES; table++)
        enough &= print_table(&mark_tables, table, figures->marks.of[table],
                              floor);
    return enough;
}

static bool print_damages(const struct figures *figures, uint64_t floor)
{
    bool enough = true;

    for (size_t way = 0; way < DAMAGE_WAYS; way++) {
        uint64_t made = figures->damages[way];

        printf("damage, %s: %" PRIu64 "\n", damage_name(way), made);
        enough &= often_enough(damage_name(way), made, floor);
    }
    return enough;
}

/* Long ones get far from where they began, short ones begin in many places. */
static uint64_t history_length(struct run *run)
{
    uint64_t most = random_percent(&run->random, 50) ? 100 : 20;

    return 1 + random_below(&run->random, most);
}

/* A history in which others are preempted and cleared is left with few that are
   registered; so at times there are other ones. */
static void run_calls(struct run *run, uint64_t calls)
{
    struct progress progress = console_progress("differential", "calls", calls);
    uint64_t left = 0;

    while (run->figures.calls < calls) {
        if (left == 0) {
            left = history_length(run);
            if (random_percent(&run->random, 50) || !fresh_store(run))
                generate_store(&run->random, &run->store);
        } else if (random_percent(&run->random, RENEWED)) {
            generate_rights(&run->random, &run->store.unit.rights);
        }
        one_call(run);
        left--;
        console_tell(&progress, run->figures.calls);
    }
}

/* Rarity says nothing in a short run. */
static bool print_figures(const struct figures *figures)
{
    uint64_t floor = figures->calls < CALLS_LONG ? 0 : figures->calls / 2000;
    bool enough = print_answers(figures, floor);

    enough &= print_commands(figures, floor);
    enough &= print_large(figures, floor);
    enough &= print_zero_keys(figures, floor / 20);
    enough &= print_cells(figures, floor / 5);
    enough &= print_occasions(figures, floor / 20);
    enough &= print_tables(figures, floor / 20);
    enough &= print_damages(figures, floor / 2);
    return enough;
}

int main(int count, char **words)
{
    static struct run run;
    uint64_t calls = CALLS_DEFAULT;
    bool enough;

    if (count > 3) {
        fprintf(stderr, "usage: differential [CALLS [SEED]]\n");
        return 2;
    }
    if (count > 1)
        calls = console_number("CALLS", words[1], 1);
    run.seed = console_seed(count > 2 ? words[2] : NULL);
    run.random.state = run.seed;
    printf("differential: %" PRIu64 " calls, SEED=%" PRIu64 "\n", calls,
           run.seed);
    fflush(stdout);
    run_calls(&run, calls);
    enough = print_figures(&run.figures);
    printf("%" PRIu64 " calls, %" PRIu64 " fresh stores, %" PRIu64
           " calls on damaged stores, seed %" PRIu64 ": no difference\n",
           run.figures.calls, run.figures.fresh, run.figures.damaged,
           run.seed);
    return enough ? 0 : 2;
}
