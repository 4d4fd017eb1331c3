/*
 * second.c - a second implementation of the unit, written from the papers
 * alone and independent of the proved library. It follows 01, with requests
 * of 02; Q-5 changes no answer. The tests run both on
 * the same calls; the speed figures take it as their baseline.
 *
 * Plain C11: no heap, no globals but constant tables. The order of the tests in
 * each function is the papers' order, since the first that fails is the answer.
 *
 * Nothing is read off the marks here: what is free, and which slot comes first,
 * is found by walking over the owners, and the marks are made from the owners
 * by a walk. Q-7 says that both ways come to the same.
 */

#include "second.h"

#include <stdbool.h>
#include <string.h>

enum { NO_PLACE = RIDGE_PLACES, NO_SLOT = RIDGE_SLOTS };

/* Reservation types; RESERVATION_NONE stands in the type field for no one. */
enum {
    RESERVATION_NONE = 0,
    WRITE_EXCLUSIVE = 1,
    EXCLUSIVE_ACCESS = 3,
    WRITE_EXCLUSIVE_REGISTRANTS = 5,
    EXCLUSIVE_ACCESS_REGISTRANTS = 6,
    WRITE_EXCLUSIVE_ALL = 7,
    EXCLUSIVE_ACCESS_ALL = 8
};

/* Where a field lies, in the CDB or in the parameter list. */
struct field {
    size_t first_byte;
    uint8_t top_bit;
};

/* One call: what was lent, once the bounds are known to hold; and what sense is
   to tell beyond the answer's codes: after an answer 2 or 5 the field that was
   wrong, after 3 or 8 the address, after 13 the attention. */
struct call {
    uint64_t format;
    struct ridge_unit *unit;
    uint64_t *owners;
    size_t slots;
    struct ridge_marks *marks;
    uint8_t *medium;
    uint64_t nexus;
    const uint8_t *cdb;
    const uint8_t *data_out;
    size_t data_out_bytes;
    uint8_t *data_in;
    size_t data_in_bytes;
    uint64_t *returned;
    struct field wrong;
    uint64_t address;
    uint8_t attention;
};

/* ---- Numbers in buffers, most significant byte first ---- */

static uint64_t load(const uint8_t *bytes, size_t count)
{
    uint64_t value = 0;

    for (size_t index = 0; index < count; index++)
        value = value << 8 | bytes[index];
    return value;
}

static void store(uint8_t *bytes, size_t count, uint64_t value)
{
    for (size_t index = count; index > 0; index--) {
        bytes[index - 1] = (uint8_t)value;
        value >>= 8;
    }
}

static uint64_t smaller(uint64_t left, uint64_t right)
{
    return left < right ? left : right;
}

/* ---- Wrong fields ---- */

/* Every answer 2 and 5 begins with one of these, which names the field where it
   is tested. The first that is wrong ends the call, so whoever tests several
   goes by lowest byte, then by highest bit. */
static uint64_t wrong_in_cdb(struct call *call, size_t first_byte,
                             uint8_t top_bit)
{
    call->wrong = (struct field){first_byte, top_bit};
    return RIDGE_CDB_FIELD;
}

static uint64_t wrong_in_list(struct call *call, size_t first_byte,
                              uint8_t top_bit)
{
    call->wrong = (struct field){first_byte, top_bit};
    return RIDGE_LIST_FIELD;
}

/* ---- Addresses that cannot be served ---- */

/* Every answer 3 and 8 begins with one of these, which keeps the address that
   sense is to tell: the command's first, of UNMAP that of the descriptor that
   fails. Where exactly the end or the room is met does not count. */
static uint64_t out_of_range(struct call *call, uint64_t address)
{
    call->address = address;
    return RIDGE_ADDRESS_RANGE;
}

static uint64_t out_of_room(struct call *call, uint64_t address)
{
    call->address = address;
    return RIDGE_POOL_FULL;
}

/* ---- Validity of a state ---- */

static bool is_type(uint32_t type)
{
    switch (type) {
    case WRITE_EXCLUSIVE:
    case EXCLUSIVE_ACCESS:
    case WRITE_EXCLUSIVE_REGISTRANTS:
    case EXCLUSIVE_ACCESS_REGISTRANTS:
    case WRITE_EXCLUSIVE_ALL:
    case EXCLUSIVE_ACCESS_ALL:
        return true;
    default:
        return false;
    }
}

/* Under types 7 and 8 every registered nexus is a holder. */
static bool is_for_all(uint32_t type)
{
    return type == WRITE_EXCLUSIVE_ALL || type == EXCLUSIVE_ACCESS_ALL;
}

static bool is_for_registrants(uint32_t type)
{
    return type == WRITE_EXCLUSIVE_REGISTRANTS ||
           type == EXCLUSIVE_ACCESS_REGISTRANTS;
}

static bool is_exclusive_access(uint32_t type)
{
    return type == EXCLUSIVE_ACCESS || type == EXCLUSIVE_ACCESS_REGISTRANTS ||
           type == EXCLUSIVE_ACCESS_ALL;
}

/* The place of a registered nexus, or NO_PLACE. */
static size_t place_of(const struct ridge_rights *rights, uint64_t nexus)
{
    for (size_t place = 0; place < RIDGE_PLACES; place++) {
        if (rights->places[place].key != 0 &&
            rights->places[place].nexus == nexus)
            return place;
    }
    return NO_PLACE;
}

static bool is_registered(const struct ridge_rights *rights, uint64_t nexus)
{
    return place_of(rights, nexus) != NO_PLACE;
}

static size_t registrations(const struct ridge_rights *rights)
{
    size_t count = 0;

    for (size_t place = 0; place < RIDGE_PLACES; place++) {
        if (rights->places[place].key != 0)
            count++;
    }
    return count;
}

static bool valid_map(const uint64_t *owners, size_t slots, uint64_t capacity)
{
    for (size_t slot = 0; slot < slots; slot++) {
        if (owners[slot] > capacity)
            return false;
        for (size_t higher = slot + 1; higher < slots; higher++) {
            if (owners[slot] != 0 && owners[slot] == owners[higher])
                return false;
        }
    }
    return true;
}

/* The marks that go with these owners: slot i is bit i mod 64 of word i / 64.
   There are no more slots than bits. */
static struct ridge_marks marks_of(const uint64_t *owners, size_t slots)
{
    struct ridge_marks marks = {{0}};

    for (size_t slot = 0; slot < slots; slot++) {
        if (owners[slot] != 0)
            marks.words[slot / RIDGE_WORD_SLOTS] |=
                UINT64_C(1) << slot % RIDGE_WORD_SLOTS;
    }
    return marks;
}

/* All bits of both words count, also those of slots that the pool lacks. */
static bool valid_marks(const struct ridge_marks *marks,
                        const uint64_t *owners, size_t slots)
{
    struct ridge_marks due = marks_of(owners, slots);

    return marks->words[0] == due.words[0] && marks->words[1] == due.words[1];
}

static bool valid_places(const struct ridge_rights *rights)
{
    for (size_t place = 0; place < RIDGE_PLACES; place++) {
        uint64_t nexus = rights->places[place].nexus;

        if (rights->places[place].key == 0) {
            if (nexus != 0)
                return false;
        } else if (nexus > RIDGE_NEXUS_LAST ||
                   place_of(rights, nexus) != place) {
            return false;
        }
    }
    return true;
}

static bool valid_reservation(const struct ridge_rights *rights)
{
    uint32_t type = rights->type;
    uint64_t holder = rights->holder;

    if (type == RESERVATION_NONE)
        return holder == 0;
    if (!is_type(type))
        return false;
    if (is_for_all(type))
        return holder == 0 && registrations(rights) > 0;
    return is_registered(rights, holder);
}

/* Whether its nexus is registered does not count: what waits may be that it no
   longer is. */
static bool valid_attentions(const uint8_t attentions[RIDGE_NEXUSES])
{
    for (size_t nexus = 0; nexus < RIDGE_NEXUSES; nexus++) {
        switch (attentions[nexus]) {
        case RIDGE_NO_ATTENTION:
        case RIDGE_REGISTRATIONS_PREEMPTED:
        case RIDGE_RESERVATIONS_PREEMPTED:
        case RIDGE_RESERVATIONS_RELEASED:
            break;
        default:
            return false;
        }
    }
    return true;
}

static bool valid_bounds(uint64_t capacity, size_t slots)
{
    return capacity >= 1 && capacity <= RIDGE_CAPACITY_LAST && slots >= 1 &&
           slots <= RIDGE_SLOTS;
}

/* In its whole width: a number that some of its bits make a format is none. */
static bool valid_format(uint64_t format)
{
    return format == RIDGE_FIXED || format == RIDGE_DESCRIPTOR;
}

/* What has to hold of a store, whatever is asked of it. The slots are counted
   before anybody walks over them. */
static bool valid_store(uint64_t format, const struct ridge_unit *unit,
                        const uint64_t *owners, size_t slots,
                        const struct ridge_marks *marks, size_t medium_bytes)
{
    return valid_format(format) && valid_bounds(unit->capacity, slots) &&
           medium_bytes == slots * RIDGE_BLOCK_BYTES &&
           valid_places(&unit->rights) && valid_reservation(&unit->rights) &&
           valid_attentions(unit->attentions) &&
           valid_map(owners, slots, unit->capacity) &&
           valid_marks(marks, owners, slots);
}

/* ---- Who conflicts ---- */

static bool is_holder(const struct call *call)
{
    const struct ridge_rights *rights = &call->unit->rights;

    if (rights->type == RESERVATION_NONE)
        return false;
    if (is_for_all(rights->type))
        return is_registered(rights, call->nexus);
    return rights->holder == call->nexus;
}

static bool is_blocked(const struct call *call)
{
    const struct ridge_rights *rights = &call->unit->rights;

    if (rights->type == RESERVATION_NONE || is_holder(call))
        return false;
    return !(is_for_registrants(rights->type) &&
             is_registered(rights, call->nexus));
}

static bool write_conflicts(const struct call *call)
{
    return is_blocked(call);
}

static bool read_conflicts(const struct call *call)
{
    return is_blocked(call) && is_exclusive_access(call->unit->rights.type);
}

/* ---- Blocks ---- */

struct range {
    uint64_t address;
    uint64_t count;
};

/* The sum is not formed: near 2^64 it would wrap to a small one. */
static bool range_fits(const struct call *call, struct range range)
{
    uint64_t capacity = call->unit->capacity;

    return range.address <= capacity &&
           range.count <= capacity - range.address;
}

static bool in_range(uint64_t owner, struct range range)
{
    return owner != 0 && owner - 1 >= range.address &&
           owner - 1 - range.address < range.count;
}

/*
 * Reads the range of a READ or WRITE: address bytes 2-5 and count 7-8 in ten
 * byte CDBs, 2-9 and 10-13 in those of sixteen. GOOD unless 01 refuses a field.
 */
static uint64_t transfer_range(struct call *call, bool sixteen,
                               struct range *range)
{
    const uint8_t *cdb = call->cdb;

    range->address = sixteen ? load(cdb + 2, 8) : load(cdb + 2, 4);
    range->count = sixteen ? load(cdb + 10, 4) : load(cdb + 7, 2);
    if ((cdb[1] & 0xE0) != 0)
        return wrong_in_cdb(call, 1, 7);
    if (range->count > RIDGE_TRANSFER_BLOCKS)
        return wrong_in_cdb(call, sixteen ? 10 : 7, 7);
    return RIDGE_GOOD;
}

/* One pass over the owners: where each block of the range lies. */
static size_t index_range(const struct call *call, struct range range,
                          uint8_t slot_of[RIDGE_TRANSFER_BLOCKS])
{
    size_t mapped = 0;

    memset(slot_of, NO_SLOT, range.count);
    for (size_t slot = 0; slot < call->slots; slot++) {
        if (in_range(call->owners[slot], range)) {
            slot_of[call->owners[slot] - 1 - range.address] = (uint8_t)slot;
            mapped++;
        }
    }
    return mapped;
}

static uint8_t *slot_bytes(const struct call *call, size_t slot)
{
    return call->medium + slot * RIDGE_BLOCK_BYTES;
}

static uint64_t read_blocks(struct call *call, bool sixteen)
{
    struct range range;
    uint8_t slot_of[RIDGE_TRANSFER_BLOCKS];
    size_t bytes;

    if (transfer_range(call, sixteen, &range) != RIDGE_GOOD)
        return RIDGE_CDB_FIELD;
    if (read_conflicts(call))
        return RIDGE_CONFLICT;
    if (!range_fits(call, range))
        return out_of_range(call, range.address);
    bytes = (size_t)range.count * RIDGE_BLOCK_BYTES;
    if (call->data_in_bytes < bytes)
        return RIDGE_BUFFER_SHORT;
    index_range(call, range, slot_of);
    for (size_t index = 0; index < range.count; index++) {
        uint8_t *target = call->data_in + index * RIDGE_BLOCK_BYTES;

        if (slot_of[index] == NO_SLOT)
            memset(target, 0, RIDGE_BLOCK_BYTES);
        else
            memcpy(target, slot_bytes(call, slot_of[index]),
                   RIDGE_BLOCK_BYTES);
    }
    *call->returned = bytes;
    return RIDGE_GOOD;
}

static size_t count_free(const uint64_t *owners, size_t slots)
{
    size_t count = 0;

    for (size_t slot = 0; slot < slots; slot++) {
        if (owners[slot] == 0)
            count++;
    }
    return count;
}

/* The number of the slots if none is free. */
static size_t find_free(const uint64_t *owners, size_t slots)
{
    size_t slot = 0;

    while (slot < slots && owners[slot] != 0)
        slot++;
    return slot;
}

static size_t free_slots(const struct call *call)
{
    return count_free(call->owners, call->slots);
}

/* The end of whatever gave slots an owner, or took one away. */
static void mark_slots(struct call *call)
{
    *call->marks = marks_of(call->owners, call->slots);
}

/* What goes into the blocks of a range: the bytes of the first, and how far
   behind them those of the next lie, which is 0 where all blocks get the
   same. */
struct source {
    const uint8_t *bytes;
    size_t step;
};

/*
 * Moves the blocks once there is room for all of them. The search for a free
 * slot goes on where the last one ended: slots below it are taken by then.
 */
static void place_blocks(struct call *call, struct range range,
                         const uint8_t slot_of[RIDGE_TRANSFER_BLOCKS],
                         struct source source)
{
    size_t lowest_free = 0;

    for (size_t index = 0; index < range.count; index++) {
        size_t slot = slot_of[index];

        if (slot == NO_SLOT) {
            while (call->owners[lowest_free] != 0)
                lowest_free++;
            slot = lowest_free;
            call->owners[slot] = range.address + index + 1;
        }
        memcpy(slot_bytes(call, slot), source.bytes + index * source.step,
               RIDGE_BLOCK_BYTES);
    }
    mark_slots(call);
}

/* The end of a WRITE and of a WRITE SAME that writes. */
static uint64_t write_range(struct call *call, struct range range,
                            struct source source)
{
    uint8_t slot_of[RIDGE_TRANSFER_BLOCKS];
    size_t mapped = index_range(call, range, slot_of);

    if (range.count - mapped > free_slots(call))
        return out_of_room(call, range.address);
    place_blocks(call, range, slot_of, source);
    return RIDGE_GOOD;
}

static uint64_t write_blocks(struct call *call, bool sixteen)
{
    struct range range;
    struct source source = {call->data_out, RIDGE_BLOCK_BYTES};

    if (transfer_range(call, sixteen, &range) != RIDGE_GOOD)
        return RIDGE_CDB_FIELD;
    if (write_conflicts(call))
        return RIDGE_CONFLICT;
    if (!range_fits(call, range))
        return out_of_range(call, range.address);
    if (call->data_out_bytes < range.count * RIDGE_BLOCK_BYTES)
        return RIDGE_BUFFER_SHORT;
    return write_range(call, range, source);
}

static uint64_t read_10(struct call *call)
{
    return read_blocks(call, false);
}

static uint64_t read_16(struct call *call)
{
    return read_blocks(call, true);
}

static uint64_t write_10(struct call *call)
{
    return write_blocks(call, false);
}

static uint64_t write_16(struct call *call)
{
    return write_blocks(call, true);
}

/* ---- UNMAP ---- */

static struct range descriptor(const struct call *call, size_t index)
{
    const uint8_t *bytes = call->data_out + 8 + 16 * index;
    struct range range = {load(bytes, 8), load(bytes + 8, 4)};

    return range;
}

static void unmap_range(struct call *call, struct range range)
{
    for (size_t slot = 0; slot < call->slots; slot++) {
        if (in_range(call->owners[slot], range))
            call->owners[slot] = 0;
    }
    mark_slots(call);
}

static uint64_t unmap(struct call *call)
{
    uint64_t length = load(call->cdb + 7, 2);
    size_t considered;

    if ((call->cdb[1] & 0x01) != 0)
        return wrong_in_cdb(call, 1, 0);
    if (write_conflicts(call))
        return RIDGE_CONFLICT;
    if (length == 0)
        return RIDGE_GOOD;
    if (length < 8)
        return RIDGE_LIST_LENGTH;
    if (call->data_out_bytes < length)
        return RIDGE_BUFFER_SHORT;
    considered = (size_t)smaller(load(call->data_out + 2, 2), length - 8) / 16;
    if (considered > RIDGE_DESCRIPTORS)
        return wrong_in_list(call, 2, 7);
    for (size_t index = 0; index < considered; index++) {
        if (!range_fits(call, descriptor(call, index)))
            return out_of_range(call, descriptor(call, index).address);
    }
    for (size_t index = 0; index < considered; index++)
        unmap_range(call, descriptor(call, index));
    return RIDGE_GOOD;
}

/* ---- WRITE SAME ---- */

static bool is_zero(const uint8_t block[RIDGE_BLOCK_BYTES])
{
    for (size_t at = 0; at < RIDGE_BLOCK_BYTES; at++) {
        if (block[at] != 0)
            return false;
    }
    return true;
}

/* GOOD unless Q-1 refuses a field of the CDB: unlike a WRITE's, the count may
   not be 0. */
static uint64_t same_fields(struct call *call, struct range range)
{
    enum { WRPROTECT = 0xE0, ANCHOR = 0x10 };
    uint8_t flags = call->cdb[1];

    if ((flags & WRPROTECT) != 0)
        return wrong_in_cdb(call, 1, 7);
    if ((flags & ANCHOR) != 0)
        return wrong_in_cdb(call, 1, 4);
    if (range.count == 0 || range.count > RIDGE_TRANSFER_BLOCKS)
        return wrong_in_cdb(call, 10, 7);
    return RIDGE_GOOD;
}

/* With NDOB the block is zeros and data-out is not looked at. */
static uint64_t write_same(struct call *call)
{
    enum { UNMAP = 0x08, NDOB = 0x01 };
    static const uint8_t zeros[RIDGE_BLOCK_BYTES];
    struct range range = {load(call->cdb + 2, 8), load(call->cdb + 10, 4)};
    bool without_data = (call->cdb[1] & NDOB) != 0;
    struct source same = {without_data ? zeros : call->data_out, 0};

    if (same_fields(call, range) != RIDGE_GOOD)
        return RIDGE_CDB_FIELD;
    if (write_conflicts(call))
        return RIDGE_CONFLICT;
    if (!range_fits(call, range))
        return out_of_range(call, range.address);
    if (!without_data && call->data_out_bytes < RIDGE_BLOCK_BYTES)
        return RIDGE_BUFFER_SHORT;
    if ((call->cdb[1] & UNMAP) != 0 && is_zero(same.bytes)) {
        unmap_range(call, range);
        return RIDGE_GOOD;
    }
    return write_range(call, range, same);
}

/* ---- Parameter data ---- */

/* Returns the first min(allocation, available) bytes. */
static uint64_t give(struct call *call, const uint8_t *bytes, size_t available,
                     uint64_t allocation)
{
    size_t count = (size_t)smaller(allocation, available);

    if (call->data_in_bytes < count)
        return RIDGE_BUFFER_SHORT;
    memcpy(call->data_in, bytes, count);
    *call->returned = count;
    return RIDGE_GOOD;
}

static uint64_t test_unit_ready(struct call *call)
{
    (void)call;
    return RIDGE_GOOD;
}

static uint64_t read_capacity_10(struct call *call)
{
    uint8_t data[8];
    uint64_t last = call->unit->capacity - 1;

    store(data, 4, smaller(last, UINT32_MAX));
    store(data + 4, 4, RIDGE_BLOCK_BYTES);
    return give(call, data, sizeof data, sizeof data);
}

static uint64_t read_capacity_16(struct call *call)
{
    uint8_t data[32] = {0};

    store(data, 8, call->unit->capacity - 1);
    store(data + 8, 4, RIDGE_BLOCK_BYTES);
    data[14] = 0xC0;
    return give(call, data, sizeof data, load(call->cdb + 10, 4));
}

/* ---- INQUIRY ---- */

static const uint8_t standard_data[36] =
    "\x00\x00\x06\x02\x1F\x00\x00\x00"
    "RIDGE   "
    "LOAD LOG STORE  "
    "0100";

/* Codes of the pages of vital product data; there are no others. */
enum {
    SUPPORTED_PAGES = 0x00,
    BLOCK_LIMITS = 0xB0,
    LOGICAL_BLOCK_PROVISIONING = 0xB2
};

/* Where the fields of a page lie, here and below by the names that SPC and SBC
   have for them. A page is zeros at first, so that fields nobody writes are 0:
   of the header that is byte 0, PERIPHERAL QUALIFIER and PERIPHERAL DEVICE
   TYPE. */
enum { PAGE_CODE = 1, PAGE_LENGTH = 2, PAGE_HEADER = 4, PAGE_ROOM = 64 };

/* Names the page; its length counts what follows the header. */
static size_t finish_page(uint8_t page[PAGE_ROOM], uint8_t code, size_t bytes)
{
    page[PAGE_CODE] = code;
    store(page + PAGE_LENGTH, 2, bytes - PAGE_HEADER);
    return bytes;
}

static size_t supported_pages(uint8_t page[PAGE_ROOM])
{
    static const uint8_t codes[] = {SUPPORTED_PAGES, BLOCK_LIMITS,
                                    LOGICAL_BLOCK_PROVISIONING};

    memcpy(page + PAGE_HEADER, codes, sizeof codes);
    return finish_page(page, SUPPORTED_PAGES, PAGE_HEADER + sizeof codes);
}

/* The limits are those that READ, WRITE, WRITE SAME and UNMAP test, by the same
   names. The blocks of an UNMAP have none but what its descriptors can say, and
   FFFF_FFFFh tells that. */
static size_t block_limits(uint8_t page[PAGE_ROOM])
{
    enum {
        WSNZ = 4, /* bit 0 of it */
        MAXIMUM_COMPARE_AND_WRITE_LENGTH = 5,
        OPTIMAL_TRANSFER_LENGTH_GRANULARITY = 6,
        MAXIMUM_TRANSFER_LENGTH = 8,
        OPTIMAL_TRANSFER_LENGTH = 12,
        MAXIMUM_PREFETCH_LENGTH = 16,
        MAXIMUM_UNMAP_LBA_COUNT = 20,
        MAXIMUM_UNMAP_BLOCK_DESCRIPTOR_COUNT = 24,
        OPTIMAL_UNMAP_GRANULARITY = 28,
        UNMAP_GRANULARITY_ALIGNMENT = 32, /* and UGAVALID, its top bit */
        MAXIMUM_WRITE_SAME_LENGTH = 36,   /* of eight bytes */
        MAXIMUM_ATOMIC_TRANSFER_LENGTH = 44,
        ATOMIC_ALIGNMENT = 48,
        ATOMIC_TRANSFER_LENGTH_GRANULARITY = 52,
        MAXIMUM_ATOMIC_TRANSFER_LENGTH_WITH_ATOMIC_BOUNDARY = 56,
        MAXIMUM_ATOMIC_BOUNDARY_SIZE = 60,
        BLOCK_LIMITS_BYTES = 64
    };

    page[WSNZ] = 0x01;
    store(page + MAXIMUM_TRANSFER_LENGTH, 4, RIDGE_TRANSFER_BLOCKS);
    store(page + MAXIMUM_UNMAP_LBA_COUNT, 4, UINT32_MAX);
    store(page + MAXIMUM_UNMAP_BLOCK_DESCRIPTOR_COUNT, 4, RIDGE_DESCRIPTORS);
    store(page + MAXIMUM_WRITE_SAME_LENGTH, 8, RIDGE_TRANSFER_BLOCKS);
    return finish_page(page, BLOCK_LIMITS, BLOCK_LIMITS_BYTES);
}

static size_t logical_block_provisioning(uint8_t page[PAGE_ROOM])
{
    enum {
        THRESHOLD_EXPONENT = 4,
        UNMAPPING = 5,         /* the bits below */
        PROVISIONING_TYPE = 6, /* bits 2-0; above them MINIMUM PERCENTAGE */
        THRESHOLD_PERCENTAGE = 7,
        PROVISIONING_BYTES = 8
    };
    enum {
        LBPU = 0x80,
        LBPWS = 0x40,
        LBPWS10 = 0x20,
        LBPRZ = 0x04, /* of bits 4-2: 001b, unmapped blocks read as zeros */
        ANC_SUP = 0x02,
        DP = 0x01
    };
    enum { THIN_PROVISIONED = 2 };

    page[UNMAPPING] = LBPU | LBPWS | LBPRZ;
    page[PROVISIONING_TYPE] = THIN_PROVISIONED;
    return finish_page(page, LOGICAL_BLOCK_PROVISIONING, PROVISIONING_BYTES);
}

/* Fills in the page of that code; returns its bytes, 0 if there is none. */
static size_t put_page(uint8_t code, uint8_t page[PAGE_ROOM])
{
    switch (code) {
    case SUPPORTED_PAGES:
        return supported_pages(page);
    case BLOCK_LIMITS:
        return block_limits(page);
    case LOGICAL_BLOCK_PROVISIONING:
        return logical_block_provisioning(page);
    default:
        return 0;
    }
}

/* Bit 0 of byte 1 asks for a page; where it is clear none may be named. */
static uint64_t inquiry(struct call *call)
{
    enum { EVPD = 0x01 };
    uint8_t code = call->cdb[2];
    uint64_t allocation = load(call->cdb + 3, 2);
    uint8_t page[PAGE_ROOM] = {0};
    size_t bytes;

    if ((call->cdb[1] & EVPD) == 0) {
        if (code != 0)
            return wrong_in_cdb(call, 2, 7);
        return give(call, standard_data, sizeof standard_data, allocation);
    }
    bytes = put_page(code, page);
    if (bytes == 0)
        return wrong_in_cdb(call, 2, 7);
    return give(call, page, bytes, allocation);
}

/* ---- GET LBA STATUS ---- */

/* The first block from that address on that is mapped; the capacity if there
   is none. */
static uint64_t next_mapped(const struct call *call, uint64_t address)
{
    uint64_t next = call->unit->capacity;

    for (size_t slot = 0; slot < call->slots; slot++) {
        uint64_t owner = call->owners[slot];

        if (owner != 0 && owner - 1 >= address)
            next = smaller(next, owner - 1);
    }
    return next;
}

/* Likewise for one that is not mapped. There are no more mapped blocks than
   slots, so that they can be taken one by one; unmapped ones could not. */
static uint64_t next_unmapped(const struct call *call, uint64_t address)
{
    while (address < call->unit->capacity &&
           next_mapped(call, address) == address)
        address++;
    return address;
}

enum {
    STATUS_HEADER = 8,
    STATUS_DESCRIPTOR = 16,
    STATUS_RUNS = 32,
    STATUS_BYTES = STATUS_HEADER + STATUS_DESCRIPTOR * STATUS_RUNS
};

/* Writes the descriptor of the run that begins there; returns its blocks. What
   a run has beyond the field's width is the next descriptor's. */
static uint64_t put_run(const struct call *call, uint64_t address,
                        uint8_t bytes[STATUS_DESCRIPTOR])
{
    bool mapped = next_mapped(call, address) == address;
    uint64_t end =
        mapped ? next_unmapped(call, address) : next_mapped(call, address);
    uint64_t count = smaller(end - address, UINT32_MAX);

    memset(bytes, 0, STATUS_DESCRIPTOR);
    store(bytes, 8, address);
    store(bytes + 8, 4, count);
    bytes[12] = mapped ? 0 : 1;
    return count;
}

/* The length field counts what follows it, as SBC has it. */
static size_t status_list(const struct call *call, uint64_t address,
                          uint8_t data[STATUS_BYTES])
{
    size_t length = STATUS_HEADER;

    memset(data, 0, STATUS_HEADER);
    while (address < call->unit->capacity && length < STATUS_BYTES) {
        address += put_run(call, address, data + length);
        length += STATUS_DESCRIPTOR;
    }
    store(data, 4, length - 4);
    return length;
}

static uint64_t get_lba_status(struct call *call)
{
    uint64_t address = load(call->cdb + 2, 8);
    uint8_t data[STATUS_BYTES];

    if (read_conflicts(call))
        return RIDGE_CONFLICT;
    if (address >= call->unit->capacity)
        return out_of_range(call, address);
    return give(call, data, status_list(call, address, data),
                load(call->cdb + 10, 4));
}

static uint64_t service_action_in(struct call *call)
{
    switch (call->cdb[1] & 0x1F) {
    case 0x10:
        return read_capacity_16(call);
    case 0x12:
        return get_lba_status(call);
    default:
        return wrong_in_cdb(call, 1, 4);
    }
}

/* ---- PERSISTENT RESERVE IN ---- */

static size_t key_list(const struct ridge_rights *rights,
                       uint8_t data[8 + 8 * RIDGE_PLACES])
{
    size_t length = 0;

    for (size_t place = 0; place < RIDGE_PLACES; place++) {
        if (rights->places[place].key != 0) {
            store(data + 8 + length, 8, rights->places[place].key);
            length += 8;
        }
    }
    store(data, 4, rights->generation);
    store(data + 4, 4, length);
    return 8 + length;
}

static uint64_t holder_key(const struct ridge_rights *rights)
{
    if (is_for_all(rights->type))
        return 0;
    return rights->places[place_of(rights, rights->holder)].key;
}

static size_t reservation_list(const struct ridge_rights *rights,
                               uint8_t data[24])
{
    memset(data, 0, 24);
    store(data, 4, rights->generation);
    if (rights->type == RESERVATION_NONE)
        return 8;
    store(data + 4, 4, 16);
    store(data + 8, 8, holder_key(rights));
    data[21] = (uint8_t)rights->type;
    return 24;
}

static uint64_t reserve_in(struct call *call)
{
    const struct ridge_rights *rights = &call->unit->rights;
    uint8_t data[8 + 8 * RIDGE_PLACES];
    uint64_t allocation = load(call->cdb + 7, 2);

    switch (call->cdb[1] & 0x1F) {
    case 0:
        return give(call, data, key_list(rights, data), allocation);
    case 1:
        return give(call, data, reservation_list(rights, data), allocation);
    default:
        return wrong_in_cdb(call, 1, 4);
    }
}

/* ---- PERSISTENT RESERVE OUT ---- */

/* What a service action works on; the sender's place may be NO_PLACE. */
struct order {
    uint32_t type;
    uint64_t key;
    uint64_t action_key;
    size_t place;
};

enum action {
    REGISTER = 0,
    RESERVE = 1,
    RELEASE = 2,
    CLEAR = 3,
    PREEMPT = 4,
    REGISTER_AND_IGNORE = 6
};

/* Of 32 bits: 0 follows FFFF_FFFFh. */
static void raise_generation(struct ridge_rights *rights)
{
    rights->generation++;
}

static void end_reservation(struct ridge_rights *rights)
{
    rights->type = RESERVATION_NONE;
    rights->holder = 0;
}

static void make_reservation(struct call *call, uint32_t type)
{
    call->unit->rights.type = type;
    call->unit->rights.holder = is_for_all(type) ? 0 : call->nexus;
}

static void empty_place(struct ridge_rights *rights, size_t place)
{
    rights->places[place].nexus = 0;
    rights->places[place].key = 0;
}

/* Lets whoever is registered in a place know what was done, in place of what
   may still wait for it. The sender knows. */
static void tell(struct call *call, size_t place, uint8_t attention)
{
    const struct ridge_place *registered = &call->unit->rights.places[place];

    if (registered->key != 0 && registered->nexus != call->nexus)
        call->unit->attentions[registered->nexus] = attention;
}

/*
 * For the end of RELEASE, of a holder's unregistering and of PREEMPT, which may
 * end the reservation that was of the type `held`, or change its type. Those
 * who are still registered then learn of it; under 1 and 3 they had no part in
 * the reservation.
 */
static void tell_of_release(struct call *call, uint32_t held)
{
    if (call->unit->rights.type == held)
        return;
    if (!is_for_registrants(held) && !is_for_all(held))
        return;
    for (size_t place = 0; place < RIDGE_PLACES; place++)
        tell(call, place, RIDGE_RESERVATIONS_RELEASED);
}

/* Ends the reservation if its holder, or the last of all holders, is gone. */
static void end_if_unheld(struct ridge_rights *rights)
{
    if (!valid_reservation(rights))
        end_reservation(rights);
}

static size_t lowest_free_place(const struct ridge_rights *rights)
{
    size_t place = 0;

    while (place < RIDGE_PLACES && rights->places[place].key != 0)
        place++;
    return place;
}

static uint64_t register_new(struct call *call, uint64_t key)
{
    struct ridge_rights *rights = &call->unit->rights;
    size_t place = lowest_free_place(rights);

    if (key == 0)
        return RIDGE_GOOD;
    if (place == NO_PLACE)
        return RIDGE_PLACES_USED;
    rights->places[place].nexus = call->nexus;
    rights->places[place].key = key;
    raise_generation(rights);
    return RIDGE_GOOD;
}

static uint64_t register_key(struct call *call, const struct order *order)
{
    struct ridge_rights *rights = &call->unit->rights;
    uint32_t held = rights->type;

    if (order->place == NO_PLACE)
        return register_new(call, order->action_key);
    if (order->action_key != 0) {
        rights->places[order->place].key = order->action_key;
    } else {
        empty_place(rights, order->place);
        end_if_unheld(rights);
        tell_of_release(call, held);
    }
    raise_generation(rights);
    return RIDGE_GOOD;
}

static uint64_t reserve(struct call *call, const struct order *order)
{
    uint32_t held = call->unit->rights.type;

    if (held == RESERVATION_NONE) {
        make_reservation(call, order->type);
        return RIDGE_GOOD;
    }
    if (is_holder(call) && held == order->type)
        return RIDGE_GOOD;
    return RIDGE_CONFLICT;
}

static uint64_t release(struct call *call, const struct order *order)
{
    uint32_t held = call->unit->rights.type;

    if (!is_holder(call))
        return RIDGE_GOOD;
    if (held != order->type)
        return RIDGE_RELEASE_TYPE;
    end_reservation(&call->unit->rights);
    tell_of_release(call, held);
    return RIDGE_GOOD;
}

static uint64_t clear(struct call *call)
{
    struct ridge_rights *rights = &call->unit->rights;

    for (size_t place = 0; place < RIDGE_PLACES; place++) {
        tell(call, place, RIDGE_RESERVATIONS_PREEMPTED);
        empty_place(rights, place);
    }
    end_reservation(rights);
    raise_generation(rights);
    return RIDGE_GOOD;
}

static bool somebody_has(const struct ridge_rights *rights, uint64_t key)
{
    for (size_t place = 0; place < RIDGE_PLACES; place++) {
        if (rights->places[place].key == key)
            return true;
    }
    return false;
}

/* What PREEMPT does to whoever is registered in a place. */
static void remove_place(struct call *call, size_t place)
{
    tell(call, place, RIDGE_REGISTRATIONS_PREEMPTED);
    empty_place(&call->unit->rights, place);
}

/* Removes all with the key, save the place spared (NO_PLACE spares none). */
static void remove_key(struct call *call, uint64_t key, size_t spared)
{
    for (size_t place = 0; place < RIDGE_PLACES; place++) {
        if (place != spared && call->unit->rights.places[place].key == key)
            remove_place(call, place);
    }
}

static void remove_others(struct call *call, size_t spared)
{
    for (size_t place = 0; place < RIDGE_PLACES; place++) {
        if (place != spared)
            remove_place(call, place);
    }
}

/*
 * PREEMPT with service action key 0. Where all registrants hold, no one key is
 * the holder's, and 0 stands for all of them: the sender, whose own key was
 * right, takes over from the others. Elsewhere 0 is nobody's key.
 */
static uint64_t take_over(struct call *call, const struct order *order)
{
    struct ridge_rights *rights = &call->unit->rights;

    if (!is_for_all(rights->type))
        return wrong_in_list(call, 8, 7);
    remove_others(call, order->place);
    make_reservation(call, order->type);
    raise_generation(rights);
    return RIDGE_GOOD;
}

static uint64_t preempt(struct call *call, const struct order *order)
{
    struct ridge_rights *rights = &call->unit->rights;
    uint32_t held = rights->type;

    if (order->action_key == 0)
        return take_over(call, order);
    if (!somebody_has(rights, order->action_key))
        return RIDGE_CONFLICT;
    if (held != RESERVATION_NONE && !is_for_all(held) &&
        holder_key(rights) == order->action_key) {
        remove_key(call, order->action_key, order->place);
        make_reservation(call, order->type);
        tell_of_release(call, held);
    } else {
        remove_key(call, order->action_key, NO_PLACE);
        end_if_unheld(rights);
    }
    raise_generation(rights);
    return RIDGE_GOOD;
}

/* A registered sender gives its key, in REGISTER an unregistered one 0. */
static bool key_is_right(const struct call *call, const struct order *order,
                         enum action action)
{
    if (action == REGISTER_AND_IGNORE)
        return true;
    if (order->place == NO_PLACE)
        return action == REGISTER && order->key == 0;
    return order->key == call->unit->rights.places[order->place].key;
}

static uint64_t act(struct call *call, const struct order *order,
                    enum action action)
{
    if (!key_is_right(call, order, action))
        return RIDGE_CONFLICT;
    switch (action) {
    case RESERVE:
        return reserve(call, order);
    case RELEASE:
        return release(call, order);
    case CLEAR:
        return clear(call);
    case PREEMPT:
        return preempt(call, order);
    default:
        return register_key(call, order);
    }
}

/* Scope and type are two fields of one byte. */
static uint64_t scope_and_type(struct call *call)
{
    if ((call->cdb[2] & 0xF0) != 0)
        return wrong_in_cdb(call, 2, 7);
    if (!is_type(call->cdb[2]))
        return wrong_in_cdb(call, 2, 3);
    return RIDGE_GOOD;
}

/* GOOD unless the action is not served, or its scope or type not known. */
static uint64_t action_fields(struct call *call)
{
    switch (call->cdb[1] & 0x1F) {
    case REGISTER:
    case CLEAR:
    case REGISTER_AND_IGNORE:
        return RIDGE_GOOD;
    case RESERVE:
    case RELEASE:
    case PREEMPT:
        return scope_and_type(call);
    default:
        return wrong_in_cdb(call, 1, 4);
    }
}

/* What the two REGISTERs refuse: each flag is a field of one bit. */
static uint64_t list_flags(struct call *call)
{
    enum { FLAGS_AT = 20, SPEC_I_PT = 3, ALL_TG_PT = 2, APTPL = 0 };
    static const uint8_t refused[] = {SPEC_I_PT, ALL_TG_PT, APTPL};

    for (size_t index = 0; index < sizeof refused; index++) {
        if ((call->data_out[FLAGS_AT] >> refused[index] & 1) != 0)
            return wrong_in_list(call, FLAGS_AT, refused[index]);
    }
    return RIDGE_GOOD;
}

static uint64_t reserve_out(struct call *call)
{
    enum { LIST_BYTES = 24 };
    enum action action = call->cdb[1] & 0x1F;
    struct order order;

    if (action_fields(call) != RIDGE_GOOD)
        return RIDGE_CDB_FIELD;
    if (load(call->cdb + 5, 4) != LIST_BYTES)
        return RIDGE_LIST_LENGTH;
    if (call->data_out_bytes < LIST_BYTES)
        return RIDGE_BUFFER_SHORT;
    if ((action == REGISTER || action == REGISTER_AND_IGNORE) &&
        list_flags(call) != RIDGE_GOOD)
        return RIDGE_LIST_FIELD;
    order.type = call->cdb[2];
    order.key = load(call->data_out, 8);
    order.action_key = load(call->data_out + 8, 8);
    order.place = place_of(&call->unit->rights, call->nexus);
    return act(call, &order, action);
}

/* ---- The commands ---- */

struct command {
    uint8_t code;
    uint8_t cdb_bytes;
    uint64_t (*serve)(struct call *call);
};

static const struct command commands[] = {
    {0x00, 6, test_unit_ready},
    {0x12, 6, inquiry},
    {0x25, 10, read_capacity_10},
    {0x28, 10, read_10},
    {0x2A, 10, write_10},
    {0x42, 10, unmap},
    {0x5E, 10, reserve_in},
    {0x5F, 10, reserve_out},
    {0x88, 16, read_16},
    {0x8A, 16, write_16},
    {0x93, 16, write_same},
    {0x9E, 16, service_action_in},
};

static const struct command *find_command(uint8_t code)
{
    for (size_t index = 0; index < sizeof commands / sizeof *commands;
         index++) {
        if (commands[index].code == code)
            return &commands[index];
    }
    return NULL;
}

static bool is_waiting(const struct call *call)
{
    return call->unit->attentions[call->nexus] != RIDGE_NO_ATTENTION;
}

/* Takes away what waits for the sender; sense tells it. */
static uint64_t deliver(struct call *call)
{
    uint8_t *waiting = &call->unit->attentions[call->nexus];

    call->attention = *waiting;
    *waiting = RIDGE_NO_ATTENTION;
    return RIDGE_ATTENTION;
}

/* While something waits for the sender, INQUIRY alone is served. The CDB's last
   byte is the control byte; its bit 2 is NACA. */
static uint64_t dispatch(struct call *call, size_t cdb_bytes)
{
    const struct command *command = find_command(call->cdb[0]);

    if (command == NULL)
        return RIDGE_CODE_NOT_LISTED;
    if (cdb_bytes != command->cdb_bytes)
        return RIDGE_UNUSABLE;
    if (is_waiting(call) && command->serve != inquiry)
        return deliver(call);
    if ((call->cdb[cdb_bytes - 1] & 0x04) != 0)
        return wrong_in_cdb(call, cdb_bytes - 1, 2);
    return command->serve(call);
}

/* ---- Sense data ---- */

/* The most that a format may have to write: each call lends so much, whatever
   its answer will be. */
static size_t sense_room(uint64_t format)
{
    return format == RIDGE_DESCRIPTOR ? RIDGE_DESCRIPTOR_SENSE_BYTES
                                      : RIDGE_SENSE_BYTES;
}

/* Key, ASC and ASCQ for the answers of status 02h: 1 to 8, and 13. */
static const uint8_t sense_codes[9][3] = {
    {0, 0, 0},          {0x05, 0x20, 0x00}, {0x05, 0x24, 0x00},
    {0x05, 0x21, 0x00}, {0x05, 0x1A, 0x00}, {0x05, 0x26, 0x00},
    {0x05, 0x55, 0x04}, {0x05, 0x26, 0x04}, {0x07, 0x27, 0x07},
};

static const uint8_t attention_codes[4][3] = {
    [RIDGE_REGISTRATIONS_PREEMPTED] = {0x06, 0x2A, 0x05},
    [RIDGE_RESERVATIONS_PREEMPTED] = {0x06, 0x2A, 0x03},
    [RIDGE_RESERVATIONS_RELEASED] = {0x06, 0x2A, 0x04},
};

static bool has_sense(uint64_t answer)
{
    return (answer >= RIDGE_CODE_NOT_LISTED && answer <= RIDGE_POOL_FULL) ||
           answer == RIDGE_ATTENTION;
}

static const uint8_t *codes_of(uint64_t answer, const struct call *call)
{
    return answer == RIDGE_ATTENTION ? attention_codes[call->attention]
                                     : sense_codes[answer];
}

static bool tells_field(uint64_t answer)
{
    return answer == RIDGE_CDB_FIELD || answer == RIDGE_LIST_FIELD;
}

static bool tells_address(uint64_t answer)
{
    return answer == RIDGE_ADDRESS_RANGE || answer == RIDGE_POOL_FULL;
}

/* The three bytes that SPC names SENSE KEY SPECIFIC, in either format. */
static void point_at(uint8_t bytes[3], uint64_t answer, struct field wrong)
{
    enum { SKSV = 0x80, COMMAND_DATA = 0x40, BPV = 0x08 };
    uint8_t whose = answer == RIDGE_CDB_FIELD ? COMMAND_DATA : 0;

    bytes[0] = SKSV | whose | BPV | wrong.top_bit;
    store(bytes + 1, 2, wrong.first_byte);
}

/* INFORMATION has four bytes here. An address that they do not hold is left
   out: a part of it would be another block's. */
static void fixed_sense(uint8_t *sense, uint64_t answer,
                        const struct call *call)
{
    enum { VALID = 0x80, ADDITIONAL_LENGTH = 0x0A };
    const uint8_t *codes = codes_of(answer, call);

    memset(sense, 0, RIDGE_SENSE_BYTES);
    sense[0] = RIDGE_FIXED;
    sense[2] = codes[0];
    sense[7] = ADDITIONAL_LENGTH;
    sense[12] = codes[1];
    sense[13] = codes[2];
    if (tells_field(answer))
        point_at(sense + 15, answer, call->wrong);
    if (tells_address(answer) && call->address <= UINT32_MAX) {
        sense[0] |= VALID;
        store(sense + 3, 4, call->address);
    }
}

/* Each descriptor begins with its type and the number of bytes behind these
   two; the function returns all that it wrote. */
static size_t put_information(uint8_t *bytes, uint64_t address)
{
    enum { INFORMATION = 0x00, LENGTH = 0x0A, VALID = 0x80 };

    bytes[0] = INFORMATION;
    bytes[1] = LENGTH;
    bytes[2] = VALID;
    bytes[3] = 0;
    store(bytes + 4, 8, address);
    return 2 + LENGTH;
}

static size_t put_place(uint8_t *bytes, uint64_t answer, struct field wrong)
{
    enum { SENSE_KEY_SPECIFIC = 0x02, LENGTH = 0x06 };

    bytes[0] = SENSE_KEY_SPECIFIC;
    bytes[1] = LENGTH;
    bytes[2] = 0;
    bytes[3] = 0;
    point_at(bytes + 4, answer, wrong);
    bytes[7] = 0;
    return 2 + LENGTH;
}

/* A header that tells how much follows it: one descriptor or none. Bytes past
   that are the caller's and stay. */
static void descriptor_sense(uint8_t *sense, uint64_t answer,
                             const struct call *call)
{
    enum { HEADER = 8 };
    size_t behind = 0;

    memset(sense, 0, HEADER);
    sense[0] = RIDGE_DESCRIPTOR;
    memcpy(sense + 1, codes_of(answer, call), 3);
    if (tells_field(answer))
        behind = put_place(sense + HEADER, answer, call->wrong);
    if (tells_address(answer))
        behind = put_information(sense + HEADER, call->address);
    sense[7] = (uint8_t)behind;
}

static void write_sense(uint8_t *sense, uint64_t answer,
                        const struct call *call)
{
    if (!has_sense(answer))
        return;
    if (call->format == RIDGE_DESCRIPTOR)
        descriptor_sense(sense, answer, call);
    else
        fixed_sense(sense, answer, call);
}

/* ---- The functions ---- */

uint64_t SECOND_NAME(fresh)(uint64_t capacity, uint64_t format,
                            struct ridge_unit *unit, uint64_t *owners,
                            size_t slots, struct ridge_marks *marks)
{
    if (!valid_bounds(capacity, slots) || !valid_format(format))
        return RIDGE_UNUSABLE;
    memset(unit, 0, sizeof *unit);
    memset(owners, 0, slots * sizeof *owners);
    memset(marks, 0, sizeof *marks);
    unit->capacity = capacity;
    return RIDGE_GOOD;
}

uint64_t SECOND_NAME(execute)(
    uint64_t format, struct ridge_unit *unit, uint64_t *owners, size_t slots,
    struct ridge_marks *marks, uint8_t *medium, size_t medium_bytes,
    uint64_t nexus, const uint8_t *cdb, size_t cdb_bytes,
    const uint8_t *data_out, size_t data_out_bytes, uint8_t *data_in,
    size_t data_in_bytes, uint8_t *sense, size_t sense_bytes,
    uint64_t *returned)
{
    struct call call = {format,   unit,           owners,  slots,
                        marks,    medium,         nexus,   cdb,
                        data_out, data_out_bytes, data_in, data_in_bytes,
                        returned, {0, 0},         0,       0};
    uint64_t answer;

    *returned = 0;
    if (nexus > RIDGE_NEXUS_LAST || cdb_bytes == 0 ||
        sense_bytes < sense_room(format) ||
        !valid_store(format, unit, owners, slots, marks, medium_bytes))
        return RIDGE_UNUSABLE;
    answer = dispatch(&call, cdb_bytes);
    write_sense(sense, answer, &call);
    return answer;
}

/* No nexus asks this: neither a reservation nor an attention counts. */
uint64_t SECOND_NAME(room)(uint64_t format, const struct ridge_unit *unit,
                           const uint64_t *owners, size_t slots,
                           const struct ridge_marks *marks,
                           const uint8_t *medium, size_t medium_bytes,
                           uint64_t *free_slots, uint64_t *lowest_free)
{
    (void)medium;
    if (!valid_store(format, unit, owners, slots, marks, medium_bytes))
        return RIDGE_UNUSABLE;
    *free_slots = count_free(owners, slots);
    *lowest_free = find_free(owners, slots);
    return RIDGE_GOOD;
}
