/* The store in memory and in bytes (store.h). The bytes are the host's own and
   stay as they are when the C interface lays the same record out otherwise in
   memory. When the record gains fields, this file learns them, STORE_LAYOUT
   rises, and store_unpack keeps reading the layouts before it.

   Layout 3, which store_pack writes, numbers most significant byte first:
     0-3     slots
     4-7     numbers of the record, 20
     8-15    the format of sense, 70h fixed or 72h descriptor
     16-175  the record, 8 bytes a number: capacity, generation, type, holder,
             the nexuses of the 8 places, the keys of the 8 places
     176-191 what waits for nexuses 0 to 15, a byte each: 0 nothing, 1 that
             registrations were preempted, 2 reservations preempted, 3 released
     192-    the owners, 8 bytes a slot
             the medium, 512 bytes a slot

   The marks stand in no layout. They are determined by the owners, so they are
   made of them when a store is read: no file can have others, and the library
   tests them with the rest.

   Layout 2, which servers wrote when there were no attentions, is the same
   without bytes 176-191: nothing waits in its store. Layout 1, of when sense had
   one format, is layout 2 without bytes 8-15: its store has fixed sense. */
#include "store.h"

#include <string.h>

#include "numbers.h"

enum {
    LAYOUT_FIRST = 1,
    LAYOUT_WITH_FORMAT = 2,
    LAYOUT_WITH_ATTENTIONS = 3,
    COUNTS_BYTES = 8,
    FORMAT_BYTES = 8,
    NUMBER_BYTES = 8,
    /* Of descriptor sense: what is always there, and where its length stands. */
    SENSE_HEADER_BYTES = 8,
    SENSE_LENGTH_AT = 7
};

/* Where the record's numbers stand among themselves. */
enum {
    CAPACITY,
    GENERATION,
    TYPE,
    HOLDER,
    NEXUSES,
    KEYS = NEXUSES + RIDGE_PLACES,
    RECORD_NUMBERS = KEYS + RIDGE_PLACES
};

_Static_assert(COUNTS_BYTES + FORMAT_BYTES == STORE_HEAD_BYTES &&
                   RECORD_NUMBERS * NUMBER_BYTES == STORE_RECORD_BYTES &&
                   (int)RIDGE_NEXUSES == STORE_ATTENTION_BYTES,
               "another head or record needs another layout");

int store_fresh(struct store *store, uint64_t capacity, uint64_t format,
                uint64_t slots)
{
    memset(store, 0, sizeof *store);
    if (slots > RIDGE_SLOTS)
        return 0;
    store->format = format;
    store->slots = (size_t)slots;
    return ridge_fresh(capacity, format, &store->unit, store->owners,
                       store->slots, &store->marks) == RIDGE_GOOD;
}

/* Descriptor sense says its own length; it is held to the room, whatever it
   says, since these bytes leave the process. */
static size_t sense_bytes(const struct store *store, const uint8_t *sense,
                          uint64_t answer)
{
    switch (answer) {
    case RIDGE_GOOD:
    case RIDGE_CONFLICT:
    case RIDGE_UNUSABLE:
    case RIDGE_BUFFER_SHORT:
        return 0;
    default:
        break;
    }
    if (store->format == RIDGE_FIXED)
        return RIDGE_SENSE_BYTES;
    size_t told = SENSE_HEADER_BYTES + (size_t)sense[SENSE_LENGTH_AT];
    return told < STORE_SENSE_BYTES ? told : STORE_SENSE_BYTES;
}

uint64_t store_execute(struct store *store, struct store_call *call)
{
    uint64_t answer = ridge_execute(
        store->format, &store->unit, store->owners, store->slots,
        &store->marks, store->medium, store->slots * RIDGE_BLOCK_BYTES,
        call->nexus, call->cdb, call->cdb_bytes, call->data_out,
        call->data_out_bytes, call->data_in, call->data_in_bytes, call->sense,
        sizeof call->sense, &call->returned);
    call->sense_bytes = sense_bytes(store, call->sense, answer);
    return answer;
}

uint64_t store_room(const struct store *store, struct store_room *room)
{
    return ridge_room(store->format, &store->unit, store->owners, store->slots,
                      &store->marks, store->medium,
                      store->slots * RIDGE_BLOCK_BYTES, &room->free_slots,
                      &room->lowest_free);
}

uint64_t store_capacity(const struct store *store)
{
    return store->unit.capacity;
}

uint64_t store_format(const struct store *store)
{
    return store->format;
}

size_t store_slots(const struct store *store)
{
    return store->slots;
}

/* Record and marks have no padding, so that their bytes are their fields. */
int store_same(const struct store *one, const struct store *other)
{
    return one->format == other->format && one->slots == other->slots &&
           memcmp(&one->unit, &other->unit, sizeof one->unit) == 0 &&
           memcmp(&one->marks, &other->marks, sizeof one->marks) == 0 &&
           memcmp(one->owners, other->owners,
                  one->slots * sizeof one->owners[0]) == 0 &&
           memcmp(one->medium, other->medium,
                  one->slots * RIDGE_BLOCK_BYTES) == 0;
}

/* What stands before the record. */
static size_t head_bytes(uint32_t layout)
{
    return COUNTS_BYTES + (layout >= LAYOUT_WITH_FORMAT ? FORMAT_BYTES : 0);
}

static size_t attention_bytes(uint32_t layout)
{
    return layout >= LAYOUT_WITH_ATTENTIONS ? STORE_ATTENTION_BYTES : 0;
}

static size_t packed_bytes(uint32_t layout, uint64_t slots)
{
    return head_bytes(layout) + STORE_RECORD_BYTES + attention_bytes(layout) +
           (NUMBER_BYTES + RIDGE_BLOCK_BYTES) * (size_t)slots;
}

static uint8_t *put_numbers(uint8_t *at, const uint64_t *numbers, size_t count)
{
    for (size_t i = 0; i < count; i++, at += NUMBER_BYTES)
        put_number(at, numbers[i], NUMBER_BYTES);
    return at;
}

static const uint8_t *take_numbers(const uint8_t *at, uint64_t *numbers,
                                   size_t count)
{
    for (size_t i = 0; i < count; i++, at += NUMBER_BYTES)
        numbers[i] = number_at(at, NUMBER_BYTES);
    return at;
}

static uint8_t *put_record(uint8_t *at, const struct ridge_unit *unit)
{
    const struct ridge_rights *rights = &unit->rights;
    uint64_t numbers[RECORD_NUMBERS];
    numbers[CAPACITY] = unit->capacity;
    numbers[GENERATION] = rights->generation;
    numbers[TYPE] = rights->type;
    numbers[HOLDER] = rights->holder;
    for (size_t place = 0; place < RIDGE_PLACES; place++) {
        numbers[NEXUSES + place] = rights->places[place].nexus;
        numbers[KEYS + place] = rights->places[place].key;
    }
    return put_numbers(at, numbers, RECORD_NUMBERS);
}

/* Gives NULL, or why the numbers are no record: these two have 32 bits, and a
   cut one would be another. */
static const char *take_record(const uint8_t *at, struct ridge_unit *unit)
{
    struct ridge_rights *rights = &unit->rights;
    uint64_t numbers[RECORD_NUMBERS];
    take_numbers(at, numbers, RECORD_NUMBERS);
    if (numbers[GENERATION] > UINT32_MAX)
        return "its generation is too large: it has more than 32 bits";
    if (numbers[TYPE] > UINT32_MAX)
        return "its reservation type is too large: it has more than 32 bits";
    unit->capacity = numbers[CAPACITY];
    rights->generation = (uint32_t)numbers[GENERATION];
    rights->type = (uint32_t)numbers[TYPE];
    rights->holder = numbers[HOLDER];
    for (size_t place = 0; place < RIDGE_PLACES; place++) {
        rights->places[place].nexus = numbers[NEXUSES + place];
        rights->places[place].key = numbers[KEYS + place];
    }
    return NULL;
}

size_t store_pack(const struct store *store, uint8_t *bytes)
{
    put_number(bytes, store->slots, 4);
    put_number(bytes + 4, RECORD_NUMBERS, 4);
    uint8_t *at = put_numbers(bytes + COUNTS_BYTES, &store->format, 1);
    at = put_record(at, &store->unit);
    memcpy(at, store->unit.attentions, STORE_ATTENTION_BYTES);
    at = put_numbers(at + STORE_ATTENTION_BYTES, store->owners, store->slots);
    memcpy(at, store->medium, store->slots * RIDGE_BLOCK_BYTES);
    return packed_bytes(STORE_LAYOUT, store->slots);
}

/* A mark for each slot that has an owner, and no other. */
static void mark_owners(struct store *store)
{
    memset(&store->marks, 0, sizeof store->marks);
    for (size_t slot = 0; slot < store->slots; slot++)
        if (store->owners[slot] != 0)
            store->marks.words[slot / RIDGE_WORD_SLOTS] |=
                UINT64_C(1) << slot % RIDGE_WORD_SLOTS;
}

/* The room is told of a store in a valid state alone, so it is the library
   itself that says whether this is one. */
static int is_usable(const struct store *store)
{
    struct store_room room;
    return store_room(store, &room) == RIDGE_GOOD;
}

/* Gives NULL, or why the head's format is none. */
static const char *take_format(const uint8_t *bytes, uint32_t layout,
                               uint64_t *format)
{
    *format = layout >= LAYOUT_WITH_FORMAT
                  ? number_at(bytes + COUNTS_BYTES, FORMAT_BYTES)
                  : RIDGE_FIXED;
    return *format == RIDGE_FIXED || *format == RIDGE_DESCRIPTOR
               ? NULL
               : "its format of sense is neither fixed nor descriptor";
}

const char *store_unpack(struct store *store, uint32_t layout,
                         const uint8_t *bytes, size_t count)
{
    memset(store, 0, sizeof *store);
    if (layout < LAYOUT_FIRST || layout > STORE_LAYOUT)
        return "its store is in a layout that this program does not know";
    if (count < head_bytes(layout))
        return "its store is cut short";
    uint64_t slots = number_at(bytes, 4), numbers = number_at(bytes + 4, 4);
    if (slots < 1 || slots > RIDGE_SLOTS)
        return "its number of slots is out of bounds";
    if (numbers != RECORD_NUMBERS || count != packed_bytes(layout, slots))
        return "its store does not have the length that its slots need";
    const uint8_t *record = bytes + head_bytes(layout);
    const char *wrong = take_format(bytes, layout, &store->format);
    if (wrong == NULL)
        wrong = take_record(record, &store->unit);
    if (wrong != NULL)
        return wrong;
    store->slots = (size_t)slots;
    const uint8_t *at = record + STORE_RECORD_BYTES;
    memcpy(store->unit.attentions, at, attention_bytes(layout));
    at = take_numbers(at + attention_bytes(layout), store->owners,
                      store->slots);
    memcpy(store->medium, at, store->slots * RIDGE_BLOCK_BYTES);
    mark_owners(store);
    return is_usable(store) ? NULL : "its store is not in a valid state";
}
