/*
 * generate.c - random stores and random calls; generate.h says what for.
 *
 * A command's generator fills the CDB with random bytes first and then sets the
 * fields that count, so fields to be ignored take all values. Sizes of buffers
 * fall on the exact need, one below and one above it more often than elsewhere.
 */

#include "generate.h"

#include <string.h>

/* ---- Random numbers: splitmix64 ---- */

uint64_t random_word(struct random *random)
{
    uint64_t word = random->state += UINT64_C(0x9E3779B97F4A7C15);

    word = (word ^ word >> 30) * UINT64_C(0xBF58476D1CE4E5B9);
    word = (word ^ word >> 27) * UINT64_C(0x94D049BB133111EB);
    return word ^ word >> 31;
}

uint64_t random_below(struct random *random, uint64_t bound)
{
    return random_word(random) % bound;
}

bool random_percent(struct random *random, unsigned percent)
{
    return random_below(random, 100) < percent;
}

void random_fill(struct random *random, uint8_t *bytes, size_t count)
{
    while (count > 0) {
        uint64_t word = random_word(random);
        size_t part = count < sizeof word ? count : sizeof word;

        memcpy(bytes, &word, part);
        bytes += part;
        count -= part;
    }
}

uint64_t random_choice(struct random *random, const uint64_t *words,
                       size_t count)
{
    return words[random_below(random, count)];
}

static void put(uint8_t *bytes, size_t count, uint64_t value)
{
    for (size_t index = count; index > 0; index--) {
        bytes[index - 1] = (uint8_t)value;
        value >>= 8;
    }
}

static uint64_t get(const uint8_t *bytes, size_t count)
{
    uint64_t value = 0;

    while (count-- > 0)
        value = value << 8 | *bytes++;
    return value;
}

/* ---- Formats of sense ---- */

bool is_format(uint64_t number)
{
    return number == RIDGE_FIXED || number == RIDGE_DESCRIPTOR;
}

uint64_t generate_format(struct random *random)
{
    return RANDOM_CHOICE(random, RIDGE_FIXED, RIDGE_DESCRIPTOR);
}

/* F0h and F2h are response codes with VALID set, 71h and 73h those of deferred
   errors; 0 to 2 are what a format might be numbered by. */
uint64_t generate_wrong_format(struct random *random)
{
    uint64_t format = generate_format(random);
    uint64_t with_bit_7 = format + 0x80;
    uint64_t of_8_bits =
        format + (UINT64_C(1) << RANDOM_CHOICE(random, 8, 9, 15));
    uint64_t of_16_bits =
        format + (UINT64_C(1) << RANDOM_CHOICE(random, 16, 24, 31));
    uint64_t of_32_bits =
        format + (UINT64_C(1) << RANDOM_CHOICE(random, 32, 40, 63));
    uint64_t any = 0x80 + random_below(random, UINT32_MAX);

    return RANDOM_CHOICE(random, 0, 1, 2, 0x6F, 0x71, 0x73, 0x74, with_bit_7,
                         with_bit_7, of_8_bits, of_16_bits, of_32_bits,
                         UINT64_MAX, any);
}

size_t sense_wanted(uint64_t format)
{
    return format == RIDGE_DESCRIPTOR ? RIDGE_DESCRIPTOR_SENSE_BYTES
                                      : RIDGE_SENSE_BYTES;
}

/* Mostly just what is wanted, else a little more, or much. */
static size_t enough_sense(struct random *random, uint64_t format)
{
    return sense_wanted(format) +
           (size_t)RANDOM_CHOICE(random, 0, 0, 0, 0, 1, 2, 3, 12, 232);
}

/* Mostly a byte or two too few: the other format may want no more than that. */
static size_t too_little_sense(struct random *random, uint64_t format)
{
    size_t wanted = sense_wanted(format);
    size_t any = (size_t)random_below(random, wanted);

    return (size_t)RANDOM_CHOICE(random, wanted - 1, wanted - 1, wanted - 2,
                                 wanted - 3, 0, any, any);
}

/* ---- Stores ---- */

size_t generate_slots(struct random *random)
{
    uint64_t kind = random_below(random, 100);

    if (kind < 58)
        return (size_t)(1 + random_below(random, 8));
    if (kind < 73)
        return (size_t)(9 + random_below(random, 24));
    if (kind < 85)
        return (size_t)RANDOM_CHOICE(random, 62, 63, 63, 63, 64, 64, 64, 64, 65,
                                     65, 65, 66);
    if (kind < 87)
        return (size_t)(33 + random_below(random, LARGE_SLOTS - 33));
    if (kind < 90)
        return RIDGE_SLOTS - 1;
    if (kind < 93)
        return (size_t)(LARGE_SLOTS +
                        random_below(random, RIDGE_SLOTS + 1 - LARGE_SLOTS));
    return RIDGE_SLOTS;
}

static uint64_t small_capacity(struct random *random, size_t slots)
{
    if (slots >= EDGE_SLOTS && random_percent(random, 90))
        return slots + random_below(random, 60);
    if (slots >= RUNS_SLOTS && random_percent(random, 60))
        return RUNS_TOLD + random_below(random, RUNS_TOLD);
    return 1 + random_below(random, 40);
}

uint64_t generate_capacity(struct random *random, size_t slots)
{
    uint64_t kind = random_below(random, 100);

    if (kind < 55)
        return small_capacity(random, slots);
    if (kind < 70)
        return 100 + random_below(random, 200);
    if (kind < 80)
        return (UINT64_C(1) << 32) + random_below(random, 5) - 2;
    if (kind < 90)
        return RIDGE_CAPACITY_LAST - random_below(random, 3);
    return 1 + random_below(random, RIDGE_CAPACITY_LAST);
}

/* Mostly near one of the ends, so that ranges and mappings meet. */
static uint64_t address_within(struct random *random, uint64_t capacity)
{
    uint64_t near = random_below(random, capacity < 160 ? capacity : 160);

    switch (random_below(random, 8)) {
    case 0:
        return random_below(random, capacity);
    case 1:
    case 2:
        return capacity - 1 - near;
    case 3:
        return (UINT64_C(0xFFFFFFF8) + random_below(random, 16)) % capacity;
    default:
        return near;
    }
}

/* A slot at an end of the pool, or of a word of marks. */
static size_t edge_slot(struct random *random, size_t slots)
{
    uint64_t slot = RANDOM_CHOICE(random, 0, 62, 63, 63, 63, 64, 64, 65,
                                  slots - 1, slots - 1);

    return slot < slots ? (size_t)slot : slots - 1;
}

static bool is_owner(const struct store *store, uint64_t owner)
{
    for (size_t slot = 0; slot < store->slots; slot++) {
        if (store->owners[slot] == owner)
            return true;
    }
    return false;
}

/* Blocks anywhere, in slots of no order, none twice. */
static void strew_blocks(struct random *random, struct store *store)
{
    unsigned fill = (unsigned)random_below(random, 101);

    for (size_t slot = 0; slot < store->slots; slot++) {
        uint64_t owner = 1 + address_within(random, store->unit.capacity);

        if (random_percent(random, fill) && !is_owner(store, owner))
            store->owners[slot] = owner;
    }
}

/*
 * Neighbouring blocks in neighbouring slots, up to the last slot: only so is a
 * transfer of 128 mapped blocks made. At times a few slots stay free, or the
 * last ones, so that a large write has room.
 */
static void fill_in_order(struct random *random, struct store *store)
{
    uint64_t capacity = store->unit.capacity;
    uint64_t most = capacity < store->slots ? capacity : store->slots;
    uint64_t spare = capacity - most;
    uint64_t first = random_percent(random, 50)
                         ? spare
                         : random_below(random, spare < 40 ? spare + 1 : 40);
    unsigned holes = (unsigned)RANDOM_CHOICE(random, 0, 0, 0, 1, 5);

    if (random_percent(random, 15))
        most -= random_below(random, most < 30 ? most : 30);
    for (size_t slot = 0; slot < most; slot++) {
        if (!random_percent(random, holes))
            store->owners[slot] = first + slot + 1;
    }
}

static void shuffle_owners(struct random *random, struct store *store)
{
    for (size_t left = store->slots; left > 1; left--) {
        size_t other = (size_t)random_below(random, left);
        uint64_t owner = store->owners[left - 1];

        store->owners[left - 1] = store->owners[other];
        store->owners[other] = owner;
    }
}

/*
 * Short runs and short gaps in turn, often about as many as one GET LBA STATUS
 * may tell of, in slots of no order. They go up from the first blocks, or down
 * from the last; in a third of the stores no gap comes before them.
 */
static void alternate_runs(struct random *random, struct store *store)
{
    uint64_t capacity = store->unit.capacity;
    uint64_t most = RANDOM_CHOICE(random, RIDGE_SLOTS, RIDGE_SLOTS, 15, 16, 17,
                                  18, 20);
    unsigned longer = (unsigned)RANDOM_CHOICE(random, 0, 5, 30);
    bool down = random_percent(random, 50);
    uint64_t at = random_below(random, 3);

    for (size_t slot = 0; slot < store->slots && slot < most && at < capacity;
         slot++) {
        store->owners[slot] = down ? capacity - at : at + 1;
        at++;
        if (!random_percent(random, longer))
            at += random_percent(random, longer) ? 2 : 1;
    }
    shuffle_owners(random, store);
}

/*
 * All slots but a few that lie together, or these alone: at the end of a word
 * of marks, at an end of the pool, or from there on. At times the blocks lie in
 * falling order.
 */
static void fill_to_an_edge(struct random *random, struct store *store)
{
    uint64_t capacity = store->unit.capacity;
    uint64_t most = capacity < store->slots ? capacity : store->slots;
    uint64_t first = random_below(random, capacity - most + 1);
    uint64_t hole = edge_slot(random, store->slots);
    uint64_t holes = RANDOM_CHOICE(random, 0, 0, 0, 1, 1, 1, 2, 2, 3,
                                   RIDGE_SLOTS);
    bool alone = random_percent(random, 20);
    bool falling = random_percent(random, 20);

    for (uint64_t slot = 0; slot < most; slot++) {
        if ((slot >= hole && slot - hole < holes) == alone)
            store->owners[slot] = first + (falling ? most - slot : slot + 1);
    }
}

/* From the last slot down: each one pushes those above it up by a bit. */
struct ridge_marks marks_due(const uint64_t *owners, size_t slots)
{
    struct ridge_marks marks = {{0}};

    while (slots-- > 0) {
        uint64_t *word = &marks.words[slots < 64 ? 0 : 1];

        *word = *word << 1 | (owners[slots] == 0 ? 0 : 1);
    }
    return marks;
}

bool same_marks(const struct ridge_marks *one, const struct ridge_marks *other)
{
    return one->words[0] == other->words[0] && one->words[1] == other->words[1];
}

void generate_map(struct random *random, struct store *store)
{
    memset(store->owners, 0, sizeof store->owners);
    random_fill(random, store->medium, store->slots * RIDGE_BLOCK_BYTES);
    if (store->slots >= EDGE_SLOTS && random_percent(random, 45))
        fill_to_an_edge(random, store);
    else if (store->slots >= LARGE_SLOTS && random_percent(random, 70))
        fill_in_order(random, store);
    else if (store->slots >= RUNS_SLOTS && random_percent(random, 60))
        alternate_runs(random, store);
    else
        strew_blocks(random, store);
    store->marks = marks_due(store->owners, store->slots);
}

/* Few different keys, so that some nexuses share one. */
static uint64_t generate_key(struct random *random)
{
    if (random_percent(random, 90))
        return RANDOM_CHOICE(random, 1, 2, 3, UINT64_C(0x0102030405060708),
                             UINT64_C(0x8000000000000000), UINT64_MAX,
                             UINT64_C(0x100000000), 256);
    return random_word(random) | 1;
}

uint64_t key_of(const struct ridge_rights *rights, uint64_t nexus)
{
    for (size_t place = 0; place < RIDGE_PLACES; place++) {
        if (rights->places[place].key != 0 &&
            rights->places[place].nexus == nexus)
            return rights->places[place].key;
    }
    return 0;
}

bool is_shut_out(const struct ridge_rights *rights, uint64_t nexus)
{
    switch (rights->type) {
    case 3:
        return nexus != rights->holder;
    case 6:
    case 8:
        return key_of(rights, nexus) == 0;
    default:
        return false;
    }
}

/* One that another has, in as many cases, or any. */
static uint64_t shared_key(struct random *random,
                           const struct ridge_rights *rights, unsigned percent)
{
    size_t place = generate_place(random, rights, true);

    if (place != RIDGE_PLACES && random_percent(random, percent))
        return rights->places[place].key;
    return generate_key(random);
}

void generate_registrations(struct random *random, struct ridge_rights *rights)
{
    unsigned fill = (unsigned)RANDOM_CHOICE(random, 0, 10, 30, 60, 90, 100,
                                            100);
    unsigned shared = (unsigned)RANDOM_CHOICE(random, 0, 30, 60, 60);

    memset(rights->places, 0, sizeof rights->places);
    rights->type = 0;
    rights->holder = 0;
    for (size_t place = 0; place < RIDGE_PLACES; place++) {
        uint64_t nexus = random_below(random, RIDGE_NEXUS_LAST + 1);

        while (key_of(rights, nexus) != 0)
            nexus = (nexus + 1) % (RIDGE_NEXUS_LAST + 1);
        if (random_percent(random, fill)) {
            rights->places[place].key = shared_key(random, rights, shared);
            rights->places[place].nexus = nexus;
        }
    }
}

size_t generate_place(struct random *random, const struct ridge_rights *rights,
                      bool used)
{
    size_t first = (size_t)random_below(random, RIDGE_PLACES);

    for (size_t step = 0; step < RIDGE_PLACES; step++) {
        size_t place = (first + step) % RIDGE_PLACES;

        if ((rights->places[place].key != 0) == used)
            return place;
    }
    return RIDGE_PLACES;
}

void generate_reservation(struct random *random, struct ridge_rights *rights,
                          uint32_t type)
{
    size_t place = generate_place(random, rights, true);

    if (place == RIDGE_PLACES)
        return;
    rights->type = type;
    rights->holder =
        type == 7 || type == 8 ? 0 : rights->places[place].nexus;
}

void generate_attentions(struct random *random,
                         uint8_t attentions[RIDGE_NEXUSES])
{
    unsigned fill = (unsigned)RANDOM_CHOICE(random, 0, 0, 0, 0, 10, 25, 50,
                                            100);

    for (size_t nexus = 0; nexus < RIDGE_NEXUSES; nexus++)
        attentions[nexus] = (uint8_t)(
            random_percent(random, fill)
                ? 1 + random_below(random, RIDGE_RESERVATIONS_RELEASED)
                : RIDGE_NO_ATTENTION);
}

/* Types 7 and 8 are drawn more often than the others: every registrant can end
   them, so they stand for a shorter time. */
void generate_rights(struct random *random, struct ridge_rights *rights)
{
    rights->generation = (uint32_t)RANDOM_CHOICE(
        random, 0, 7, UINT32_MAX - 1, UINT32_MAX, 0x01020304);
    generate_registrations(random, rights);
    if (random_percent(random, 85))
        generate_reservation(
            random, rights,
            (uint32_t)RANDOM_CHOICE(random, 1, 1, 3, 3, 5, 5, 6, 6, 7, 7, 7, 8,
                                    8, 8));
}

void generate_store(struct random *random, struct store *store)
{
    store->format = generate_format(random);
    store->slots = generate_slots(random);
    store->unit.capacity = generate_capacity(random, store->slots);
    generate_rights(random, &store->unit.rights);
    generate_attentions(random, store->unit.attentions);
    generate_map(random, store);
}

/* ---- Parts of a call ---- */

uint64_t generate_nexus(struct random *random,
                        const struct ridge_rights *rights)
{
    size_t place = generate_place(random, rights, true);

    if (random_percent(random, 2))
        return RANDOM_CHOICE(random, 16, 17, 255, 256, UINT64_C(1) << 32,
                             UINT64_MAX);
    if (place != RIDGE_PLACES && random_percent(random, 55))
        return rights->places[place].nexus;
    return random_below(random, RIDGE_NEXUS_LAST + 1);
}

/* A size of a buffer of which `need` bytes will be used. */
static size_t generate_size(struct random *random, uint64_t need)
{
    uint64_t size = need;

    switch (random_below(random, 16)) {
    case 0:
        size = need == 0 ? 0 : need - 1;
        break;
    case 1:
        size = need + 1;
        break;
    case 2:
        size = need + random_below(random, 100);
        break;
    case 3:
        size = random_percent(random, 30) ? random_below(random, need + 1)
                                          : need;
        break;
    default:
        break;
    }
    return (size_t)(size > DATA_ROOM ? DATA_ROOM : size);
}

static uint64_t generate_address(struct random *random,
                                 const struct store *store)
{
    uint64_t capacity = store->unit.capacity;

    switch (random_below(random, 32)) {
    case 0:
        return capacity + RANDOM_CHOICE(random, 0, 0, 1, 2);
    case 1:
        /* So near the top that even a small count wraps. */
        return UINT64_MAX - random_below(random, random_percent(random, 70)
                                                     ? 4 : 130);
    case 2:
        return random_word(random);
    case 3:
        return UINT64_C(0xFFFFFFF8) + random_below(random, 16);
    default:
        return address_within(random, capacity);
    }
}

/* A count of blocks from that address, mostly few and mostly in range. */
static uint64_t generate_count(struct random *random, const struct store *store,
                               uint64_t address)
{
    uint64_t left = store->unit.capacity - address;
    uint64_t count = random_below(random, 6);

    if (left == 0 && random_percent(random, 40))
        return 0;
    switch (random_below(random, 48)) {
    case 0:
        return RANDOM_CHOICE(random, 127, 128, 129, 130);
    case 1:
        return random_below(random, 131);
    case 2:
        return left + 1;
    case 3:
        return left;
    case 4:
        return RANDOM_CHOICE(random, 255, 256, 257, 384, 0xFFFF, 0x10000,
                             0x10001, 0x01000001, UINT32_MAX);
    default:
        return left != 0 && left < count ? left : count;
    }
}

/*
 * A range of 100 to 128 blocks that begins at or just behind the block in slot
 * 0, where the blocks of a large store in order begin, or where all blocks do.
 * Counts that would reach past the end are mostly cut.
 */
static void large_range(struct random *random, const struct store *store,
                        uint64_t *address, uint64_t *count)
{
    uint64_t capacity = store->unit.capacity;
    uint64_t first = store->owners[0];

    *address = first == 0 ? address_within(random, capacity) : first - 1;
    if (first == 0 && random_percent(random, 40))
        *address = 0;
    if (random_percent(random, 25))
        *address += random_below(random, 4);
    *count = random_percent(random, 50)
                 ? RIDGE_TRANSFER_BLOCKS
                 : LARGE_SLOTS + random_below(random, 29);
    if (*address < capacity && *count > capacity - *address &&
        random_percent(random, 80))
        *count = capacity - *address;
}

static uint64_t free_slots(const struct store *store)
{
    uint64_t count = 0;

    for (size_t slot = 0; slot < store->slots; slot++)
        count += store->owners[slot] == 0 ? 1 : 0;
    return count;
}

/* The blocks from that address on, as far as one command and the capacity
   reach, of which so many are unmapped; at least one. */
static uint64_t count_of_unmapped(const struct store *store, uint64_t address,
                                  uint64_t unmapped)
{
    uint64_t count = 0;

    for (; count < RIDGE_TRANSFER_BLOCKS; count++) {
        bool mapped = is_owner(store, address + count + 1);

        if (address + count == store->unit.capacity ||
            (!mapped && unmapped == 0))
            break;
        unmapped -= mapped ? 0 : 1;
    }
    return count == 0 ? 1 : count;
}

/* As many unmapped blocks as there are free slots, or one more. */
static void tight_range(struct random *random, const struct store *store,
                        uint64_t *address, uint64_t *count)
{
    uint64_t more = random_below(random, 2);

    *address = address_within(random, store->unit.capacity);
    *count = count_of_unmapped(store, *address, free_slots(store) + more);
}

/* The range of a READ or WRITE. */
static void generate_range(struct random *random, const struct store *store,
                           uint64_t *address, uint64_t *count)
{
    uint64_t kind = random_below(random, 100);

    if (store->slots >= LARGE_SLOTS && kind < 50) {
        large_range(random, store, address, count);
    } else if (kind >= 88) {
        tight_range(random, store, address, count);
    } else {
        *address = generate_address(random, store);
        *count = generate_count(random, store, *address);
    }
}

/* ---- The commands ---- */

typedef void make_function(struct random *random, const struct store *store,
                           struct request *request);

static void start_cdb(struct random *random, struct request *request,
                      uint8_t code, size_t bytes)
{
    if (random_percent(random, 60))
        random_fill(random, request->cdb, sizeof request->cdb);
    else
        memset(request->cdb, 0, sizeof request->cdb);
    request->cdb[0] = code;
    request->cdb_bytes = bytes;
    request->data_out_bytes = (size_t)random_below(random, 3) * 8;
    request->data_in_bytes = (size_t)random_below(random, 3) * 8;
    request->cdb[bytes - 1] &= 0xFB;
    if (random_percent(random, 2))
        request->cdb[bytes - 1] |= 0x04;
}

static void make_test_unit_ready(struct random *random,
                                 const struct store *store,
                                 struct request *request)
{
    (void)store;
    start_cdb(random, request, 0x00, 6);
}

static void make_read_capacity_10(struct random *random,
                                  const struct store *store,
                                  struct request *request)
{
    (void)store;
    start_cdb(random, request, 0x25, 10);
    request->data_in_bytes = generate_size(random, 8);
}

/* A service action of 9Eh, seldom one that is not listed; the upper bits of its
   byte stay as they are. */
static void put_action(struct random *random, struct request *request,
                       uint8_t action)
{
    uint64_t any = random_below(random, 0x20);

    if (random_percent(random, 6))
        action = (uint8_t)RANDOM_CHOICE(random, 0x00, 0x02, 0x0F, 0x11, 0x13,
                                        0x1F, any);
    request->cdb[1] = (uint8_t)((request->cdb[1] & 0xE0) | action);
}

static void make_read_capacity_16(struct random *random,
                                  const struct store *store,
                                  struct request *request)
{
    uint64_t allocation = RANDOM_CHOICE(random, 0, 1, 8, 14, 15, 31, 32, 33,
                                        256, 65536, 0x01000008, UINT32_MAX);

    (void)store;
    start_cdb(random, request, 0x9E, 16);
    put_action(random, request, 0x10);
    put(request->cdb + 10, 4, allocation);
    request->data_in_bytes =
        generate_size(random, allocation < 32 ? allocation : 32);
}

/* Address and count, in CDBs of ten bytes as much of them as there is room. */
static void put_range(struct request *request, uint64_t address, uint64_t count)
{
    if (request->cdb_bytes == 16) {
        put(request->cdb + 2, 8, address);
        put(request->cdb + 10, 4, count);
    } else {
        put(request->cdb + 2, 4, address);
        put(request->cdb + 7, 2, count);
    }
}

/* Fields of READ and WRITE; returns the bytes that the blocks take. */
static uint64_t make_transfer(struct random *random, const struct store *store,
                              struct request *request, uint8_t code)
{
    bool sixteen = code >= 0x80;
    uint64_t address;
    uint64_t count;

    generate_range(random, store, &address, &count);
    start_cdb(random, request, code, sixteen ? 16 : 10);
    if (!random_percent(random, 4))
        request->cdb[1] &= 0x1F;
    put_range(request, address, count);
    if (!sixteen)
        count &= 0xFFFF;
    return (count > 129 ? 1 : count) * RIDGE_BLOCK_BYTES;
}

static void make_read(struct random *random, const struct store *store,
                      struct request *request)
{
    uint8_t code = random_percent(random, 50) ? 0x28 : 0x88;
    uint64_t bytes = make_transfer(random, store, request, code);

    request->data_in_bytes = generate_size(random, bytes);
}

static void make_write(struct random *random, const struct store *store,
                       struct request *request)
{
    uint8_t code = random_percent(random, 50) ? 0x2A : 0x8A;
    uint64_t bytes = make_transfer(random, store, request, code);

    request->data_out_bytes = generate_size(random, bytes);
    random_fill(random, request->data_out, request->data_out_bytes);
}

/* The address of a mapped block at times, so that UNMAP frees something, and
   often enough that in the last slot, or at the end of a word of marks. */
static uint64_t unmap_address(struct random *random, const struct store *store)
{
    size_t slot = random_percent(random, 25)
                      ? edge_slot(random, store->slots)
                      : (size_t)random_below(random, store->slots);
    uint64_t owner = store->owners[slot];

    if (owner != 0 && random_percent(random, 60))
        return owner - 1;
    if (random_percent(random, 92))
        return address_within(random, store->unit.capacity);
    return generate_address(random, store);
}

/* Seldom one that names everything, as far as its count reaches. */
static void put_descriptors(struct random *random, const struct store *store,
                            struct request *request, size_t descriptors)
{
    uint64_t capacity = store->unit.capacity;

    for (size_t index = 0; index < descriptors; index++) {
        uint8_t *bytes = request->data_out + 8 + 16 * index;
        uint64_t address = unmap_address(random, store);
        uint64_t count = generate_count(random, store, address);

        if (random_percent(random, 1)) {
            address = 0;
            count = capacity < UINT32_MAX ? capacity : UINT32_MAX;
        }
        if (address < capacity && count > capacity - address &&
            random_percent(random, 80))
            count = capacity - address;
        put(bytes, 8, address);
        put(bytes + 8, 4, count);
    }
}

size_t failing_descriptor(const uint8_t *list, size_t from, size_t count,
                          uint64_t capacity)
{
    for (; from < count; from++) {
        const uint8_t *bytes = list + 8 + 16 * from;
        uint64_t address = get(bytes, 8);

        if (address > capacity || get(bytes + 8, 4) > capacity - address)
            break;
    }
    return from;
}

static void make_unmap(struct random *random, const struct store *store,
                       struct request *request)
{
    size_t descriptors = (size_t)RANDOM_CHOICE(random, 0, 1, 1, 1, 2, 2, 3, 4,
                                               5, 15, 16, 16, 17, 18, 33);
    uint64_t named = 16 * descriptors;
    uint64_t length = 8 + 16 * descriptors;

    start_cdb(random, request, 0x42, 10);
    if (!random_percent(random, 4))
        request->cdb[1] &= 0xFE;
    if (random_percent(random, 12))
        named = RANDOM_CHOICE(random, 0, 15, 16, 17, 31, 256, 271, 272, 0xFFFF,
                              named + 15, named + 256);
    if (random_percent(random, 12))
        length = RANDOM_CHOICE(random, 0, 1, 7, 8, 9, 23, 24, 25, 263, 264,
                               279, 280, length + 15, length + 16, 256);
    if (descriptors == RIDGE_DESCRIPTORS && random_percent(random, 12))
        named += 16;
    else if (descriptors == RIDGE_DESCRIPTORS && random_percent(random, 12))
        length += 16;
    random_fill(random, request->data_out, 8 + 16 * 40);
    put(request->data_out + 2, 2, named);
    put_descriptors(random, store, request, descriptors);
    put(request->cdb + 7, 2, length);
    request->data_out_bytes = generate_size(random, length);
}

/* ---- INQUIRY ---- */

uint64_t inquiry_bytes(const uint8_t *cdb)
{
    if ((cdb[1] & 0x01) == 0)
        return 36;
    switch (cdb[2]) {
    case 0x00:
        return 7;
    case 0xB0:
        return 64;
    case 0xB2:
        return 8;
    default:
        return 0;
    }
}

/* Above 255 both bytes count; a library that reads the lower one alone cuts. */
static uint64_t inquiry_allocation(struct random *random, uint64_t available)
{
    uint64_t above = 256 + random_below(random, 0xFF00);

    if (random_percent(random, 35))
        return RANDOM_CHOICE(random, available - 1, available, available + 1,
                             256 + available - 1, above);
    return RANDOM_CHOICE(random, 0, 0, 1, 3, 4, 4, 5, 5, 6, 7, 8, 9, 35, 36, 37,
                         63, 64, 65, 255, 256, 260, 0x8000, 0xFFFF);
}

/* What follows once byte 1 and the page code stand; a page that is not listed
   gets the room of the longest. */
static void finish_inquiry(struct random *random, struct request *request)
{
    uint64_t told = inquiry_bytes(request->cdb);
    uint64_t available = told == 0 ? 64 : told;
    uint64_t allocation = inquiry_allocation(random, available);
    uint64_t need = allocation < available ? allocation : available;

    put(request->cdb + 3, 2, allocation);
    request->data_in_bytes = generate_size(random, need);
    if (need > 0 && random_percent(random, 25))
        request->data_in_bytes = (size_t)(need - 1 + random_below(random, 3));
    if (random_percent(random, 4))
        request->cdb[5] |= 0x04;
}

/* Of the standard data, where a page code is refused. The upper bits of byte 1
   stay as they are, here and below, and are to be ignored. */
static void make_inquiry(struct random *random, const struct store *store,
                         struct request *request)
{
    uint64_t any = random_below(random, 256);

    (void)store;
    start_cdb(random, request, 0x12, 6);
    request->cdb[1] &= 0xFE;
    request->cdb[2] = 0;
    if (random_percent(random, 14))
        request->cdb[2] = (uint8_t)RANDOM_CHOICE(random, 0x01, 0xB0, 0xB2, any,
                                                 any);
    finish_inquiry(random, request);
}

/* Mostly a listed page, else one beside those, one that hosts ask others for,
   one that a single bit parts from a listed one, or any. */
static uint8_t generate_page(struct random *random)
{
    uint64_t listed = RANDOM_CHOICE(random, 0x00, 0xB0, 0xB2);
    uint64_t near = listed ^ UINT64_C(1) << random_below(random, 8);
    uint64_t any = random_below(random, 256);

    if (random_percent(random, 72))
        return (uint8_t)listed;
    return (uint8_t)RANDOM_CHOICE(random, 0x01, 0xAF, 0xB1, 0xB3, 0x80, 0x83,
                                  0xB4, 0xFF, near, near, near, any, any, any);
}

static void make_inquiry_page(struct random *random, const struct store *store,
                              struct request *request)
{
    (void)store;
    start_cdb(random, request, 0x12, 6);
    request->cdb[1] |= 0x01;
    request->cdb[2] = generate_page(random);
    finish_inquiry(random, request);
}

/* ---- WRITE SAME ---- */

/* A count of 0 is refused whatever else there is, so it is made seldom. */
static void same_range(struct random *random, const struct store *store,
                       uint64_t *address, uint64_t *count)
{
    uint64_t kind = random_below(random, 100);

    if (store->slots >= LARGE_SLOTS && kind < 60) {
        large_range(random, store, address, count);
    } else if (kind < 25) {
        tight_range(random, store, address, count);
    } else if (kind < 50) {
        *address = unmap_address(random, store);
        *count = generate_count(random, store, *address);
    } else {
        generate_range(random, store, address, count);
    }
    if (*count == 0 && random_percent(random, 80))
        *count = 1;
    if (random_percent(random, 4))
        *count = RANDOM_CHOICE(random, RIDGE_TRANSFER_BLOCKS,
                               RIDGE_TRANSFER_BLOCKS + 1);
}

/* The block and some bytes behind it: zeros, zeros but for one bit of the
   first, the last or any byte, zeros that end with the block, or any bytes. */
static void put_same_block(struct random *random, uint8_t *bytes)
{
    const size_t block = RIDGE_BLOCK_BYTES;
    uint8_t bit = (uint8_t)(1 << random_below(random, 8));
    size_t any = (size_t)random_below(random, block);

    random_fill(random, bytes, 2 * block);
    if (random_percent(random, 25))
        return;
    memset(bytes, 0, random_percent(random, 30) ? 2 * block : block);
    if (random_percent(random, 55))
        return;
    bytes[RANDOM_CHOICE(random, 0, block - 1, block - 1, any)] = bit;
}

/* Bits 7 to 5 are WRPROTECT, 4 ANCHOR, 3 UNMAP, 0 NDOB; 2 and 1 stay as they
   are, and are to be ignored. */
static void put_same_flags(struct random *random, struct request *request)
{
    uint8_t flags = request->cdb[1] & 0x06;

    flags |= random_percent(random, 55) ? 0x08 : 0x00;
    flags |= random_percent(random, 30) ? 0x01 : 0x00;
    if (random_percent(random, 4))
        flags |= 0x10;
    if (random_percent(random, 4))
        flags |= (uint8_t)(0x20 << random_below(random, 3));
    request->cdb[1] = flags;
}

/* With NDOB no data-out is wanted: mostly there is none, or too little. */
static void make_write_same(struct random *random, const struct store *store,
                            struct request *request)
{
    uint64_t address;
    uint64_t count;
    uint64_t whole;

    same_range(random, store, &address, &count);
    whole = (count > 129 ? 1 : count) * RIDGE_BLOCK_BYTES;
    start_cdb(random, request, 0x93, 16);
    put_same_flags(random, request);
    put_range(request, address, count);
    put_same_block(random, request->data_out);
    request->data_out_bytes = generate_size(random, RIDGE_BLOCK_BYTES);
    if ((request->cdb[1] & 0x01) != 0 && random_percent(random, 60))
        request->data_out_bytes = (size_t)RANDOM_CHOICE(random, 0, 0, 1, 511);
    else if (random_percent(random, 12))
        request->data_out_bytes = (size_t)RANDOM_CHOICE(
            random, 0, 511, 513, 1023, 1024, whole, whole + 1);
}

/* ---- GET LBA STATUS ---- */

/* Where runs begin: at 0, and at most on both sides of each mapped block. */
enum { BORDERS = 1 + 2 * RIDGE_SLOTS };

static size_t sort_owners(const struct store *store,
                          uint64_t sorted[RIDGE_SLOTS])
{
    size_t count = 0;

    for (size_t slot = 0; slot < store->slots; slot++) {
        uint64_t owner = store->owners[slot];
        size_t at = count;

        if (owner == 0)
            continue;
        for (; at > 0 && sorted[at - 1] > owner; at--)
            sorted[at] = sorted[at - 1];
        sorted[at] = owner;
        count++;
    }
    return count;
}

/* Where a run of mapped or of unmapped blocks begins, by rising address. */
static size_t find_borders(const struct store *store, uint64_t borders[BORDERS])
{
    uint64_t sorted[RIDGE_SLOTS];
    size_t mapped = sort_owners(store, sorted);
    size_t count = 1;

    borders[0] = 0;
    for (size_t index = 0; index < mapped; index++) {
        uint64_t address = sorted[index] - 1;

        if (borders[count - 1] != address)
            borders[count++] = address;
        while (index + 1 < mapped && sorted[index + 1] == sorted[index] + 1)
            index++;
        if (sorted[index] < store->unit.capacity)
            borders[count++] = sorted[index];
    }
    return count;
}

/* The bytes that there are to tell from that address on. */
static uint64_t status_bytes(const struct store *store, uint64_t start)
{
    uint64_t borders[BORDERS];
    size_t count = find_borders(store, borders);
    uint64_t descriptors = 0;

    for (size_t index = 0; index < count; index++) {
        uint64_t begin = borders[index] < start ? start : borders[index];
        uint64_t end = index + 1 < count ? borders[index + 1]
                                         : store->unit.capacity;

        if (begin < end)
            descriptors += (end - begin + UINT32_MAX - 1) / UINT32_MAX;
    }
    return 8 + 16 * (descriptors < RUNS_TOLD ? descriptors : RUNS_TOLD);
}

/* So far before the end of a run that the run fills one descriptor or several,
   or has a block less, or one more. */
static uint64_t start_before(struct random *random, uint64_t end)
{
    uint64_t full = RANDOM_CHOICE(random, 1, 1, 1, 2, 3, RUNS_TOLD - 1,
                                  RUNS_TOLD, RUNS_TOLD + 1);
    uint64_t blocks = full * UINT32_MAX + random_below(random, 3) - 1;

    return blocks <= end ? end - blocks : random_below(random, 3);
}

/* So that about as many runs follow as may be told of. */
static uint64_t start_of_many(struct random *random, const uint64_t *borders,
                              size_t count)
{
    uint64_t runs = RUNS_TOLD - 1 + random_below(random, 3);
    uint64_t start = runs <= count ? borders[count - runs] : 0;

    return random_percent(random, 30) && start > 0 ? start - 1 : start;
}

static uint64_t status_start(struct random *random, const struct store *store)
{
    uint64_t capacity = store->unit.capacity;
    uint64_t borders[BORDERS];
    size_t count = find_borders(store, borders);
    size_t any = (size_t)random_below(random, count);
    uint64_t end = any + 1 < count ? borders[any + 1] : capacity;

    if (count >= RUNS_TOLD - 1 && random_percent(random, 50))
        return start_of_many(random, borders, count);
    switch (random_below(random, 10)) {
    case 0:
        return RANDOM_CHOICE(random, capacity - 1, capacity - 1, capacity,
                             capacity + 1, UINT64_MAX,
                             capacity + (UINT64_C(1) << 32));
    case 1:
    case 2:
    case 3:
        return capacity >= UINT32_MAX ? start_before(random, end) : 0;
    case 4:
        return borders[any];
    case 5:
        return borders[any] + random_below(random, end - borders[any]);
    case 6:
        return end - 1;
    default:
        return generate_address(random, store);
    }
}

static void make_get_lba_status(struct random *random,
                                const struct store *store,
                                struct request *request)
{
    uint64_t start = status_start(random, store);
    uint64_t available = status_bytes(store, start);
    uint64_t allocation = RANDOM_CHOICE(
        random, 0, 1, 4, 7, 8, 9, 23, 24, 25, 519, 520, 521, 65536, 0x01000008,
        UINT32_MAX, available - 1, available, available + 1);

    if (random_percent(random, 50))
        allocation = RANDOM_CHOICE(random, 520, 4096, UINT32_MAX);
    start_cdb(random, request, 0x9E, 16);
    put_action(random, request, 0x12);
    if (random_percent(random, 20))
        request->cdb[14] = (uint8_t)random_below(random, 4);
    put(request->cdb + 2, 8, start);
    put(request->cdb + 10, 4, allocation);
    request->data_in_bytes = generate_size(
        random, allocation < available ? allocation : available);
}

/* ---- Addresses that sense is to tell ---- */

/* On both sides of what four bytes hold, numbers of which four bytes would be 0
   or another address, and those that eight bytes end with. In a store that goes
   beyond four bytes, mostly at that bound. */
static uint64_t told_address(struct random *random, const struct store *store)
{
    const uint64_t past_4 = UINT64_C(1) << 32;
    const uint64_t top = UINT64_C(1) << 63;
    uint64_t word = random_word(random);
    uint64_t near = random_below(random, 300);

    if (store->unit.capacity >= past_4 && random_percent(random, 50))
        return RANDOM_CHOICE(random, UINT32_MAX, UINT32_MAX, past_4, past_4,
                             past_4 + near);
    return RANDOM_CHOICE(random, 0, 0, 0, near, word & UINT32_MAX,
                         UINT32_MAX - 1, UINT32_MAX, UINT32_MAX, past_4, past_4,
                         past_4 + near, 2 * past_4, RIDGE_CAPACITY_LAST,
                         RIDGE_CAPACITY_LAST + near, top, UINT64_MAX,
                         word | top);
}

/* A count that takes the range past the end, or a write past the room. */
static uint64_t refused_count(struct random *random, const struct store *store,
                              uint64_t address)
{
    uint64_t capacity = store->unit.capacity;

    if (address >= capacity)
        return 1 + random_below(random, 5);
    if (capacity - address < RIDGE_TRANSFER_BLOCKS &&
        random_percent(random, 50))
        return capacity - address + 1;
    return count_of_unmapped(store, address, free_slots(store) + 1);
}

static void make_told_transfer(struct random *random, const struct store *store,
                               struct request *request)
{
    uint8_t code = (uint8_t)RANDOM_CHOICE(random, 0x28, 0x88, 0x88, 0x2A, 0x2A,
                                          0x8A, 0x8A, 0x8A, 0x93, 0x93, 0x93);
    uint64_t address = told_address(random, store);
    uint64_t count;

    start_cdb(random, request, code, code >= 0x80 ? 16 : 10);
    request->cdb[1] &= code == 0x93 ? 0x06 : 0x1F;
    if (code < 0x80)
        address &= UINT32_MAX;
    count = refused_count(random, store, address);
    put_range(request, address, count);
    request->data_in_bytes = (size_t)count * RIDGE_BLOCK_BYTES;
    request->data_out_bytes = (size_t)count * RIDGE_BLOCK_BYTES;
    random_fill(random, request->data_out, request->data_out_bytes);
}

static void make_told_status(struct random *random, const struct store *store,
                             struct request *request)
{
    start_cdb(random, request, 0x9E, 16);
    put_action(random, request, 0x12);
    put(request->cdb + 2, 8, told_address(random, store));
    request->data_in_bytes = 8 + 16 * RUNS_TOLD;
}

/* A descriptor that fails by its address, with any count, or by its count. */
static void put_failing(struct random *random, const struct store *store,
                        uint8_t *bytes)
{
    uint64_t capacity = store->unit.capacity;
    uint64_t address = told_address(random, store);
    uint64_t count = random_below(random, 4);

    if (address <= capacity && capacity - address >= UINT32_MAX)
        address = capacity - random_below(random, 3);
    if (address <= capacity)
        count = capacity - address + 1;
    put(bytes, 8, address);
    put(bytes + 8, 4, count);
}

static void put_fitting(struct random *random, const struct store *store,
                        uint8_t *bytes)
{
    uint64_t address = address_within(random, store->unit.capacity);
    uint64_t left = store->unit.capacity - address;
    uint64_t count = random_below(random, 4);

    put(bytes, 8, address);
    put(bytes + 8, 4, count < left ? count : left);
}

/* Descriptors up to a certain one fit, that one fails, and behind it none does,
   or some, or all. At times the list does not consider them all. */
static void make_told_unmap(struct random *random, const struct store *store,
                            struct request *request)
{
    size_t descriptors = (size_t)RANDOM_CHOICE(random, 1, 2, 2, 3, 4, 5, 15,
                                               16, 16, 16);
    size_t any = (size_t)random_below(random, descriptors);
    size_t first = (size_t)RANDOM_CHOICE(random, 0, any, any, descriptors - 1);
    unsigned behind = (unsigned)RANDOM_CHOICE(random, 0, 0, 50, 100);
    uint64_t length = 8 + 16 * descriptors;
    size_t considered = descriptors - (random_percent(random, 10) ? 1 : 0);

    start_cdb(random, request, 0x42, 10);
    request->cdb[1] &= 0xFE;
    random_fill(random, request->data_out, length);
    put(request->data_out + 2, 2, 16 * considered);
    put(request->cdb + 7, 2, length);
    request->data_out_bytes = (size_t)length;
    for (size_t index = 0; index < descriptors; index++) {
        uint8_t *bytes = request->data_out + 8 + 16 * index;

        if (index == first ||
            (index > first && random_percent(random, behind)))
            put_failing(random, store, bytes);
        else
            put_fitting(random, store, bytes);
    }
}

/* A call that answers 3 or 8 mostly, if no conflict comes before. */
static void make_told(struct random *random, const struct store *store,
                      struct request *request)
{
    uint64_t kind = random_below(random, 100);

    if (kind < 64)
        make_told_transfer(random, store, request);
    else if (kind < 74)
        make_told_status(random, store, request);
    else
        make_told_unmap(random, store, request);
}

/* ---- PERSISTENT RESERVE IN and OUT ---- */

static void make_reserve_in(struct random *random, const struct store *store,
                            struct request *request)
{
    const struct ridge_rights *rights = &store->unit.rights;
    uint64_t available = 8;
    uint64_t allocation;

    for (size_t place = 0; place < RIDGE_PLACES; place++)
        available += rights->places[place].key != 0 ? 8 : 0;
    start_cdb(random, request, 0x5E, 10);
    request->cdb[1] &= random_percent(random, 5) ? 0xFF : 0xE0;
    request->cdb[1] ^= (uint8_t)random_below(random, 2);
    if ((request->cdb[1] & 1) != 0)
        available = rights->type != 0 ? 24 : 8;
    allocation = RANDOM_CHOICE(random, 0, 1, 7, 8, 9, 16, 23, 24, 25, 72,
                               available - 1, available, available + 1, 255,
                               256, 0xFFFF);
    put(request->cdb + 7, 2, allocation);
    request->data_in_bytes = generate_size(
        random, allocation < available ? allocation : available);
}

/* A reservation type, often the one that stands, seldom none of the six. */
static uint8_t generate_type(struct random *random,
                             const struct ridge_rights *rights)
{
    if (random_percent(random, 40) && rights->type != 0)
        return (uint8_t)rights->type;
    if (random_percent(random, 94))
        return (uint8_t)RANDOM_CHOICE(random, 1, 3, 5, 6, 7, 8);
    return (uint8_t)random_below(random, 256);
}

/* What a library that looks one place too far would take for a key: generation
   and type lie there. */
static uint64_t key_behind_places(const struct ridge_rights *rights)
{
    return (uint64_t)rights->type << 32 | rights->generation;
}

/* A service action key: one that somebody has, a new one, or 0. */
static uint64_t generate_action_key(struct random *random,
                                    const struct ridge_rights *rights)
{
    size_t place = generate_place(random, rights, true);

    if (random_percent(random, 12))
        return 0;
    if (random_percent(random, 4))
        return key_behind_places(rights);
    if (place == RIDGE_PLACES || random_percent(random, 40))
        return generate_key(random);
    if (rights->type != 0 && random_percent(random, 40))
        return key_of(rights, rights->holder);
    return rights->places[place].key;
}

static void make_reserve_out(struct random *random, const struct store *store,
                             struct request *request)
{
    uint64_t action = RANDOM_CHOICE(random, 0, 0, 0, 0, 1, 1, 1, 2, 2, 2, 4, 4,
                                    4, 6, 6, 6, 3, 5);
    const struct ridge_rights *rights = &store->unit.rights;
    uint64_t key = key_of(rights, request->nexus);

    start_cdb(random, request, 0x5F, 10);
    if (action == 5)
        action = random_below(random, 32);
    if (action == 3 && random_percent(random, 50))
        action = 0;
    request->cdb[1] = (uint8_t)((request->cdb[1] & 0xE0) | action);
    request->cdb[2] = generate_type(random, rights);
    put(request->cdb + 5, 4, random_percent(random, 96)
                                 ? 24
                                 : RANDOM_CHOICE(random, 0, 1, 23, 25, 32, 256,
                                                 280, 65560, 0x01000018,
                                                 UINT32_MAX));
    random_fill(random, request->data_out, 40);
    put(request->data_out, 8,
        random_percent(random, 90) ? key : generate_action_key(random, rights));
    put(request->data_out + 8, 8, generate_action_key(random, rights));
    if (!random_percent(random, action == 0 || action == 6 ? 5 : 50))
        request->data_out[20] &= 0xF2;
    request->data_out_bytes = generate_size(random, 24);
    if (request->data_out_bytes < 24 && random_percent(random, 60))
        request->data_out_bytes = 24;
}

/* ---- Wrong fields ---- */

/* Each field of a command is made wrong by a draw of its own, so that every two
   of them meet, and each is met alone. */
static bool is_drawn(struct random *random)
{
    return random_percent(random, 50);
}

/* Of a field of so many bits, from that bit up: mostly one bit alone. */
static uint8_t wrong_bits(struct random *random, unsigned lowest, unsigned bits)
{
    uint64_t one = UINT64_C(1) << random_below(random, bits);
    uint64_t any = 1 + random_below(random, (UINT64_C(1) << bits) - 1);

    return (uint8_t)((random_percent(random, 60) ? one : any) << lowest);
}

static uint64_t wrong_count(struct random *random)
{
    return RANDOM_CHOICE(random, 129, 129, 130, 255, 256, 257, 0x8000, 0xFFFF);
}

static void spoil_transfer(struct random *random, uint8_t *cdb)
{
    uint64_t count = wrong_count(random);

    cdb[1] &= 0x1F;
    if (is_drawn(random))
        cdb[1] |= wrong_bits(random, 5, 3);
    if (!is_drawn(random))
        return;
    if (cdb[0] >= 0x80)
        put(cdb + 10, 4, count);
    else
        put(cdb + 7, 2, count);
}

static void spoil_write_same(struct random *random, uint8_t *cdb)
{
    uint64_t count = is_drawn(random) ? 0 : wrong_count(random);

    cdb[1] &= 0x0F;
    if (is_drawn(random))
        cdb[1] |= wrong_bits(random, 5, 3);
    if (is_drawn(random))
        cdb[1] |= 0x10;
    if (is_drawn(random))
        put(cdb + 10, 4, count);
}

/* An action that is not listed, at times one that a bit parts from a listed
   one. */
static void spoil_action(struct random *random, uint8_t *cdb)
{
    uint64_t of_9e = RANDOM_CHOICE(random, 0x00, 0x02, 0x11, 0x13, 0x1F);
    uint64_t of_5e = RANDOM_CHOICE(random, 2, 3, 8, 9, 0x10, 0x11, 0x1F);
    uint64_t of_5f = RANDOM_CHOICE(random, 5, 7, 8, 9, 0x0C, 0x10, 0x11, 0x12,
                                   0x14, 0x1F);

    cdb[1] &= 0xE0;
    cdb[1] |= (uint8_t)(cdb[0] == 0x9E   ? of_9e
                        : cdb[0] == 0x5E ? of_5e
                                         : of_5f);
}

static void spoil_scope_and_type(struct random *random, uint8_t *cdb)
{
    uint64_t above = 9 + random_below(random, 7);

    cdb[2] = (uint8_t)RANDOM_CHOICE(random, 1, 3, 5, 6, 7, 8);
    if (is_drawn(random))
        cdb[2] = (uint8_t)RANDOM_CHOICE(random, 0, 2, 4, above);
    if (is_drawn(random))
        cdb[2] |= wrong_bits(random, 4, 4);
}

/* Any of the three flags, with any of the bits that are ignored. */
static void spoil_flags(struct random *random, struct request *request)
{
    uint8_t flags = wrong_bits(random, 0, 3);

    request->cdb[1] &= 0xE0;
    request->cdb[1] |= (uint8_t)RANDOM_CHOICE(random, 0, 6);
    request->data_out[20] &= 0xF2;
    request->data_out[20] |= (uint8_t)((flags & 6) << 1 | (flags & 1));
}

/* Scope and type are of no account in actions 0, 3 and 6; in all actions the
   length comes after them. */
static void spoil_reserve_out(struct random *random, struct request *request)
{
    uint64_t kind = random_below(random, 10);
    uint64_t typed = RANDOM_CHOICE(random, 1, 2, 4);
    uint64_t untyped = RANDOM_CHOICE(random, 0, 3, 6);

    if (kind < 3) {
        spoil_flags(random, request);
        return;
    }
    spoil_scope_and_type(random, request->cdb);
    request->cdb[1] &= 0xE0;
    request->cdb[1] |= (uint8_t)(kind < 9 ? typed : untyped);
    if (kind < 5)
        spoil_action(random, request->cdb);
    if (random_percent(random, 15))
        request->cdb[8] ^= 0x08;
}

static void spoil_fields(struct random *random, struct request *request)
{
    uint8_t *cdb = request->cdb;

    switch (cdb[0]) {
    case 0x28:
    case 0x2A:
    case 0x88:
    case 0x8A:
        spoil_transfer(random, cdb);
        break;
    case 0x93:
        spoil_write_same(random, cdb);
        break;
    case 0x12:
        if (is_drawn(random))
            cdb[2] ^= wrong_bits(random, 0, 8);
        break;
    case 0x42:
        cdb[1] |= is_drawn(random) ? 0x01 : 0x00;
        break;
    case 0x5E:
    case 0x9E:
        if (is_drawn(random))
            spoil_action(random, cdb);
        break;
    case 0x5F:
        spoil_reserve_out(random, request);
        break;
    default:
        break;
    }
}

/* A call with wrong fields; NACA comes before all of them, so it is drawn more
   seldom. */
static void make_wrong_fields(struct random *random, const struct store *store,
                              struct request *request)
{
    static make_function *const made[] = {
        make_read,             make_read,
        make_write,            make_write,
        make_write_same,       make_write_same,
        make_inquiry,          make_inquiry_page,
        make_unmap,            make_reserve_in,
        make_read_capacity_16, make_get_lba_status,
        make_test_unit_ready,  make_read_capacity_10,
        make_reserve_out,      make_reserve_out,
        make_reserve_out,      make_reserve_out,
        make_reserve_out,
    };

    made[random_below(random, sizeof made / sizeof *made)](random, store,
                                                           request);
    spoil_fields(random, request);
    if (random_percent(random, 33))
        request->cdb[request->cdb_bytes - 1] |= 0x04;
}

/* ---- Any call ---- */

/* The two draws stand apart: C leaves the order of arguments open, and a seed
   must give the same calls whatever the compiler. */
static void make_other_code(struct random *random, const struct store *store,
                            struct request *request)
{
    uint8_t code = (uint8_t)random_word(random);
    size_t bytes = (size_t)RANDOM_CHOICE(random, 1, 6, 10, 12, 16, 17);

    (void)store;
    start_cdb(random, request, code, bytes);
}

/* How often each command is made, in parts of the sum. */
enum { SHARES = 144 };

static const struct {
    unsigned share;
    make_function *make;
} makers[] = {
    {5, make_test_unit_ready},  {5, make_inquiry},
    {6, make_inquiry_page},     {5, make_read_capacity_10},
    {5, make_read_capacity_16}, {14, make_read},
    {15, make_write},           {10, make_unmap},
    {9, make_write_same},       {10, make_get_lba_status},
    {10, make_reserve_in},      {19, make_reserve_out},
    {15, make_wrong_fields},    {14, make_told},
    {2, make_other_code},
};

static void make_any(struct random *random, const struct store *store,
                     struct request *request)
{
    unsigned part = (unsigned)random_below(random, SHARES);
    size_t index = 0;

    while (part >= makers[index].share) {
        part -= makers[index].share;
        index++;
    }
    makers[index].make(random, store, request);
}

/* An operation code that is not listed. */
static uint8_t other_code(struct random *random)
{
    return (uint8_t)RANDOM_CHOICE(random, 0x01, 0x08, 0x1A, 0x2F, 0x41, 0x7F,
                                  0xA0, 0xFF);
}

/* Spoils one thing of the call, but not its nexus; where sense is too short, at
   times the operation code too, which must not be looked at then. */
static void damage(struct random *random, const struct store *store,
                   struct request *request)
{
    size_t at;

    switch (random_below(random, 5)) {
    case 0:
        at = (size_t)random_below(random, 16);
        request->cdb[at] ^= (uint8_t)(1 << random_below(random, 8));
        break;
    case 1:
        request->cdb_bytes = (size_t)RANDOM_CHOICE(
            random, 0, 1, 2, 5, 6, 7, 9, 10, 11, 12, 15, 16, 17, 32);
        break;
    case 2:
        at = (size_t)random_below(random, 40);
        request->data_out[at] ^= (uint8_t)(1 << random_below(random, 8));
        break;
    case 3:
        request->sense_bytes = too_little_sense(random, store->format);
        if (random_percent(random, 20))
            request->cdb[0] = other_code(random);
        break;
    default:
        request->data_out_bytes = (size_t)random_below(random, 600);
        request->data_in_bytes = (size_t)random_below(random, 600);
        break;
    }
}

static void finish_request(struct random *random, const struct store *store,
                           struct request *request)
{
    request->sense_bytes = enough_sense(random, store->format);
    if (random_percent(random, 7))
        damage(random, store, request);
}

void generate_request(struct random *random, const struct store *store,
                      uint64_t nexus, struct request *request)
{
    request->nexus = nexus;
    make_any(random, store, request);
    finish_request(random, store, request);
}

void generate_reserve_out(struct random *random, const struct store *store,
                          uint64_t nexus, struct request *request)
{
    request->nexus = nexus;
    make_reserve_out(random, store, request);
    finish_request(random, store, request);
    request->cdb[0] = 0x5F;
    if (request->cdb_bytes == 0)
        request->cdb_bytes = 10;
}

/* Any nexus; where all places are used, mostly one that is not registered and
   for which nothing waits. */
static uint64_t generate_stranger(struct random *random,
                                  const struct ridge_unit *unit)
{
    bool full = generate_place(random, &unit->rights, false) == RIDGE_PLACES;
    uint64_t nexus = random_below(random, RIDGE_NEXUSES);

    for (size_t step = 0; full && step < RIDGE_NEXUSES; step++) {
        if (key_of(&unit->rights, nexus) == 0 &&
            unit->attentions[nexus] == RIDGE_NO_ATTENTION)
            return nexus;
        nexus = (nexus + 1) % RIDGE_NEXUSES;
    }
    return nexus;
}

/*
 * A REGISTER mostly by a stranger, or a RELEASE by a holder: the one meets
 * answer 6 where all places are used, the other 7 where it names another type.
 */
static void make_refused(struct random *random, const struct store *store,
                         struct request *request)
{
    const struct ridge_rights *rights = &store->unit.rights;
    bool release = rights->type != 0 && random_percent(random, 50);
    uint64_t nexus = generate_stranger(random, &store->unit);

    if (release && rights->type >= 7)
        nexus = rights->places[generate_place(random, rights, true)].nexus;
    else if (release)
        nexus = rights->holder;
    generate_reserve_out(random, store, nexus, request);
    request->cdb[1] = (uint8_t)(release ? 2 : RANDOM_CHOICE(random, 0, 6));
    put(request->data_out, 8, random_percent(random, 85)
                                  ? key_of(rights, nexus)
                                  : generate_key(random));
}

/*
 * A stranger mostly gives 0, the key of an unused place, and a wrong key is
 * often that of another: a library that looks for the sender's key in the wrong
 * place serves them.
 */
void generate_take_over(struct random *random, const struct store *store,
                        struct request *request)
{
    const struct ridge_rights *rights = &store->unit.rights;
    size_t place = generate_place(random, rights, true);
    uint64_t nexus = random_below(random, RIDGE_NEXUS_LAST + 1);

    if (place != RIDGE_PLACES && random_percent(random, 80))
        nexus = rights->places[place].nexus;
    generate_reserve_out(random, store, nexus, request);
    request->cdb[1] = (uint8_t)((request->cdb[1] & 0xE0) | 4);
    request->cdb[2] = (uint8_t)RANDOM_CHOICE(random, 1, 3, 5, 6, 7, 8);
    put(request->data_out, 8, random_percent(random, 80)
                                  ? key_of(rights, nexus)
                                  : generate_action_key(random, rights));
    if (random_percent(random, 70))
        put(request->data_out + 8, 8, 0);
}

/* What chance alone seldom gives; a take-over wants type 7 or 8 to stand. */
void generate_rare(struct random *random, const struct store *store,
                   struct request *request)
{
    unsigned share = store->unit.rights.type >= 7 ? 65 : 15;

    if (random_percent(random, share))
        generate_take_over(random, store, request);
    else
        make_refused(random, store, request);
}

/* ---- Calls that others must know of, and calls of those ---- */

/* A registered nexus for which nothing waits, with that key if it is not 0; if
   there is none, the nexus in the first place that was tried. */
static uint64_t ready_nexus(struct random *random,
                            const struct ridge_unit *unit, uint64_t key)
{
    const struct ridge_place *places = unit->rights.places;
    size_t first = generate_place(random, &unit->rights, true);

    for (size_t step = 0; step < RIDGE_PLACES; step++) {
        const struct ridge_place *place =
            &places[(first + step) % RIDGE_PLACES];

        if (place->key != 0 && (key == 0 || place->key == key) &&
            unit->attentions[place->nexus] == RIDGE_NO_ATTENTION)
            return place->nexus;
    }
    return places[first].nexus;
}

/* Where one nexus holds, mostly that one, or one that shares its key. */
static uint64_t notice_sender(struct random *random,
                              const struct ridge_unit *unit)
{
    const struct ridge_rights *rights = &unit->rights;
    bool one_holds = rights->type != 0 && rights->type < 7;
    uint64_t kind = random_below(random, 100);

    if (generate_place(random, rights, true) == RIDGE_PLACES)
        return random_below(random, RIDGE_NEXUSES);
    if (one_holds && kind < 30 && unit->attentions[rights->holder] == 0)
        return rights->holder;
    return ready_nexus(random, unit,
                       one_holds && kind < 52 ? key_of(rights, rights->holder)
                                              : 0);
}

/* The holder's key, the sender's own, 0, or that of any; the sender is
   registered mostly, and then there is one. */
static uint64_t preempted_key(struct random *random,
                              const struct ridge_rights *rights, uint64_t own)
{
    uint64_t kind = random_below(random, 100);
    size_t place = generate_place(random, rights, true);

    if (rights->type >= 7 && kind < 45)
        return 0;
    if (rights->type != 0 && rights->type < 7 && kind < 38)
        return key_of(rights, rights->holder);
    if (kind < 66)
        return own;
    if (kind < 94 && place != RIDGE_PLACES)
        return rights->places[place].key;
    return generate_action_key(random, rights);
}

/* Unregistering mostly, else another key; or whom PREEMPT is to remove. */
static uint64_t notice_key(struct random *random, uint64_t action,
                           const struct ridge_rights *rights, uint64_t own)
{
    if (action == 4)
        return preempted_key(random, rights, own);
    return random_percent(random, 80) ? 0 : generate_key(random);
}

void generate_notice(struct random *random, const struct store *store,
                     struct request *request)
{
    const struct ridge_rights *rights = &store->unit.rights;
    uint64_t action = RANDOM_CHOICE(random, 0, 0, 6, 6, 1, 2, 2, 3, 4, 4, 4, 4,
                                    4, 4);
    uint64_t nexus = notice_sender(random, &store->unit);
    uint64_t own = key_of(rights, nexus);
    uint64_t any_type = RANDOM_CHOICE(random, 1, 3, 5, 6, 7, 8);
    unsigned same = action == 2 ? 85 : 40;

    request->nexus = nexus;
    make_reserve_out(random, store, request);
    request->cdb[1] = (uint8_t)((request->cdb[1] & 0xE0) | action);
    request->cdb[2] = (uint8_t)(rights->type != 0 &&
                                        random_percent(random, same)
                                    ? rights->type
                                    : any_type);
    put(request->cdb + 5, 4, 24);
    put(request->data_out, 8, own);
    put(request->data_out + 8, 8, notice_key(random, action, rights, own));
    request->data_out[20] &= 0xF2;
    request->data_out_bytes = generate_size(random, 24);
    finish_request(random, store, request);
}

uint64_t generate_waiting(struct random *random, const struct ridge_unit *unit)
{
    uint64_t first = random_below(random, RIDGE_NEXUSES);

    for (uint64_t step = 0; step < RIDGE_NEXUSES; step++) {
        uint64_t nexus = (first + step) % RIDGE_NEXUSES;

        if (unit->attentions[nexus] != RIDGE_NO_ATTENTION)
            return nexus;
    }
    return RIDGE_NEXUSES;
}

/* At times the nexus is another one, which some of its bits would make the one
   for which something waits. */
bool generate_attended(struct random *random, const struct store *store,
                       struct request *request)
{
    uint64_t kind = random_below(random, 100);

    request->nexus = generate_waiting(random, &store->unit);
    if (request->nexus == RIDGE_NEXUSES)
        return false;
    if (kind < 16)
        make_inquiry(random, store, request);
    else if (kind < 36)
        make_inquiry_page(random, store, request);
    else if (kind < 44)
        make_other_code(random, store, request);
    else
        make_any(random, store, request);
    finish_request(random, store, request);
    if (random_percent(random, 12))
        request->cdb_bytes = (size_t)RANDOM_CHOICE(
            random, 0, 0, 1, 5, 6, 7, 9, 10, 11, 12, 15, 16, 17);
    if (random_percent(random, 5))
        request->nexus +=
            UINT64_C(1) << RANDOM_CHOICE(random, 4, 8, 16, 32, 63);
    return true;
}

/* ---- Calls that take and free slots ---- */

/* Nobody is stopped where there is no reservation, and a holder never is. */
static uint64_t served_nexus(struct random *random,
                             const struct ridge_unit *unit)
{
    const struct ridge_rights *rights = &unit->rights;
    uint64_t nexus = random_below(random, RIDGE_NEXUSES);

    if (rights->type != 0)
        return rights->type >= 7 ? ready_nexus(random, unit, 0)
                                 : rights->holder;
    for (size_t step = 0; step < RIDGE_NEXUSES; step++) {
        if (unit->attentions[nexus] == RIDGE_NO_ATTENTION)
            return nexus;
        nexus = (nexus + 1) % RIDGE_NEXUSES;
    }
    return nexus;
}

/* All slots that are free, or one more, or one or two of them; in a large store
   at times as many blocks as one command moves, mapped or not. */
static void taking_range(struct random *random, const struct store *store,
                         uint64_t *address, uint64_t *count)
{
    uint64_t free = free_slots(store);
    uint64_t wanted = RANDOM_CHOICE(random, free, free, free + 1, 1, 2);

    if (store->slots >= LARGE_SLOTS && random_percent(random, 25)) {
        large_range(random, store, address, count);
        return;
    }
    *address = address_within(random, store->unit.capacity);
    *count = count_of_unmapped(store, *address, wanted);
}

static void make_taking(struct random *random, const struct store *store,
                        struct request *request)
{
    bool same = random_percent(random, 60);
    uint64_t address;
    uint64_t count;

    taking_range(random, store, &address, &count);
    start_cdb(random, request, same ? 0x93 : 0x8A, 16);
    request->cdb[1] &= same ? 0x07 : 0x1F;
    put_range(request, address, count);
    request->data_out_bytes = (same ? 1 : (size_t)count) * RIDGE_BLOCK_BYTES;
    random_fill(random, request->data_out, request->data_out_bytes);
}

/* From the block in such a slot on; blocks that follow it may lie beside it. */
static void edge_range(struct random *random, const struct store *store,
                       uint64_t *address, uint64_t *count)
{
    uint64_t owner = store->owners[edge_slot(random, store->slots)];
    uint64_t left;

    *address = owner == 0 ? address_within(random, store->unit.capacity)
                          : owner - 1;
    left = store->unit.capacity - *address;
    *count = RANDOM_CHOICE(random, 1, 1, 1, 2, 2, 2, 3, RIDGE_TRANSFER_BLOCKS);
    if (*count > left)
        *count = left;
}

static void make_freeing(struct random *random, const struct store *store,
                         struct request *request)
{
    uint64_t address;
    uint64_t count;

    edge_range(random, store, &address, &count);
    if (random_percent(random, 60)) {
        start_cdb(random, request, 0x93, 16);
        request->cdb[1] = (uint8_t)((request->cdb[1] & 0x06) | 0x09);
        put_range(request, address, count);
        return;
    }
    start_cdb(random, request, 0x42, 10);
    request->cdb[1] &= 0xFE;
    put(request->cdb + 7, 2, 24);
    random_fill(random, request->data_out, 24);
    put(request->data_out + 2, 2, 16);
    put(request->data_out + 8, 8, address);
    put(request->data_out + 16, 4, count);
    request->data_out_bytes = 24;
}

void generate_room(struct random *random, const struct store *store,
                   struct request *request)
{
    request->nexus = served_nexus(random, &store->unit);
    if (random_percent(random, 50))
        make_taking(random, store, request);
    else
        make_freeing(random, store, request);
    finish_request(random, store, request);
}

/* ---- Faults ---- */

/* A CDB of no bytes is unusable anyway. */
void generate_fault(struct random *random, const struct store *store,
                    struct request *request)
{
    uint64_t waiting = generate_waiting(random, &store->unit);
    size_t bytes = request->cdb_bytes;

    switch (random_below(random, 3)) {
    case 0:
        request->cdb[0] = other_code(random);
        break;
    case 1:
        if (bytes > 0)
            request->cdb_bytes =
                (size_t)RANDOM_CHOICE(random, bytes - 1, bytes - 1, bytes + 1);
        break;
    default:
        if (waiting != RIDGE_NEXUSES)
            request->nexus = waiting;
        break;
    }
}
