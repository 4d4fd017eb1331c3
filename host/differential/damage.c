/*
 * damage.c - stores with one thing wrong; damage.h says what for.
 *
 * A way that the store gives no occasion for (no place is used) changes nothing
 * and says so, and the next one is tried.
 */

#include "damage.h"

#include <string.h>

/* ---- Values ---- */

/* The value and one bit far above it: cut to fewer bits, it is the value. */
static uint64_t far_above(struct random *random, uint64_t value)
{
    return value +
           (UINT64_C(1) << RANDOM_CHOICE(random, 8, 16, 24, 31, 32, 40, 48,
                                         63));
}

static uint32_t far_above_32(struct random *random, uint32_t value)
{
    return value + (UINT32_C(1) << RANDOM_CHOICE(random, 8, 16, 24, 31));
}

/* A number for where 0 must stand, at times one that is 0 if it is cut. */
static uint64_t not_0(struct random *random)
{
    uint64_t near = 1 + random_below(random, RIDGE_NEXUS_LAST);
    uint64_t far = far_above(random, 0);

    return RANDOM_CHOICE(random, near, near, 16, UINT64_MAX, far, far);
}

static uint64_t unregistered(struct random *random,
                             const struct ridge_rights *rights)
{
    uint64_t nexus = random_below(random, RIDGE_NEXUS_LAST + 1);

    while (key_of(rights, nexus) != 0)
        nexus = (nexus + 1) % (RIDGE_NEXUS_LAST + 1);
    return nexus;
}

static bool one_nexus_holds(const struct ridge_rights *rights)
{
    return rights->type != 0 && rights->type < 7;
}

/* ---- The map ---- */

/* In half of the cases the last slot: a check that ends early misses it. */
static size_t any_slot(struct random *random, const struct lent *lent)
{
    size_t before_last = random_percent(random, 50)
                             ? 0
                             : (size_t)random_below(random, lent->slots);

    return lent->slots - 1 - before_last;
}

/* The marks follow the owners, so that these alone are wrong. */
static void mark_owners(const struct lent *lent)
{
    *lent->marks = marks_due(lent->owners, lent->slots);
}

static bool owner_above_capacity(struct random *random,
                                 const struct lent *lent)
{
    uint64_t capacity = lent->unit->capacity;
    size_t slot = any_slot(random, lent);

    lent->owners[slot] = RANDOM_CHOICE(random, capacity + 1, UINT64_MAX,
                                       (UINT64_C(1) << 32) + capacity);
    mark_owners(lent);
    return true;
}

/* Mostly the slot before is the other one: the last two are the last pair that
   a check comes to. */
static bool two_slots_of_a_block(struct random *random,
                                 const struct lent *lent)
{
    size_t slot = any_slot(random, lent);
    size_t back = 1;
    size_t other;

    if (lent->slots < 2)
        return false;
    if (random_percent(random, 30))
        back += (size_t)random_below(random, lent->slots - 1);
    other = (slot + lent->slots - back) % lent->slots;
    if (lent->owners[slot] == 0)
        lent->owners[slot] = lent->unit->capacity;
    lent->owners[other] = lent->owners[slot];
    mark_owners(lent);
    return true;
}

/* ---- The marks ---- */

enum { MARKS = RIDGE_MARK_WORDS * RIDGE_WORD_SLOTS };

static bool is_marked(const struct lent *lent, size_t bit)
{
    return (lent->marks->words[bit / 64] >> bit % 64 & 1) != 0;
}

static void flip_mark(const struct lent *lent, size_t bit)
{
    lent->marks->words[bit / 64] ^= UINT64_C(1) << bit % 64;
}

/* Puts these words, if they are others than those that are right. */
static bool put_marks(const struct lent *lent, uint64_t first, uint64_t second)
{
    const struct ridge_marks marks = {{first, second}};

    if (same_marks(&marks, lent->marks))
        return false;
    *lent->marks = marks;
    return true;
}

/* The next slot from one at an end, or from any, that is marked, or is not;
   the number of slots if none is. */
static size_t slot_so_marked(struct random *random, const struct lent *lent,
                             bool marked)
{
    size_t any = (size_t)random_below(random, lent->slots);
    size_t last = lent->slots - 1;
    size_t first = (size_t)RANDOM_CHOICE(random, any, any, 0, 63, 64, 63, 64,
                                         last, last, last);

    for (size_t step = 0; step < lent->slots; step++) {
        size_t slot = (first + step) % lent->slots;

        if (is_marked(lent, slot) == marked)
            return slot;
    }
    return lent->slots;
}

static bool flip_mark_of(struct random *random, const struct lent *lent,
                         bool marked)
{
    size_t slot = slot_so_marked(random, lent, marked);

    if (slot == lent->slots)
        return false;
    flip_mark(lent, slot);
    return true;
}

static bool mark_without_owner(struct random *random, const struct lent *lent)
{
    return flip_mark_of(random, lent, false);
}

static bool owner_without_mark(struct random *random, const struct lent *lent)
{
    return flip_mark_of(random, lent, true);
}

/* The next bit, the last one of either word, the first one of the second, or
   any; in the second word more often than that has bits. */
static bool mark_beyond(struct random *random, const struct lent *lent)
{
    size_t slots = lent->slots;
    uint64_t second = slots < 64 ? 64 : slots;
    uint64_t any, behind;

    if (slots == MARKS)
        return false;
    any = slots + random_below(random, MARKS - slots);
    behind = second + random_below(random, MARKS - second);
    flip_mark(lent, (size_t)RANDOM_CHOICE(random, slots, slots, any, behind,
                                          second, MARKS - 1, MARKS - 1,
                                          slots < 64 ? 63 : slots));
    return true;
}

/* The bit before or behind is marked for a slot that is used, often over the
   end of a word; it may be one that the pool has no slot for. */
static bool mark_of_neighbour(struct random *random, const struct lent *lent)
{
    bool up = random_percent(random, 50);
    size_t first = random_percent(random, 75)
                       ? (up ? 63 : 64)
                       : slot_so_marked(random, lent, true);

    for (size_t step = 0; step < lent->slots; step++) {
        size_t slot = (first + step) % lent->slots;
        size_t other = up ? slot + 1 : slot - 1;

        if (!is_marked(lent, slot) || other >= MARKS || is_marked(lent, other))
            continue;
        flip_mark(lent, slot);
        flip_mark(lent, other);
        return true;
    }
    return false;
}

static bool words_swapped(struct random *random, const struct lent *lent)
{
    (void)random;
    return put_marks(lent, lent->marks->words[1], lent->marks->words[0]);
}

static bool word_empty(struct random *random, const struct lent *lent)
{
    uint64_t kept = random_below(random, 3);

    return put_marks(lent, kept == 1 ? lent->marks->words[0] : 0,
                     kept == 2 ? lent->marks->words[1] : 0);
}

/* Both words alike: what is right for one of them, or a word beyond the slots
   where the pool has no more than 64. */
static bool words_alike(struct random *random, const struct lent *lent)
{
    uint64_t word = lent->marks->words[random_below(random, 2)];

    return put_marks(lent, word, word);
}

/* Of all bits, or of those that the pool has slots for. */
static bool all_marked(struct random *random, const struct lent *lent)
{
    uint64_t used[RIDGE_SLOTS];
    struct ridge_marks marks;

    for (size_t slot = 0; slot < lent->slots; slot++)
        used[slot] = 1;
    marks = marks_due(used, lent->slots);
    if (random_percent(random, 50))
        return put_marks(lent, UINT64_MAX, UINT64_MAX);
    return put_marks(lent, marks.words[0], marks.words[1]);
}

/* Free slots for used ones, within the pool or in all bits. */
static bool marks_turned(struct random *random, const struct lent *lent)
{
    uint64_t free[RIDGE_SLOTS];
    struct ridge_marks marks;

    for (size_t slot = 0; slot < lent->slots; slot++)
        free[slot] = lent->owners[slot] == 0 ? 1 : 0;
    marks = marks_due(free, lent->slots);
    if (random_percent(random, 30))
        return put_marks(lent, ~lent->marks->words[0], ~lent->marks->words[1]);
    return put_marks(lent, marks.words[0], marks.words[1]);
}

/* Slots counted from 1, in both words or in each. */
static bool marks_from_1(struct random *random, const struct lent *lent)
{
    const uint64_t *words = lent->marks->words;
    uint64_t over = random_percent(random, 50) ? words[0] >> 63 : 0;

    return put_marks(lent, words[0] << 1, words[1] << 1 | over);
}

static uint64_t turned(uint64_t word)
{
    uint64_t other = 0;

    for (size_t bit = 0; bit < 64; bit++)
        other |= (word >> bit & 1) << (63 - bit);
    return other;
}

/* Slot 0 in the top bit. */
static bool marks_from_the_top(struct random *random, const struct lent *lent)
{
    (void)random;
    return put_marks(lent, turned(lent->marks->words[0]),
                     turned(lent->marks->words[1]));
}

static bool another_mark(struct random *random, const struct lent *lent)
{
    flip_mark(lent, (size_t)random_below(random, MARKS));
    return true;
}

static bool any_marks(struct random *random, const struct lent *lent)
{
    uint64_t first = random_word(random);
    uint64_t second = random_word(random);
    uint64_t kind = random_below(random, 3);

    return put_marks(lent, kind == 0 ? lent->marks->words[0] : first,
                     kind == 1 ? lent->marks->words[1] : second);
}

/* ---- Capacity and generation ---- */

static bool capacity_out_of_bounds(struct random *random,
                                   const struct lent *lent)
{
    uint64_t capacity = lent->unit->capacity;

    lent->unit->capacity = RANDOM_CHOICE(
        random, 0, RIDGE_CAPACITY_LAST + 1, UINT64_C(1) << 63, UINT64_MAX,
        capacity + 2 * RIDGE_CAPACITY_LAST, capacity + (UINT64_C(1) << 63));
    return true;
}

static bool another_capacity(struct random *random, const struct lent *lent)
{
    lent->unit->capacity =
        RANDOM_CHOICE(random, 1, lent->slots, UINT32_MAX, RIDGE_CAPACITY_LAST);
    return true;
}

/* No generation is wrong. */
static bool another_generation(struct random *random, const struct lent *lent)
{
    lent->unit->rights.generation = (uint32_t)RANDOM_CHOICE(
        random, 0, UINT32_MAX, 255, 0xFFFF, 0xFFFFFF, 0x7FFFFFFF);
    return true;
}

/* ---- Places ---- */

static bool nexus_above_15(struct random *random, const struct lent *lent)
{
    struct ridge_place *places = lent->unit->rights.places;
    size_t place = generate_place(random, &lent->unit->rights, true);
    uint64_t far;

    if (place == RIDGE_PLACES)
        return false;
    far = far_above(random, places[place].nexus);
    places[place].nexus = RANDOM_CHOICE(random, 16, 16, 255, UINT64_C(1) << 32,
                                        UINT64_MAX, far, far, far);
    return true;
}

static bool nexus_without_key(struct random *random, const struct lent *lent)
{
    struct ridge_rights *rights = &lent->unit->rights;
    size_t place = generate_place(random, rights, false);

    if (place == RIDGE_PLACES)
        return false;
    rights->places[place].nexus = not_0(random);
    return true;
}

/* A used place and any other, which is used then. */
static bool nexus_twice(struct random *random, const struct lent *lent)
{
    struct ridge_place *places = lent->unit->rights.places;
    size_t place = generate_place(random, &lent->unit->rights, true);
    size_t other = place + 1 + (size_t)random_below(random, RIDGE_PLACES - 1);

    if (place == RIDGE_PLACES)
        return false;
    other %= RIDGE_PLACES;
    places[other].nexus = places[place].nexus;
    if (places[other].key == 0)
        places[other].key = 5;
    return true;
}

/* What is left is a nexus without key, save where the nexus is 0. */
static bool key_gone(struct random *random, const struct lent *lent)
{
    size_t place = generate_place(random, &lent->unit->rights, true);

    if (place == RIDGE_PLACES)
        return false;
    lent->unit->rights.places[place].key = 0;
    return true;
}

/* ---- The reservation ---- */

static bool type_not_listed(struct random *random, const struct lent *lent)
{
    struct ridge_rights *rights = &lent->unit->rights;
    uint32_t far = far_above_32(random, rights->type);

    rights->type = (uint32_t)RANDOM_CHOICE(random, 2, 4, 9, 15, 255,
                                           UINT32_MAX, far, far, far);
    return true;
}

static bool another_type(struct random *random, const struct lent *lent)
{
    lent->unit->rights.type =
        (uint32_t)RANDOM_CHOICE(random, 0, 1, 3, 5, 6, 7, 8);
    return true;
}

/* One is made to hold first where no one nexus does. */
static bool holder_not_registered(struct random *random,
                                  const struct lent *lent)
{
    struct ridge_rights *rights = &lent->unit->rights;
    size_t place = generate_place(random, rights, true);
    uint64_t stranger = unregistered(random, rights);
    uint64_t far;

    if (place == RIDGE_PLACES)
        return false;
    if (!one_nexus_holds(rights))
        generate_reservation(random, rights,
                             (uint32_t)RANDOM_CHOICE(random, 1, 3, 5, 6));
    far = far_above(random, rights->holder);
    rights->holder = RANDOM_CHOICE(
        random, stranger, stranger, 16, UINT64_MAX, far, far,
        (UINT64_C(1) << 32) + rights->places[place].nexus);
    return true;
}

static bool holder_of_no_reservation(struct random *random,
                                     const struct lent *lent)
{
    lent->unit->rights.type = 0;
    lent->unit->rights.holder = not_0(random);
    return true;
}

static bool holder_beside_all(struct random *random, const struct lent *lent)
{
    struct ridge_rights *rights = &lent->unit->rights;

    if (generate_place(random, rights, true) == RIDGE_PLACES)
        return false;
    rights->type = (uint32_t)RANDOM_CHOICE(random, 7, 8);
    rights->holder = not_0(random);
    return true;
}

static bool nobody_registered(struct random *random, const struct lent *lent)
{
    struct ridge_rights *rights = &lent->unit->rights;

    memset(rights->places, 0, sizeof rights->places);
    rights->type = (uint32_t)RANDOM_CHOICE(random, 1, 3, 5, 6, 7, 8);
    rights->holder = 0;
    return true;
}

/* ---- Attentions ---- */

/* The next after the three, one that is among them if a bit is cut, one at an
   end of fewer bits, or any. */
static bool attention_not_listed(struct random *random, const struct lent *lent)
{
    uint64_t nexus = random_below(random, RIDGE_NEXUSES);
    uint64_t listed = random_below(random, RIDGE_RESERVATIONS_RELEASED + 1);
    uint64_t with_a_bit = listed | UINT64_C(1) << (2 + random_below(random, 6));
    uint64_t any = 4 + random_below(random, 252);

    lent->unit->attentions[nexus] = (uint8_t)RANDOM_CHOICE(
        random, 4, 4, 5, 8, 16, 32, 64, 127, 128, 128, 129, 254, 255, 255,
        with_a_bit, with_a_bit, any);
    return true;
}

static bool another_attention(struct random *random, const struct lent *lent)
{
    uint64_t nexus = random_below(random, RIDGE_NEXUSES);

    lent->unit->attentions[nexus] =
        (uint8_t)random_below(random, RIDGE_RESERVATIONS_RELEASED + 1);
    return true;
}

/* ---- The record as bytes ---- */

static bool another_bit(struct random *random, const struct lent *lent)
{
    uint8_t *bytes = (uint8_t *)lent->unit;
    uint64_t bit = random_below(random, 8 * sizeof *lent->unit);

    bytes[bit / 8] ^= (uint8_t)(1 << bit % 8);
    return true;
}

static bool any_bytes(struct random *random, const struct lent *lent)
{
    random_fill(random, (uint8_t *)lent->unit, sizeof *lent->unit);
    return true;
}

/* ---- All ways ---- */

/* The first ways are those of the map, those of the marks the last; the first
   of these are of one bit, and then comes the neighbour's. */
enum { MAP_WAYS = 2, ATTENTION_WAY = 15, MARK_WAY = 19, NEIGHBOUR_WAY = 22 };

static const struct way {
    const char *name;
    bool invalid;
    bool (*damage)(struct random *random, const struct lent *lent);
} ways[DAMAGE_WAYS] = {
    {"an owner above the capacity", true, owner_above_capacity},
    {"two slots of one block", true, two_slots_of_a_block},
    {"a capacity out of bounds", true, capacity_out_of_bounds},
    {"another capacity", false, another_capacity},
    {"another generation", false, another_generation},
    {"a nexus above 15", true, nexus_above_15},
    {"a nexus without key", true, nexus_without_key},
    {"a nexus in two places", true, nexus_twice},
    {"a key gone", false, key_gone},
    {"a type not listed", true, type_not_listed},
    {"another type", false, another_type},
    {"a holder not registered", true, holder_not_registered},
    {"a holder of no reservation", true, holder_of_no_reservation},
    {"a holder beside all registrants", true, holder_beside_all},
    {"a reservation and nobody registered", true, nobody_registered},
    [ATTENTION_WAY] = {"an attention not listed", true, attention_not_listed},
    {"another attention", false, another_attention},
    {"another bit of the record", false, another_bit},
    {"any bytes for a record", false, any_bytes},
    [MARK_WAY] = {"a mark without its owner", true, mark_without_owner},
    {"an owner without its mark", true, owner_without_mark},
    {"a mark beyond the slots", true, mark_beyond},
    [NEIGHBOUR_WAY] = {"the mark of a neighbour", true, mark_of_neighbour},
    {"the words of marks swapped", true, words_swapped},
    {"a word of marks empty", true, word_empty},
    {"both words of marks alike", true, words_alike},
    {"all marked", true, all_marked},
    {"marks of the free slots", true, marks_turned},
    {"marks counted from 1", true, marks_from_1},
    {"marks counted from the top", true, marks_from_the_top},
    {"another bit of the marks", true, another_mark},
    {"any marks", true, any_marks},
};

static size_t way_from(struct random *random, size_t first, size_t end)
{
    return first + (size_t)random_below(random, end - first);
}

/* The map of a large store has most that can be wrong; there are 16 attentions,
   each of which may be overlooked, and 128 marks. */
static size_t choose_way(struct random *random, const struct lent *lent)
{
    uint64_t kind = random_below(random, 100);

    if (lent->slots >= LARGE_SLOTS && kind < 35)
        return way_from(random, 0, MAP_WAYS);
    if (kind < 16)
        return ATTENTION_WAY;
    if (kind >= 92)
        return NEIGHBOUR_WAY;
    if (kind >= 75)
        return way_from(random, MARK_WAY, NEIGHBOUR_WAY);
    if (kind >= 60)
        return way_from(random, MARK_WAY, DAMAGE_WAYS);
    return way_from(random, 0, MARK_WAY);
}

size_t damage_store(struct random *random, const struct lent *lent)
{
    size_t way = choose_way(random, lent);

    while (!ways[way].damage(random, lent))
        way = (way + 1) % DAMAGE_WAYS;
    return way;
}

const char *damage_name(size_t way)
{
    return ways[way].name;
}

bool damage_is_invalid(size_t way)
{
    return ways[way].invalid;
}
