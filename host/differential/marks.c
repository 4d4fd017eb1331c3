/*
 * marks.c - what calls came to of the marks and of room; marks.h says what for.
 */

#include "marks.h"

/* ---- The tables ---- */

enum axis_number {
    ALONE, /* of a table that has fewer axes */
    SIZES,
    SIZES_ABOVE_1,
    HALVES,
    FILLS,
    FREE_OR_USED,
    LOWEST,
    ANSWERS_BESIDE,
    REASONS,
    CHANGERS,
    WRITERS,
    UNMAPPERS,
    CHANGES,
    ROOM_LEFT,
    UNPAIRED,
    AT_SLOT,
    BEYOND,
    MOVED,
    OTHERWISE,
    LATER_FAULTS,
    MARKS_BEFORE,
    FRESH_OUTCOMES,
    AXIS_NUMBERS
};

static const struct axis axes[AXIS_NUMBERS] = {
    [ALONE] = {1, {""}},
    [SIZES] = {8, {"1 slot", "2 to 62 slots", "63 slots", "64 slots",
                   "65 slots", "66 to 126 slots", "127 slots", "128 slots"}},
    [SIZES_ABOVE_1] = {7, {"2 to 62 slots", "63 slots", "64 slots", "65 slots",
                           "66 to 126 slots", "127 slots", "128 slots"}},
    [HALVES] = {2, {"up to 64 slots", "above 64 slots"}},
    [FILLS] = {5, {"all free", "one used", "some used", "one free",
                   "none free"}},
    [FREE_OR_USED] = {2, {"free", "used"}},
    [LOWEST] = {12, {"slot 0, alone", "slot 0, with others",
                     "between 0 and 63, alone",
                     "between 0 and 63, with others of the first word",
                     "between 0 and 63, with others of the second word only",
                     "slot 63, alone", "slot 63, with others",
                     "slot 64, alone", "slot 64, with others",
                     "between 64 and 127, alone",
                     "between 64 and 127, with others", "slot 127"}},
    [ANSWERS_BESIDE] = {16, {"0", "1", "2", "3", "4", "5", "6", "7", "8", "10",
                             "12", "13", "11 for its nexus", "11 for no CDB",
                             "11 for too little sense",
                             "11 for the length of its CDB"}},
    [REASONS] = {14, {"a format that is none", "no slots", "129 slots",
                      "no medium", "a byte less of medium",
                      "a byte more of medium", "a block less of medium",
                      "a block more of medium", "a capacity out of bounds",
                      "an attention that is none",
                      "an owner above the capacity", "two slots of one block",
                      "the marks", "registrations or reservation"}},
    [CHANGERS] = {4, {"WRITE", "WRITE SAME", "UNMAP",
                      "WRITE SAME that unmaps"}},
    [WRITERS] = {2, {"WRITE", "WRITE SAME"}},
    [UNMAPPERS] = {2, {"UNMAP", "WRITE SAME that unmaps"}},
    [CHANGES] = {11, {"of the first word alone", "of the second word alone",
                      "of both words", "of slot 0", "of slot 63",
                      "of slot 64", "of slots 63 and 64", "of slot 127",
                      "of the last slot", "of several slots", "of none"}},
    [ROOM_LEFT] = {2, {"none free", "some free"}},
    [UNPAIRED] = {2, {"a mark without its owner", "an owner without its mark"}},
    [AT_SLOT] = {6, {"slot 0", "slot 63", "slot 64", "slot 127",
                     "the last slot", "another slot"}},
    [BEYOND] = {12, {"below 64 slots, the next bit", "below 64 slots, bit 63",
                     "below 64 slots, another of the first word",
                     "below 64 slots, bit 64", "below 64 slots, bit 127",
                     "below 64 slots, another of the second word",
                     "64 slots, the next bit", "64 slots, bit 127",
                     "64 slots, another", "65 to 127 slots, the next bit",
                     "65 to 127 slots, bit 127", "65 to 127 slots, another"}},
    [MOVED] = {7, {"up in the first word", "down in the first word",
                   "from 63 to 64", "from 64 to 63", "up in the second word",
                   "down in the second word", "beyond the slots"}},
    [OTHERWISE] = {21, {"words swapped, up to 64 slots",
                        "words swapped, above 64 slots",
                        "the first word empty", "the second word empty",
                        "both words empty",
                        "the second word as the first, up to 64 slots",
                        "the second word as the first, above 64 slots",
                        "the first word as the second",
                        "all bits, up to 64 slots", "all bits, 65 to 127 slots",
                        "all bits, 128 slots", "every slot of less than 64",
                        "every slot of 64", "every slot of 65 to 127",
                        "the free slots", "all bits turned", "counted from 1",
                        "counted from 1 in each word", "counted from the top",
                        "several bits of the first word only",
                        "several bits of the second word only"}},
    [LATER_FAULTS] = {11, {"answered 0 alone", "answered 1 alone",
                           "answered 2 alone", "answered 3 alone",
                           "answered 8 alone", "answered 10 alone",
                           "answered 12 alone", "answered 13 alone",
                           "answered 4 to 7 alone",
                           "answered 11 alone for the length of its CDB",
                           "an INQUIRY where something waits"}},
    [MARKS_BEFORE] = {4, {"no marks", "marks in the first word",
                          "marks in the second word", "marks in both words"}},
    [FRESH_OUTCOMES] = {4, {"made", "refused for the capacity",
                            "refused for the slots",
                            "refused for the format"}},
};

enum table_number {
    ROOM_TOLD,
    ROOM_OF_ONE,
    ROOM_LOWEST,
    ROOM_AFTER,
    ROOM_REFUSED,
    CHANGED,
    FILLED_UP,
    FREED_FROM_FULL,
    EMPTIED,
    OUT_OF_ROOM,
    OUT_OF_ROOM_WITH,
    WRONG_AT,
    WRONG_BEYOND,
    WRONG_MOVED,
    WRONG_OTHERWISE,
    WRONG_AND_LATER,
    FRESH_OVER,
    TABLES
};

_Static_assert((int)TABLES == (int)MARK_TABLES, "marks.h has as many");

static const struct table tables[TABLES] = {
    [ROOM_TOLD] = {"room told", {SIZES_ABOVE_1, FILLS}},
    [ROOM_OF_ONE] = {"room told of one slot", {FREE_OR_USED}},
    [ROOM_LOWEST] = {"the lowest free", {LOWEST}},
    [ROOM_AFTER] = {"room told after a call answered", {ANSWERS_BESIDE}},
    [ROOM_REFUSED] = {"room refused for", {REASONS}},
    [CHANGED] = {"changed by", {CHANGERS, CHANGES}},
    [FILLED_UP] = {"the last free slots taken by", {WRITERS, SIZES}},
    [FREED_FROM_FULL] = {"freed in a full pool by", {UNMAPPERS, SIZES}},
    [EMPTIED] = {"the last used slots freed by", {UNMAPPERS, HALVES}},
    [OUT_OF_ROOM] = {"a slot too few for", {WRITERS, SIZES}},
    [OUT_OF_ROOM_WITH] = {"a slot too few for",
                          {WRITERS, HALVES, ROOM_LEFT}},
    [WRONG_AT] = {"wrong by", {UNPAIRED, AT_SLOT}},
    [WRONG_BEYOND] = {"wrong beyond the slots", {BEYOND}},
    [WRONG_MOVED] = {"wrong by a neighbour's", {MOVED}},
    [WRONG_OTHERWISE] = {"wrong in", {OTHERWISE}},
    [WRONG_AND_LATER] = {"wrong where the call is", {LATER_FAULTS}},
    [FRESH_OVER] = {"a fresh store over", {MARKS_BEFORE, FRESH_OUTCOMES}},
};

const struct tables mark_tables = {"marks:", axes, tables};

static void count(struct mark_counts *counts, enum table_number table,
                  size_t first, size_t second, size_t third)
{
    const size_t at[TABLE_AXES] = {first, second, third};

    counts->of[table][table_cell(&mark_tables, table, at)]++;
}

/* ---- Slots and bits ---- */

static size_t size_of(size_t slots)
{
    if (slots == 1)
        return 0;
    if (slots <= 62)
        return 1;
    if (slots <= 65)
        return slots - 61;
    return slots <= 126 ? 5 : slots - 121;
}

static size_t bits_of(uint64_t word)
{
    size_t count_of_bits = 0;

    for (; word != 0; word &= word - 1)
        count_of_bits++;
    return count_of_bits;
}

static size_t bits_of_both(const uint64_t words[2])
{
    return bits_of(words[0]) + bits_of(words[1]);
}

static bool has_bit(const uint64_t words[2], size_t bit)
{
    return (words[bit / 64] >> bit % 64 & 1) != 0;
}

/* The lowest bit that is set; one is. */
static size_t first_bit(const uint64_t words[2])
{
    size_t bit = 0;

    while (!has_bit(words, bit))
        bit++;
    return bit;
}

/* ---- Room ---- */

static size_t free_from(const struct occasion *call, size_t from, size_t to)
{
    size_t free = 0;

    for (size_t slot = from; slot < to && slot < call->slots; slot++)
        free += call->owners_after[slot] == 0 ? 1 : 0;
    return free;
}

static size_t fill_of(const struct occasion *call)
{
    if (call->free_slots == call->slots)
        return 0;
    if (call->free_slots == 0)
        return 4;
    if (call->free_slots + 1 == call->slots)
        return 1;
    return call->free_slots == 1 ? 3 : 2;
}

static size_t lowest_of(const struct occasion *call)
{
    bool alone = call->free_slots == 1;

    if (call->lowest_free == 0)
        return alone ? 0 : 1;
    if (call->lowest_free < 63 && !alone)
        return free_from(call, 0, 64) > 1 ? 3 : 4;
    if (call->lowest_free < 63)
        return 2;
    if (call->lowest_free == 63)
        return alone ? 5 : 6;
    if (call->lowest_free == 64)
        return alone ? 7 : 8;
    if (call->lowest_free == 127)
        return 11;
    return alone ? 9 : 10;
}

/* By the answer to the call; an unusable one had only itself to blame. */
static size_t answer_beside(const struct occasion *call)
{
    switch (call->answer) {
    case RIDGE_CONFLICT:
        return 9;
    case RIDGE_BUFFER_SHORT:
        return 10;
    case RIDGE_ATTENTION:
        return 11;
    case RIDGE_UNUSABLE:
        if (call->nexus > RIDGE_NEXUS_LAST)
            return 12;
        if (call->cdb_bytes == 0)
            return 13;
        return call->sense_bytes < sense_wanted(call->format) ? 14 : 15;
    default:
        return (size_t)call->answer;
    }
}

static void count_room(const struct occasion *call, struct mark_counts *counts)
{
    if (call->slots == 1)
        count(counts, ROOM_OF_ONE, call->free_slots == 1 ? 0 : 1, 0, 0);
    else
        count(counts, ROOM_TOLD, size_of(call->slots) - 1, fill_of(call), 0);
    if (call->free_slots > 0)
        count(counts, ROOM_LOWEST, lowest_of(call), 0, 0);
    count(counts, ROOM_AFTER, answer_beside(call), 0, 0);
}

/* ---- Room that is refused ---- */

static bool has_wrong_attention(const struct occasion *call)
{
    for (size_t nexus = 0; nexus < RIDGE_NEXUSES; nexus++) {
        if (call->unit->attentions[nexus] > RIDGE_RESERVATIONS_RELEASED)
            return true;
    }
    return false;
}

static bool has_owner_above(const struct occasion *call)
{
    for (size_t slot = 0; slot < call->slots; slot++) {
        if (call->owners[slot] > call->unit->capacity)
            return true;
    }
    return false;
}

static bool has_block_twice(const struct occasion *call)
{
    for (size_t slot = 0; slot < call->slots; slot++) {
        for (size_t lower = 0; lower < slot; lower++) {
            if (call->owners[slot] != 0 &&
                call->owners[slot] == call->owners[lower])
                return true;
        }
    }
    return false;
}

/* Of a medium whose length is wrong: by how much. */
static size_t medium_reason(const struct occasion *call)
{
    size_t due = call->slots * RIDGE_BLOCK_BYTES;

    if (call->medium_bytes == 0)
        return 3;
    if (call->medium_bytes + 1 == due)
        return 4;
    if (call->medium_bytes == due + 1)
        return 5;
    return call->medium_bytes < due ? 6 : 7;
}

/* The one thing that is wrong; what no other thing explains is in the
   registrations or in the reservation. */
static size_t room_reason(const struct occasion *call)
{
    uint64_t capacity = call->unit->capacity;

    if (!is_format(call->format))
        return 0;
    if (call->slots == 0 || call->slots > RIDGE_SLOTS)
        return call->slots == 0 ? 1 : 2;
    if (call->medium_bytes != call->slots * RIDGE_BLOCK_BYTES)
        return medium_reason(call);
    if (capacity == 0 || capacity > RIDGE_CAPACITY_LAST)
        return 8;
    if (call->marks_wrong)
        return 12;
    if (has_wrong_attention(call))
        return 9;
    if (has_owner_above(call))
        return 10;
    return has_block_twice(call) ? 11 : 13;
}

/* ---- Calls that change marks, or would ---- */

static bool unmaps(const struct occasion *call)
{
    bool ndob = (call->cdb[1] & 0x01) != 0;

    if (call->cdb[0] != 0x93 || (call->cdb[1] & 0x08) == 0)
        return call->cdb[0] == 0x42;
    for (size_t at = 0; !ndob && at < RIDGE_BLOCK_BYTES; at++) {
        if (call->data_out[at] != 0)
            return false;
    }
    return true;
}

/* The number of a command on its axis; 4 if it changes no marks. */
static size_t changer_of(const struct occasion *call)
{
    switch (call->cdb[0]) {
    case 0x2A:
    case 0x8A:
        return 0;
    case 0x42:
        return 2;
    case 0x93:
        return unmaps(call) ? 3 : 1;
    default:
        return 4;
    }
}

static void count_changes(const struct occasion *call, size_t changer,
                          const uint64_t changed[2],
                          struct mark_counts *counts)
{
    static const size_t slots[] = {0, 63, 64, 127};
    static const size_t cells[] = {3, 4, 5, 7};
    bool first = changed[0] != 0;
    bool second = changed[1] != 0;

    count(counts, CHANGED, changer,
          first && second ? 2 : first ? 0 : second ? 1 : 10, 0);
    for (size_t at = 0; at < sizeof slots / sizeof *slots; at++) {
        if (has_bit(changed, slots[at]))
            count(counts, CHANGED, changer, cells[at], 0);
    }
    if (has_bit(changed, 63) && has_bit(changed, 64))
        count(counts, CHANGED, changer, 6, 0);
    if (has_bit(changed, call->slots - 1))
        count(counts, CHANGED, changer, 8, 0);
    if (bits_of_both(changed) > 1)
        count(counts, CHANGED, changer, 9, 0);
}

/* Of a command that was done: what it did to the marks. */
static void count_done(const struct occasion *call, struct mark_counts *counts)
{
    const uint64_t *before = call->marks->words;
    const uint64_t *after = call->marks_after->words;
    const uint64_t changed[2] = {before[0] ^ after[0], before[1] ^ after[1]};
    size_t changer = changer_of(call);
    size_t size = size_of(call->slots);
    bool any = (changed[0] | changed[1]) != 0;

    if (changer == 4)
        return;
    count_changes(call, changer, changed, counts);
    if (any && changer < 2 && bits_of_both(after) == call->slots)
        count(counts, FILLED_UP, changer, size, 0);
    if (any && changer >= 2 && bits_of_both(before) == call->slots)
        count(counts, FREED_FROM_FULL, changer - 2, size, 0);
    if (any && changer >= 2 && bits_of_both(after) == 0)
        count(counts, EMPTIED, changer - 2, call->slots <= 64 ? 0 : 1, 0);
}

static uint64_t field(const uint8_t *bytes, size_t bytes_count)
{
    uint64_t value = 0;

    while (bytes_count-- > 0)
        value = value << 8 | *bytes++;
    return value;
}

/* Of a write that was refused for room: whether one slot more would have
   served. */
static void count_out_of_room(const struct occasion *call,
                              struct mark_counts *counts)
{
    bool sixteen = call->cdb_bytes == 16;
    uint64_t address = field(call->cdb + 2, sixteen ? 8 : 4);
    uint64_t wanted = sixteen ? field(call->cdb + 10, 4)
                              : field(call->cdb + 7, 2);
    size_t free = call->slots - bits_of_both(call->marks->words);

    for (size_t slot = 0; slot < call->slots; slot++) {
        uint64_t owner = call->owners[slot];

        if (owner > address && owner - address <= wanted)
            wanted--;
    }
    if (wanted != free + 1)
        return;
    count(counts, OUT_OF_ROOM, changer_of(call), size_of(call->slots), 0);
    count(counts, OUT_OF_ROOM_WITH, changer_of(call),
          call->slots <= 64 ? 0 : 1, free == 0 ? 0 : 1);
}

/* ---- Marks that are wrong ---- */

/* The marks as they are and as they should be, and where they differ. */
struct wrong {
    const uint64_t *is;
    struct ridge_marks due;
    uint64_t extra[2];
    uint64_t missing[2];
    size_t slots;
};

static struct wrong wrong_of(const struct occasion *call)
{
    struct wrong wrong = {call->marks->words,
                          marks_due(call->owners, call->slots),
                          {0},
                          {0},
                          call->slots};

    for (size_t word = 0; word < 2; word++) {
        wrong.extra[word] = wrong.is[word] & ~wrong.due.words[word];
        wrong.missing[word] = wrong.due.words[word] & ~wrong.is[word];
    }
    return wrong;
}

static void count_at(const struct wrong *wrong, size_t unpaired, size_t slot,
                     struct mark_counts *counts)
{
    size_t at = slot == 0     ? 0
                : slot == 63  ? 1
                : slot == 64  ? 2
                : slot == 127 ? 3
                              : 5;

    count(counts, WRONG_AT, unpaired, at, 0);
    if (slot + 1 == wrong->slots)
        count(counts, WRONG_AT, unpaired, 4, 0);
}

static size_t beyond_of(size_t slots, size_t bit)
{
    size_t first = slots < 64 ? 0 : slots == 64 ? 6 : 9;

    if (bit == slots)
        return first;
    if (bit == 127)
        return slots < 64 ? 4 : first + 1;
    if (slots >= 64)
        return first + 2;
    if (bit == 63)
        return 1;
    return bit < 63 ? 2 : bit == 64 ? 3 : 5;
}

/* One bit set for that beside it. */
static void count_moved(const struct wrong *wrong, struct mark_counts *counts)
{
    size_t from = first_bit(wrong->missing);
    size_t to = first_bit(wrong->extra);

    if (to != from + 1 && from != to + 1)
        return;
    if (from == 63 && to == 64)
        count(counts, WRONG_MOVED, 2, 0, 0);
    else if (from == 64 && to == 63)
        count(counts, WRONG_MOVED, 3, 0, 0);
    else
        count(counts, WRONG_MOVED, (from < 64 ? 0 : 4) + (to < from ? 1 : 0),
              0, 0);
    if (to >= wrong->slots)
        count(counts, WRONG_MOVED, 6, 0, 0);
}

static bool is_right_in(const struct wrong *wrong, size_t word)
{
    return wrong->is[word] == wrong->due.words[word];
}

static void count_words(const struct wrong *wrong, struct mark_counts *counts)
{
    const uint64_t *is = wrong->is;
    const uint64_t *due = wrong->due.words;
    bool above = wrong->slots > 64;

    if (is[0] == due[1] && is[1] == due[0])
        count(counts, WRONG_OTHERWISE, above ? 1 : 0, 0, 0);
    if (is[0] == 0 && is[1] == due[1] && due[1] != 0)
        count(counts, WRONG_OTHERWISE, 2, 0, 0);
    if (is[0] == due[0] && is[1] == 0)
        count(counts, WRONG_OTHERWISE, 3, 0, 0);
    if (is[0] == 0 && is[1] == 0)
        count(counts, WRONG_OTHERWISE, 4, 0, 0);
    if (is[0] == due[0] && is[1] == due[0])
        count(counts, WRONG_OTHERWISE, above ? 6 : 5, 0, 0);
    if (is[0] == due[1] && is[1] == due[1] && due[1] != 0)
        count(counts, WRONG_OTHERWISE, 7, 0, 0);
    if (is_right_in(wrong, 1) && bits_of(is[0] ^ due[0]) > 1)
        count(counts, WRONG_OTHERWISE, 19, 0, 0);
    if (is_right_in(wrong, 0) && bits_of(is[1] ^ due[1]) > 1)
        count(counts, WRONG_OTHERWISE, 20, 0, 0);
}

/* The bits that the pool has slots for, in that word. */
static uint64_t all_slots(size_t slots, size_t word)
{
    size_t in_word = slots < 64 * word ? 0 : slots - 64 * word;

    return in_word >= 64 ? UINT64_MAX : (UINT64_C(1) << in_word) - 1;
}

static void count_filled(const struct wrong *wrong, struct mark_counts *counts)
{
    const uint64_t *is = wrong->is;
    const uint64_t *due = wrong->due.words;
    uint64_t first = all_slots(wrong->slots, 0);
    uint64_t second = all_slots(wrong->slots, 1);
    size_t size = wrong->slots < 64 ? 0 : wrong->slots == 64 ? 1 : 2;

    if (is[0] == UINT64_MAX && is[1] == UINT64_MAX)
        count(counts, WRONG_OTHERWISE,
              wrong->slots <= 64 ? 8 : wrong->slots < 128 ? 9 : 10, 0, 0);
    else if (is[0] == first && is[1] == second)
        count(counts, WRONG_OTHERWISE, 11 + size, 0, 0);
    if (is[0] == (first & ~due[0]) && is[1] == (second & ~due[1]))
        count(counts, WRONG_OTHERWISE, 14, 0, 0);
    if (is[0] == ~due[0] && is[1] == ~due[1])
        count(counts, WRONG_OTHERWISE, 15, 0, 0);
}

static void count_counted(const struct wrong *wrong, struct mark_counts *counts)
{
    const uint64_t *is = wrong->is;
    const uint64_t *due = wrong->due.words;
    uint64_t over = due[0] >> 63;
    bool from_the_top = true;

    if (is[0] == due[0] << 1 && is[1] == (due[1] << 1 | over))
        count(counts, WRONG_OTHERWISE, 16, 0, 0);
    if (is[0] == due[0] << 1 && is[1] == due[1] << 1 && over != 0)
        count(counts, WRONG_OTHERWISE, 17, 0, 0);
    for (size_t bit = 0; bit < 64; bit++)
        from_the_top &= has_bit(is, bit) == has_bit(due, 63 - bit) &&
                        has_bit(is, 64 + bit) == has_bit(due, 127 - bit);
    if (from_the_top)
        count(counts, WRONG_OTHERWISE, 18, 0, 0);
}

static void count_wrong(const struct occasion *call,
                        struct mark_counts *counts)
{
    struct wrong wrong = wrong_of(call);
    size_t extra = bits_of_both(wrong.extra);
    size_t missing = bits_of_both(wrong.missing);

    if (extra == 1 && missing == 0 && first_bit(wrong.extra) < call->slots)
        count_at(&wrong, 0, first_bit(wrong.extra), counts);
    else if (extra == 1 && missing == 0)
        count(counts, WRONG_BEYOND,
              beyond_of(call->slots, first_bit(wrong.extra)), 0, 0);
    if (extra == 0 && missing == 1)
        count_at(&wrong, 1, first_bit(wrong.missing), counts);
    if (extra == 1 && missing == 1)
        count_moved(&wrong, counts);
    count_words(&wrong, counts);
    count_filled(&wrong, counts);
    count_counted(&wrong, counts);
}

static bool is_waited_for(const struct occasion *call)
{
    return call->nexus <= RIDGE_NEXUS_LAST &&
           call->unit->attentions[call->nexus] != RIDGE_NO_ATTENTION;
}

/* What the same call is answered with right marks: the fault that it has beside
   them. */
static void count_later(const struct occasion *call, struct mark_counts *counts)
{
    static const uint8_t answers[] = {0, 1, 2, 3, 8, 10, 12, 13};
    bool itself = call->nexus > RIDGE_NEXUS_LAST || call->cdb_bytes == 0 ||
                  call->sense_bytes < sense_wanted(call->format);

    for (size_t at = 0; at < sizeof answers; at++) {
        if (call->without == answers[at])
            count(counts, WRONG_AND_LATER, at, 0, 0);
    }
    if (call->without >= 4 && call->without <= 7)
        count(counts, WRONG_AND_LATER, 8, 0, 0);
    if (call->without == RIDGE_UNUSABLE && !itself)
        count(counts, WRONG_AND_LATER, 9, 0, 0);
    if (call->without != RIDGE_UNUSABLE && call->cdb[0] == 0x12 &&
        is_waited_for(call))
        count(counts, WRONG_AND_LATER, 10, 0, 0);
}

/* ---- All of it ---- */

void marks_count(const struct occasion *call, struct mark_counts *counts)
{
    if (call->asked && call->room == RIDGE_GOOD)
        count_room(call, counts);
    else if (call->asked)
        count(counts, ROOM_REFUSED, room_reason(call), 0, 0);
    if (call->marks_wrong) {
        count_wrong(call, counts);
        count_later(call, counts);
    }
    if (call->answer == RIDGE_GOOD)
        count_done(call, counts);
    if (call->answer == RIDGE_POOL_FULL)
        count_out_of_room(call, counts);
}

void marks_count_fresh(const struct fresh_asked *asked,
                       struct mark_counts *counts)
{
    const uint64_t *words = asked->marks->words;
    size_t before = (words[0] != 0 ? 1u : 0u) | (words[1] != 0 ? 2u : 0u);
    size_t outcome = 0;

    if (asked->capacity == 0 || asked->capacity > RIDGE_CAPACITY_LAST)
        outcome = 1;
    else if (asked->slots == 0 || asked->slots > RIDGE_SLOTS)
        outcome = 2;
    else if (!is_format(asked->format))
        outcome = 3;
    count(counts, FRESH_OVER, before, outcome, 0);
}
