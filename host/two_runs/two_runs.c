/*
 * two_runs.c - runs pairs of histories on the proved library to see that a
 * nexus that is shut out from reading, or for which an attention waits, learns
 * nothing of blocks and maps.
 *
 *   two_runs [STEPS [SEED]]
 *
 * Without a SEED each run takes a new one; it is printed first, and the same
 * seed gives the same calls on every machine.
 *
 * The two stores of a pair have the same format of sense, equal capacity,
 * registrations, reservation, generation and attentions; slots, maps, with them
 * the marks, and blocks differ. Both get the same reservation-out calls
 * (operation code 5Fh), the same calls by nexuses then shut out and the same
 * calls by nexuses for which then an attention waits, in the same order with
 * the same lent data and sense buffers, the whole pool lent each time. Between
 * these, each gets other calls of its own, and is asked for its room, which is
 * no call of a nexus.
 *
 * Then each of the common calls gives the same answer, returned count, data-in
 * and sense in both, to the last byte, so the place of a wrong field too, and
 * leaves equal records; none changes a block, a mapping or a mark. A call by a
 * nexus for which an attention waits changes that one at most, and no other
 * call that is not a reservation-out call changes anything of the record. To
 * ask for room changes nothing, and tells what a walk over the owners tells.
 *
 * Exit status: 0 all held and enough was compared; 1 something did not hold,
 * which is printed; 2 too little compared (asked of long runs alone), or bad
 * usage.
 */

#include <inttypes.h>
#include <stdio.h>
#include <stdlib.h>
#include <string.h>

#include "../differential/console.h"
#include "../differential/generate.h"

enum {
    STEPS_DEFAULT = 100000,
    STEPS_LONG = 20000, /* from here on enough must be compared */
    STEPS_OF_PAIR = 40,
    RESERVE_OUT_CODE = 0x5F,
    PLACES = 14
};

/* Q-4's three bytes of sense for each wrong field that a common call may have.
   The number of an UNMAP's descriptors is none: a conflict comes before it. */
static const struct {
    const char *name;
    uint8_t bytes[3];
} places[PLACES] = {
    {"NACA in byte 5", {0xCA, 0, 5}},
    {"NACA in byte 9", {0xCA, 0, 9}},
    {"NACA in byte 15", {0xCA, 0, 15}},
    {"WRPROTECT or RDPROTECT", {0xCF, 0, 1}},
    {"an action, or ANCHOR of WRITE SAME", {0xCC, 0, 1}},
    {"ANCHOR of UNMAP", {0xC8, 0, 1}},
    {"a page code, or a scope", {0xCF, 0, 2}},
    {"a type", {0xCB, 0, 2}},
    {"a count of 2 bytes", {0xCF, 0, 7}},
    {"a count of 4 bytes", {0xCF, 0, 10}},
    {"bit 3 of the flags", {0x8B, 0, 20}},
    {"bit 2 of the flags", {0x8A, 0, 20}},
    {"bit 0 of the flags", {0x88, 0, 20}},
    {"the zero key", {0x8F, 0, 8}},
};

/* One of the two stores, with what it was lent and what it answered. */
struct side {
    struct store store;
    struct store before;
    uint64_t answer;
    uint64_t returned;
    uint8_t data_in[DATA_ROOM];
    uint8_t sense[SENSE_ROOM];
};

struct figures {
    uint64_t steps;
    uint64_t pairs;
    uint64_t out_calls;
    uint64_t shut_out_calls;
    uint64_t other_calls;
    uint64_t other_good_writes;
    uint64_t other_good_same; /* of these, by WRITE SAME */
    uint64_t rooms;           /* asked for, on one store alone */
    uint64_t full_rooms;      /* of these, where none is free */
    uint64_t second_words;    /* common calls that find marks in the second */
    uint64_t marks_apart;     /* and that find other marks in either store */
    uint64_t shut_out_codes[256];
    uint64_t shut_out_status; /* GET LBA STATUS, which shares its code */
    uint64_t shut_out_pages[256]; /* told by INQUIRY, or not listed */
    uint64_t other_pages;
    uint64_t shut_out_answers[16];
    uint64_t waiting_calls; /* by nexuses for which an attention waits */
    uint64_t waiting_told[RIDGE_RESERVATIONS_RELEASED + 1];
    uint64_t waiting_answers[16];
    uint64_t waiting_inquiries;
    uint64_t waiting_reserve_out;
    uint64_t waiting_holders;
    uint64_t waiting_codes[256]; /* of those that are not shut out */
    uint64_t waiting_status;     /* of these GET LBA STATUS */
    uint64_t notices;            /* reservation-out calls that sent some */
    uint64_t take_overs;   /* PREEMPT with key 0 that was served */
    uint64_t shutting_out; /* of these, such as shut somebody out */
    uint64_t removed_calls;
    /* Of common calls, in stores of fixed and of descriptor format. */
    uint64_t places[2][PLACES];
    uint64_t compared[2][16]; /* by answer */
};

struct run {
    struct random random;
    uint64_t seed;
    struct side left;
    struct side right;
    struct request request;
    uint8_t data_in[DATA_ROOM];
    uint8_t sense[SENSE_ROOM];
    /* Whom a take-over removed, in this pair; not if registered since. */
    bool removed[RIDGE_NEXUS_LAST + 1];
    struct figures figures;
};

/* ---- Reports ---- */

static void print_side(const char *name, const struct side *side)
{
    printf("%s: answer %" PRIu64 ", returned %" PRIu64 "\n", name,
           side->answer, side->returned);
    console_store(side->store.format, &side->before.unit, side->before.owners,
                  side->store.slots, &side->before.marks);
}

static void fail(const struct run *run, const char *what)
{
    printf("difference: %s\n", what);
    printf("seed %" PRIu64 ", step %" PRIu64 ", pair %" PRIu64
           ", nexus %" PRIu64 ", %zu bytes of data-out, cdb",
           run->seed, run->figures.steps, run->figures.pairs,
           run->request.nexus, run->request.data_out_bytes);
    for (size_t index = 0; index < run->request.cdb_bytes; index++)
        printf(" %02X", run->request.cdb[index]);
    printf("\n");
    print_side("left before", &run->left);
    print_side("right before", &run->right);
    exit(1);
}

/* ---- Calls ---- */

static bool is_reserve_out(const struct request *request)
{
    return request->cdb_bytes > 0 && request->cdb[0] == RESERVE_OUT_CODE;
}

static bool is_status(const struct request *request)
{
    return request->cdb[0] == 0x9E && (request->cdb[1] & 0x1F) == 0x12;
}

/* Whether an INQUIRY was told its page, or refused one that is not listed. */
static bool page_answered(const struct request *request, uint64_t answer)
{
    uint64_t due = inquiry_bytes(request->cdb) == 0 ? RIDGE_CDB_FIELD
                                                    : RIDGE_GOOD;

    return request->cdb_bytes == 6 && request->cdb[0] == 0x12 &&
           (request->cdb[1] & 0x01) != 0 && answer == due;
}

static void keep_before(struct side *side)
{
    const struct store *store = &side->store;

    side->before.unit = store->unit;
    side->before.marks = store->marks;
    memcpy(side->before.owners, store->owners, sizeof store->owners);
    memcpy(side->before.medium, store->medium,
           store->slots * RIDGE_BLOCK_BYTES);
}

static void execute(struct run *run, struct side *side)
{
    const struct request *request = &run->request;
    struct store *store = &side->store;

    memcpy(side->data_in, run->data_in, request->data_in_bytes);
    memcpy(side->sense, run->sense, sizeof side->sense);
    keep_before(side);
    side->answer = ridge_execute(
        store->format, &store->unit, store->owners, store->slots,
        &store->marks, store->medium, store->slots * RIDGE_BLOCK_BYTES,
        request->nexus, request->cdb, request->cdb_bytes, request->data_out,
        request->data_out_bytes, side->data_in, request->data_in_bytes,
        side->sense, request->sense_bytes, &side->returned);
}

static bool map_kept(const struct side *side)
{
    return memcmp(side->before.owners, side->store.owners,
                  sizeof side->store.owners) == 0 &&
           same_marks(&side->before.marks, &side->store.marks) &&
           memcmp(side->before.medium, side->store.medium,
                  side->store.slots * RIDGE_BLOCK_BYTES) == 0;
}

/* The record has no padding, so that its bytes are its fields. */
static bool same_unit(const struct ridge_unit *one,
                      const struct ridge_unit *other)
{
    return memcmp(one, other, sizeof *one) == 0;
}

static bool unit_kept(const struct side *side)
{
    return same_unit(&side->before.unit, &side->store.unit);
}

/* Whether nothing of the record changed but what waited for that nexus. */
static bool others_kept(const struct side *side, uint64_t nexus)
{
    struct ridge_unit before = side->before.unit;

    before.attentions[nexus] = side->store.unit.attentions[nexus];
    return same_unit(&before, &side->store.unit);
}

static bool is_waiting(const struct ridge_unit *unit, uint64_t nexus)
{
    return nexus <= RIDGE_NEXUS_LAST &&
           unit->attentions[nexus] != RIDGE_NO_ATTENTION;
}

/* Of the answer and the sense of a common call, the same in both. */
static void count_common(struct run *run)
{
    const struct side *side = &run->left;
    bool fixed = side->store.format == RIDGE_FIXED;
    size_t format = fixed ? 0 : 1;
    const uint8_t *place = side->sense + (fixed ? 15 : 12);
    const struct ridge_marks *marks = &side->before.marks;

    run->figures.second_words += marks->words[1] != 0 ? 1 : 0;
    run->figures.marks_apart +=
        same_marks(marks, &run->right.before.marks) ? 0 : 1;
    run->figures.compared[format][side->answer & 15]++;
    if (side->answer != RIDGE_CDB_FIELD && side->answer != RIDGE_LIST_FIELD)
        return;
    for (size_t index = 0; index < PLACES; index++) {
        if (memcmp(place, places[index].bytes, 3) == 0)
            run->figures.places[format][index]++;
    }
}

/* What a common call may change of the stores. */
static void hold_stored(struct run *run)
{
    const struct side *left = &run->left;
    const struct side *right = &run->right;
    uint64_t nexus = run->request.nexus;

    if (!same_unit(&left->store.unit, &right->store.unit))
        fail(run, "the records of the two runs differ");
    if (!map_kept(left) || !map_kept(right))
        fail(run, "a block, a mapping or a mark has changed");
    if (is_waiting(&left->before.unit, nexus)) {
        if (!others_kept(left, nexus) || !others_kept(right, nexus))
            fail(run, "more has changed than what waited for the sender");
    } else if (!is_reserve_out(&run->request) &&
               (!unit_kept(left) || !unit_kept(right))) {
        fail(run, "a shut-out call has changed the record");
    }
}

/* The call in hand goes to both stores; all that the sender sees is equal. */
static void common_call(struct run *run)
{
    const struct side *left = &run->left;
    const struct side *right = &run->right;

    random_fill(&run->random, run->data_in, run->request.data_in_bytes);
    random_fill(&run->random, run->sense, sizeof run->sense);
    execute(run, &run->left);
    execute(run, &run->right);
    if (left->answer != right->answer)
        fail(run, "the answers of the two runs differ");
    if (left->returned != right->returned)
        fail(run, "the returned counts of the two runs differ");
    if (memcmp(left->data_in, right->data_in, run->request.data_in_bytes) != 0)
        fail(run, "the data-in buffers of the two runs differ");
    if (memcmp(left->sense, right->sense, sizeof left->sense) != 0)
        fail(run, "the sense buffers of the two runs differ");
    hold_stored(run);
    count_common(run);
}

/* Whether the reservation-out call in hand was a take-over, and served. */
static bool has_taken_over(const struct run *run)
{
    static const uint8_t zero_key[8];
    const struct request *request = &run->request;

    return run->left.answer == RIDGE_GOOD && (request->cdb[1] & 0x1F) == 4 &&
           memcmp(request->data_out + 8, zero_key, sizeof zero_key) == 0;
}

/* Whether the call in hand shut out somebody who was not before it. */
static bool has_shut_out(const struct run *run)
{
    const struct ridge_rights *before = &run->left.before.unit.rights;
    const struct ridge_rights *after = &run->left.store.unit.rights;

    for (uint64_t nexus = 0; nexus <= RIDGE_NEXUS_LAST; nexus++) {
        if (is_shut_out(after, nexus) && !is_shut_out(before, nexus))
            return true;
    }
    return false;
}

/* Keeps up, after a reservation-out call, whom a take-over removed. */
static void follow_removed(struct run *run)
{
    const struct ridge_rights *before = &run->left.before.unit.rights;
    const struct ridge_rights *after = &run->left.store.unit.rights;
    bool taken_over = has_taken_over(run);

    for (uint64_t nexus = 0; nexus <= RIDGE_NEXUS_LAST; nexus++) {
        if (taken_over && key_of(before, nexus) != 0)
            run->removed[nexus] = true;
        if (key_of(after, nexus) != 0)
            run->removed[nexus] = false;
    }
}

/* Whether the reservation-out call in hand let others know of something. */
static bool has_sent(const struct run *run)
{
    const struct side *side = &run->left;

    return side->answer == RIDGE_GOOD &&
           memcmp(side->before.unit.attentions, side->store.unit.attentions,
                  sizeof side->store.unit.attentions) != 0;
}

/* Made up from the left store: what counts for it is the same in both. */
static void out_call(struct run *run)
{
    const struct store *store = &run->left.store;
    unsigned share = store->unit.rights.type >= 7 ? 40 : 10;

    if (random_percent(&run->random, share))
        generate_take_over(&run->random, store, &run->request);
    else if (random_percent(&run->random, 35))
        generate_notice(&run->random, store, &run->request);
    else
        generate_reserve_out(&run->random, store,
                             generate_nexus(&run->random, &store->unit.rights),
                             &run->request);
    common_call(run);
    follow_removed(run);
    run->figures.out_calls++;
    run->figures.notices += has_sent(run) ? 1 : 0;
    if (has_taken_over(run)) {
        run->figures.take_overs++;
        run->figures.shutting_out += has_shut_out(run) ? 1 : 0;
    }
}

static const struct store *either_store(struct run *run)
{
    return random_percent(&run->random, 50) ? &run->left.store
                                            : &run->right.store;
}

/* A call by a nexus that is shut out, made up from either store. */
static void shut_out_call(struct run *run)
{
    const struct store *store = either_store(run);
    uint64_t first = random_below(&run->random, 18);
    uint64_t nexus = first;

    while (!is_shut_out(&store->unit.rights, nexus)) {
        nexus = (nexus + 1) % 18;
        if (nexus == first)
            return;
    }
    generate_request(&run->random, store, nexus, &run->request);
    common_call(run);
    if (nexus <= RIDGE_NEXUS_LAST && run->removed[nexus])
        run->figures.removed_calls++;
    if (is_reserve_out(&run->request))
        follow_removed(run);
    run->figures.shut_out_calls++;
    run->figures.shut_out_codes[run->request.cdb[0]]++;
    run->figures.shut_out_status += is_status(&run->request) ? 1 : 0;
    if (page_answered(&run->request, run->left.answer))
        run->figures.shut_out_pages[run->request.cdb[2]]++;
    run->figures.shut_out_answers[run->left.answer & 15]++;
}

static void count_waiting(struct run *run)
{
    const struct ridge_unit *before = &run->left.before.unit;
    const struct request *request = &run->request;
    struct figures *figures = &run->figures;
    bool holds = before->rights.type != 0 && before->rights.type < 7 &&
                 before->rights.holder == request->nexus;

    figures->waiting_calls++;
    figures->waiting_answers[run->left.answer & 15]++;
    if (run->left.answer == RIDGE_ATTENTION)
        figures->waiting_told[before->attentions[request->nexus]]++;
    figures->waiting_inquiries +=
        request->cdb[0] == 0x12 && run->left.answer == RIDGE_GOOD ? 1 : 0;
    figures->waiting_reserve_out += is_reserve_out(request) ? 1 : 0;
    figures->waiting_holders += holds ? 1 : 0;
    if (is_shut_out(&before->rights, request->nexus))
        return;
    figures->waiting_codes[request->cdb[0]]++;
    figures->waiting_status += is_status(request) ? 1 : 0;
}

/* A call by a nexus for which an attention waits, made up from either store. */
static void waiting_call(struct run *run)
{
    const struct store *store = either_store(run);

    if (!generate_attended(&run->random, store, &run->request) ||
        !is_waiting(&store->unit, run->request.nexus))
        return;
    common_call(run);
    count_waiting(run);
}

/* Room, asked for on one store alone. */
static void ask_room(struct run *run, struct side *side)
{
    const struct store *store = &side->store;
    uint64_t free_slots = 0;
    uint64_t lowest_free = 0;
    uint64_t free_walked = 0;
    uint64_t lowest_walked = store->slots;

    keep_before(side);
    side->answer = ridge_room(store->format, &store->unit, store->owners,
                              store->slots, &store->marks, store->medium,
                              store->slots * RIDGE_BLOCK_BYTES, &free_slots,
                              &lowest_free);
    for (size_t slot = store->slots; slot-- > 0;) {
        if (store->owners[slot] == 0) {
            free_walked++;
            lowest_walked = slot;
        }
    }
    if (!map_kept(side) || !unit_kept(side))
        fail(run, "to ask for room has changed something");
    if (side->answer != RIDGE_GOOD || free_slots != free_walked ||
        lowest_free != lowest_walked)
        fail(run, "room is not what a walk over the owners tells");
    run->figures.rooms++;
    run->figures.full_rooms += free_slots == 0 ? 1 : 0;
}

/* Any call, or one that takes or frees slots. */
static void make_other(struct run *run, const struct store *store)
{
    uint64_t nexus = generate_nexus(&run->random, &store->unit.rights);

    if (random_percent(&run->random, 15))
        generate_room(&run->random, store, &run->request);
    else
        generate_request(&run->random, store, nexus, &run->request);
}

/* A call on one store alone, by a nexus that is not shut out and for which
   nothing waits. */
static void other_call(struct run *run, struct side *side)
{
    const struct ridge_unit *unit = &side->store.unit;

    if (random_percent(&run->random, 30))
        ask_room(run, side);
    make_other(run, &side->store);
    if (is_shut_out(&unit->rights, run->request.nexus) ||
        is_waiting(unit, run->request.nexus) || is_reserve_out(&run->request))
        return;
    random_fill(&run->random, run->data_in, run->request.data_in_bytes);
    execute(run, side);
    run->figures.other_calls++;
    if (page_answered(&run->request, side->answer))
        run->figures.other_pages++;
    if (!map_kept(side)) {
        run->figures.other_good_writes++;
        run->figures.other_good_same += run->request.cdb[0] == 0x93 ? 1 : 0;
    }
    if (!unit_kept(side))
        fail(run, "a call that is no reservation-out call changed the record");
}

/* ---- Pairs ---- */

static void make_pair(struct run *run)
{
    struct store *left = &run->left.store;
    struct store *right = &run->right.store;

    generate_store(&run->random, left);
    if (random_percent(&run->random, 80))
        generate_reservation(
            &run->random, &left->unit.rights,
            (uint32_t)RANDOM_CHOICE(&run->random, 3, 3, 6, 6, 7, 8, 8));
    right->format = left->format;
    right->unit = left->unit;
    right->slots = generate_slots(&run->random);
    generate_map(&run->random, right);
    run->left.before.slots = left->slots;
    run->right.before.slots = right->slots;
    memset(run->removed, 0, sizeof run->removed);
    run->figures.pairs++;
}

static void step(struct run *run)
{
    uint64_t kind = random_below(&run->random, 100);

    run->figures.steps++;
    if (kind < 15) {
        out_call(run);
    } else if (kind < 55) {
        shut_out_call(run);
    } else if (kind < 65) {
        waiting_call(run);
    } else {
        for (uint64_t left = random_below(&run->random, 3); left > 0; left--)
            other_call(run, &run->left);
        for (uint64_t left = random_below(&run->random, 3); left > 0; left--)
            other_call(run, &run->right);
    }
}

/* ---- Figures at the end ---- */

static bool print_count(const char *name, uint64_t count, uint64_t floor)
{
    printf("%s: %" PRIu64 "\n", name, count);
    if (count >= floor)
        return true;
    printf("too few: %s, floor %" PRIu64 "\n", name, floor);
    return false;
}

/* Page by page, and those that are not listed together. */
static bool print_pages(const struct figures *figures, uint64_t steps)
{
    static const uint8_t listed[] = {0x00, 0xB0, 0xB2};
    const uint64_t *pages = figures->shut_out_pages;
    uint64_t others = 0;
    bool enough = true;

    for (unsigned code = 0; code < 256; code++)
        others += pages[code];
    for (size_t index = 0; index < sizeof listed; index++) {
        char name[40];

        snprintf(name, sizeof name, "of these INQUIRY of page %02Xh",
                 listed[index]);
        enough &= print_count(name, pages[listed[index]], steps / 2000);
        others -= pages[listed[index]];
    }
    enough &= print_count("of these INQUIRY of a page not listed", others,
                          steps / 2000);
    return enough;
}

static bool print_shut_out(const struct figures *figures, uint64_t steps)
{
    const uint64_t *codes = figures->shut_out_codes;
    bool enough = print_count("shut-out calls compared",
                              figures->shut_out_calls, steps / 10);

    enough &= print_count("of these by one that a take-over removed",
                          figures->removed_calls, steps / 1000);
    enough &= print_count("of these READ", codes[0x28] + codes[0x88],
                          steps / 100);
    enough &= print_count("of these GET LBA STATUS", figures->shut_out_status,
                          steps / 100);
    enough &= print_count("of these WRITE", codes[0x2A] + codes[0x8A],
                          steps / 100);
    enough &= print_count("of these WRITE SAME", codes[0x93], steps / 100);
    enough &= print_count("of these UNMAP", codes[0x42], steps / 100);
    enough &= print_count("of these reservation-out", codes[RESERVE_OUT_CODE],
                          steps / 100);
    enough &= print_pages(figures, steps);
    printf("answers of shut-out calls:");
    for (unsigned answer = 0; answer <= RIDGE_ATTENTION; answer++)
        printf(" %u: %" PRIu64, answer, figures->shut_out_answers[answer]);
    printf("\n");
    return enough;
}

/* Of nexuses that are not shut out: what they would see, or change, if they
   were served. */
static bool print_waiting_codes(const struct figures *figures, uint64_t steps)
{
    const uint64_t *codes = figures->waiting_codes;
    bool enough = print_count("of these READ, not shut out",
                              codes[0x28] + codes[0x88], steps / 2000);

    enough &= print_count("of these GET LBA STATUS, not shut out",
                          figures->waiting_status, steps / 2000);
    enough &= print_count("of these WRITE, not shut out",
                          codes[0x2A] + codes[0x8A], steps / 2000);
    enough &= print_count("of these WRITE SAME, not shut out", codes[0x93],
                          steps / 2000);
    enough &= print_count("of these UNMAP, not shut out", codes[0x42],
                          steps / 2000);
    return enough;
}

static bool print_waiting(const struct figures *figures, uint64_t steps)
{
    static const char *const told[] = {"", "2A/05", "2A/03", "2A/04"};
    bool enough = print_count("calls compared of those for whom one waits",
                              figures->waiting_calls, steps / 50);

    for (size_t code = 1; code < sizeof told / sizeof *told; code++) {
        char name[32];

        snprintf(name, sizeof name, "of these told %s", told[code]);
        enough &= print_count(name, figures->waiting_told[code], steps / 500);
    }
    enough &= print_count("of these good INQUIRY", figures->waiting_inquiries,
                          steps / 500);
    enough &= print_count("of these answered 1", figures->waiting_answers[1],
                          steps / 1000);
    enough &= print_count("of these answered 11", figures->waiting_answers[11],
                          steps / 1000);
    enough &= print_count("of these reservation-out",
                          figures->waiting_reserve_out, steps / 500);
    enough &= print_count("of these by the one that holds",
                          figures->waiting_holders, steps / 10000);
    return enough & print_waiting_codes(figures, steps);
}

static const char *const format_names[] = {"fixed", "descriptor"};

static bool print_places(const struct figures *figures, uint64_t steps)
{
    bool enough = true;

    for (size_t format = 0; format < 2; format++) {
        for (size_t index = 0; index < PLACES; index++) {
            char name[96];

            snprintf(name, sizeof name, "common calls refused for %s, %s",
                     places[index].name, format_names[format]);
            enough &= print_count(name, figures->places[format][index],
                                  steps / 40000);
        }
    }
    return enough;
}

/* Answers 3 and 8 are none of a common call's: a conflict comes before. */
static bool print_compared(const struct figures *figures, uint64_t steps)
{
    static const uint8_t answers[] = {0, 1, 2, 4, 5, 6, 7, 10, 11, 12, 13};
    bool enough = true;

    for (size_t format = 0; format < 2; format++) {
        for (size_t index = 0; index < sizeof answers; index++) {
            char name[64];

            snprintf(name, sizeof name, "common calls answered %u, %s",
                     answers[index], format_names[format]);
            enough &= print_count(name,
                                  figures->compared[format][answers[index]],
                                  steps / 10000);
        }
    }
    return enough;
}

static bool print_figures(const struct figures *figures)
{
    uint64_t steps = figures->steps < STEPS_LONG ? 0 : figures->steps;
    bool enough = true;

    enough &= print_count("pairs", figures->pairs, steps / STEPS_OF_PAIR);
    enough &= print_count("reservation-out calls compared",
                          figures->out_calls, steps / 10);
    enough &= print_count("of these take-overs", figures->take_overs,
                          steps / 1000);
    enough &= print_count("of these shutting somebody out",
                          figures->shutting_out, steps / 2000);
    enough &= print_count("of these telling somebody", figures->notices,
                          steps / 200);
    enough &= print_shut_out(figures, steps);
    enough &= print_waiting(figures, steps);
    enough &= print_places(figures, steps);
    enough &= print_compared(figures, steps);
    enough &= print_count("common calls on other marks in either store",
                          figures->marks_apart, steps / 10);
    enough &= print_count("common calls on marks in the second word",
                          figures->second_words, steps / 50);
    enough &= print_count("room asked for between", figures->rooms,
                          steps / 20);
    enough &= print_count("of these where none is free", figures->full_rooms,
                          steps / 500);
    enough &= print_count("other calls between", figures->other_calls,
                          steps / 10);
    enough &= print_count("of these changed a map or block",
                          figures->other_good_writes, steps / 100);
    enough &= print_count("of these by WRITE SAME", figures->other_good_same,
                          steps / 500);
    enough &= print_count("of these INQUIRY of a page", figures->other_pages,
                          steps / 500);
    return enough;
}

static void run_steps(struct run *run, uint64_t steps)
{
    struct progress progress = console_progress("two_runs", "steps", steps);

    while (run->figures.steps < steps) {
        if (run->figures.steps % STEPS_OF_PAIR == 0)
            make_pair(run);
        step(run);
        console_tell(&progress, run->figures.steps);
    }
}

int main(int count, char **words)
{
    static struct run run;
    uint64_t steps = STEPS_DEFAULT;
    bool enough;

    if (count > 3) {
        fprintf(stderr, "usage: two_runs [STEPS [SEED]]\n");
        return 2;
    }
    if (count > 1)
        steps = console_number("CALLS", words[1], 1);
    run.seed = console_seed(count > 2 ? words[2] : NULL);
    run.random.state = run.seed;
    printf("two_runs: %" PRIu64 " steps, SEED=%" PRIu64 "\n", steps, run.seed);
    fflush(stdout);
    run_steps(&run, steps);
    enough = print_figures(&run.figures);
    printf("%" PRIu64 " steps, seed %" PRIu64 ": no difference\n",
           run.figures.steps, run.seed);
    return enough ? 0 : 2;
}
