/* The store that a process holds (holding.h). */
#define _GNU_SOURCE
#include "holding.h"

#include <stdio.h>
#include <string.h>

#include "fail.h"
#include "image.h"
#include "names.h"

enum { CAPACITY_UNLESS_NAMED = 1024, SLOTS_UNLESS_NAMED = 128, SHOWN_BYTES = 32 };

static const struct options *options;
static struct store store, before;
static struct image image;
static int was_there, image_failed;

static struct {
    unsigned long commands, good, changes, broken_off;
} counts;

/* ---- what it tells ---- */

static void tell_bytes(const char *what, const uint8_t *bytes, size_t count)
{
    if (count == 0)
        return;
    printf("    %s", what);
    for (size_t byte = 0; byte < count && byte < SHOWN_BYTES; byte++)
        printf(" %02X", bytes[byte]);
    puts(count > SHOWN_BYTES ? " ..." : "");
}

void holding_tell(const struct store_call *call, uint64_t answer)
{
    if (options->verbose == 0)
        return;
    printf("%lu: nexus %llu, %s", counts.commands,
           (unsigned long long)call->nexus,
           name_of_command(call->cdb, call->cdb_bytes));
    for (size_t byte = 0; byte < call->cdb_bytes; byte++)
        printf("%s%02X", byte == 0 ? " " : "", call->cdb[byte]);
    printf(": %llu, %s", (unsigned long long)answer, name_of_answer(answer));
    if (call->returned > 0)
        printf(", %llu bytes returned", (unsigned long long)call->returned);
    puts("");
    if (options->verbose < 2)
        return;
    tell_bytes("data-out", call->data_out, call->data_out_bytes);
    tell_bytes("data-in", call->data_in, (size_t)call->returned);
    tell_bytes("sense", call->sense, call->sense_bytes);
}

void holding_tell_counts(void)
{
    printf("served %lu commands: %lu GOOD, %lu refused; %lu changed the store; "
           "%lu requests broken off\n",
           counts.commands, counts.good, counts.commands - counts.good,
           counts.changes, counts.broken_off);
}

void holding_tell_room(uint64_t answer, const struct store_room *room)
{
    if (options->verbose == 0)
        return;
    if (answer == RIDGE_GOOD)
        printf("room: %llu of %zu slots free\n",
               (unsigned long long)room->free_slots, store_slots(&store));
    else
        printf("room: %llu, %s\n", (unsigned long long)answer,
               name_of_answer(answer));
}

void holding_tell_ready(void)
{
    struct store_room room = {0, 0};
    store_room(&store, &room);
    printf("ready: %llu blocks, %zu slots of which %llu are free, %s sense; ",
           (unsigned long long)store_capacity(&store), store_slots(&store),
           (unsigned long long)room.free_slots,
           name_of_format(store_format(&store)));
    if (options->image == NULL)
        printf("a fresh store that ends with this server\n");
    else
        printf("%s %s\n", was_there ? "the store of" : "a fresh store, kept in",
               options->image);
}

void holding_count_broken_off(void)
{
    counts.broken_off++;
}

/* ---- one command ---- */

/* Gives 1 exactly if the store, as it is now, may be told of. What is compared is
   the whole of it: a refusal changes it too where it tells an attention, which
   the next server must not tell again. */
static int keep(void)
{
    if (store_same(&before, &store))
        return 1;
    counts.changes++;
    if (options->image == NULL || image_replace(&image, &store))
        return 1;
    image_failed = 1;
    return fail(options->image, image.reason);
}

int holding_execute(struct store_call *call, uint64_t *answer)
{
    before = store;
    *answer = store_execute(&store, call);
    if (!keep())
        return 0;
    counts.commands++;
    counts.good += *answer == RIDGE_GOOD;
    return 1;
}

uint64_t holding_room(struct store_room *room, size_t *slots)
{
    *slots = store_slots(&store);
    return store_room(&store, room);
}

int holding_has_failed(void)
{
    return image_failed;
}

/* ---- the store ---- */

/* What the command line names must be what the image has. */
static int as_named(void)
{
    uint64_t capacity = store_capacity(&store), slots = store_slots(&store);
    uint64_t format = store_format(&store);
    if ((options->capacity == 0 || options->capacity == capacity) &&
        (options->slots == 0 || options->slots == slots) &&
        (options->format == 0 || options->format == format))
        return 1;
    fprintf(stderr, "server: %s: its store has %llu blocks, %llu slots and %s "
            "sense, not what is asked for\n", options->image,
            (unsigned long long)capacity, (unsigned long long)slots,
            name_of_format(format));
    return 0;
}

static int make_fresh(void)
{
    uint64_t capacity =
        options->capacity == 0 ? CAPACITY_UNLESS_NAMED : options->capacity;
    uint64_t slots = options->slots == 0 ? SLOTS_UNLESS_NAMED : options->slots;
    uint64_t format = options->format == 0 ? RIDGE_FIXED : options->format;
    return store_fresh(&store, capacity, format, slots) ||
           fail("a fresh store", "capacity or slots out of bounds");
}

/* Loads the image that is held, or makes it where it is not there. */
static int load_or_make(void)
{
    switch (image_load(&image, &store)) {
    case IMAGE_DONE:
        was_there = 1;
        return as_named();
    case IMAGE_ABSENT:
        return make_fresh() && (image_replace(&image, &store) ||
                                fail(options->image, image.reason));
    default:
        return fail(options->image, image.reason);
    }
}

/* Only of a valid store does the library tell the room. */
static int is_valid(void)
{
    struct store_room room;
    return store_room(&store, &room) == RIDGE_GOOD ||
           fail("the store", "it is not in a valid state");
}

int holding_begin(const struct options *named)
{
    options = named;
    if (options->image == NULL)
        return make_fresh() && is_valid();
    if (!image_hold(&image, options->image))
        return fail(options->image, image.reason);
    if (load_or_make() && is_valid())
        return 1;
    image_let_go(&image);
    return 0;
}

void holding_end(void)
{
    if (options->image != NULL)
        image_let_go(&image);
}
