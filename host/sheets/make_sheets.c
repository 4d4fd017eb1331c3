/*
 * make_sheets.c - writes call sheets to a folder, each beside what the second
 * program prints for it: make_sheets FOLDER COUNT [SEED]. Without a SEED each
 * run takes a new one; it is printed, and gives the same sheets again.
 *
 * The first are the edges of what a good sheet is. The others are random
 * histories of sensible and damaged calls; one in four is damaged as a sheet.
 * At the end it says how often each answer number is printed.
 */

#include <inttypes.h>
#include <stdbool.h>
#include <stdio.h>
#include <stdlib.h>
#include <string.h>

#include "../differential/console.h"
#include "../differential/generate.h"
#include "../second/second.h"
#include "second_bench.h"

/* A sheet; there is room for one that is too long. */
struct sheet {
    size_t bytes;
    uint8_t byte[2 * SHEET_BYTES];
};

/* The contents and the bodies of a sheet in the making. */
struct making {
    size_t calls;
    uint8_t contents[4 * 256];
    size_t bytes;
    uint8_t bodies[2 * SHEET_BYTES];
};

static uint64_t answers[16];

/* Of no bytes nothing is copied, since their pointer may be null. */
static void add_bytes(struct making *making, const uint8_t *bytes, size_t count)
{
    if (count > 0)
        memcpy(making->bodies + making->bytes, bytes, count);
    making->bytes += count;
}

static void add_call(struct making *making, uint8_t nexus, const uint8_t *cdb,
                     size_t cdb_bytes, const uint8_t *data_out,
                     size_t data_out_bytes)
{
    uint8_t *contents = making->contents + 4 * making->calls++;

    contents[0] = nexus;
    contents[1] = (uint8_t)cdb_bytes;
    contents[2] = (uint8_t)(data_out_bytes >> 8);
    contents[3] = (uint8_t)data_out_bytes;
    add_bytes(making, cdb, cdb_bytes);
    add_bytes(making, data_out, data_out_bytes);
}

static void finish(const struct making *making, struct sheet *sheet)
{
    sheet->byte[0] = (uint8_t)making->calls;
    memcpy(sheet->byte + 1, making->contents, 4 * making->calls);
    memcpy(sheet->byte + 1 + 4 * making->calls, making->bodies, making->bytes);
    sheet->bytes = 1 + 4 * making->calls + making->bytes;
}

/* ---- The edges ---- */

/* So many calls with an operation code that is not listed. */
static void make_calls(size_t calls, struct sheet *sheet)
{
    static struct making making;
    const uint8_t code = 0xFF;

    making.calls = 0;
    making.bytes = 0;
    for (size_t index = 0; index < calls; index++)
        add_call(&making, 0, &code, 1, NULL, 0);
    finish(&making, sheet);
}

/* One READ CAPACITY(10) with data-out that gives the sheet this length. */
static void make_long(size_t bytes, struct sheet *sheet)
{
    static struct making making;
    static const uint8_t nothing[SHEET_BYTES];
    const uint8_t cdb[10] = {0x25};

    making.calls = 0;
    making.bytes = 0;
    add_call(&making, 0, cdb, sizeof cdb, nothing, bytes - 5 - sizeof cdb);
    finish(&making, sheet);
}

/* So many calls, or one call in a sheet of so many bytes; then bytes are added
   at the end or left out. */
static const struct edge {
    size_t calls;
    size_t bytes;
    int more;
} edges[] = {
    {0, 0, -1},                        /* empty */
    {0, 0, 0},                         /* no call */
    {0, 0, 1},                         /* no call, and a byte more */
    {SHEET_CALLS, 0, 0},               /* the most calls */
    {SHEET_CALLS + 1, 0, 0},           /* and one more */
    {255, 0, 0},                       /* all that the byte can say */
    {SHEET_CALLS, 0, -61},             /* contents that are cut */
    {1, SHEET_BYTES, 0},               /* the longest */
    {1, SHEET_BYTES, -1},              /* a byte short of what it says */
    {1, SHEET_BYTES + 1, 0},           /* 64 KiB and a byte, as it says */
    {1, SHEET_BYTES, 1},               /* 64 KiB as it says, and a byte */
    {1, SHEET_BYTES, SHEET_BYTES},     /* far too long */
};

/* Makes the edge of that number; false if there is none. */
static bool make_edge(unsigned long number, struct sheet *sheet)
{
    struct edge edge;

    if (number >= sizeof edges / sizeof *edges)
        return false;
    edge = edges[number];
    if (edge.bytes == 0)
        make_calls(edge.calls, sheet);
    else
        make_long(edge.bytes, sheet);
    sheet->bytes += (size_t)edge.more;
    return true;
}

/* ---- The random ones ---- */

/* A reservation-out call with nothing but zeros in its list. */
static void make_reserve_out(uint8_t nexus, uint8_t action, uint8_t type,
                             struct request *request)
{
    const uint8_t cdb[10] = {0x5F, action, type, 0, 0, 0, 0, 0, 24, 0};

    request->nexus = nexus;
    memcpy(request->cdb, cdb, sizeof cdb);
    request->cdb_bytes = sizeof cdb;
    memset(request->data_out, 0, 24);
    request->data_out_bytes = 24;
}

/* The REGISTER of a nexus not yet registered, under a key of its own. */
static void make_registration(uint8_t nexus, struct request *request)
{
    make_reserve_out(nexus, 0, 0, request);
    request->data_out[15] = (uint8_t)(nexus + 1);
}

/* The RESERVE of a nexus that is registered so. */
static void make_reservation(uint8_t nexus, uint8_t type,
                             struct request *request)
{
    make_reserve_out(nexus, 1, type, request);
    request->data_out[7] = (uint8_t)(nexus + 1);
}

/* How a history begins: so many register, and the last of them reserves that
   type, unless it is 0. */
struct opening {
    uint8_t registrations;
    uint8_t type;
};

/*
 * In one of eight all places are used, so that there is no room for more. In
 * two a few register and one reserves, mostly for all of them: left to itself a
 * history is seldom long enough to come to a reservation and to its end.
 */
static struct opening make_opening(struct random *random)
{
    struct opening opening = {0, 0};
    uint64_t kind = random_below(random, 8);

    if (kind == 0)
        opening.registrations = RIDGE_PLACES;
    if (kind == 1 || kind == 2) {
        opening.registrations = (uint8_t)(1 + random_below(random, 5));
        opening.type =
            (uint8_t)RANDOM_CHOICE(random, 1, 3, 5, 6, 7, 7, 7, 8, 8, 8);
    }
    return opening;
}

/* Makes the call of that number from 0; false if the opening is over. */
static bool make_opening_call(struct opening opening, size_t number,
                              struct request *request)
{
    if (number < opening.registrations)
        make_registration((uint8_t)number, request);
    else if (number == opening.registrations && opening.type != 0)
        make_reservation((uint8_t)(number - 1), opening.type, request);
    else
        return false;
    return true;
}

/* The next call of a history; its nexus fits the sheet's byte. Where something
   waits for somebody, a third of the calls are that one's. */
static void make_call(struct random *random, const struct store *store,
                      struct request *request)
{
    unsigned rare = store->unit.rights.type >= 7 ? 30 : 10;
    uint64_t kind = random_below(random, 100);

    if (kind < rare)
        generate_rare(random, store, request);
    else if (kind < rare + 15)
        generate_notice(random, store, request);
    else if (kind >= rare + 45 || !generate_attended(random, store, request))
        generate_request(random, store,
                         generate_nexus(random, &store->unit.rights), request);
    request->nexus = (uint8_t)request->nexus;
}

/* The second program tells how the store goes on. */
static void execute(struct store *store, const struct request *request)
{
    uint8_t data_in[BENCH_DATA_IN];
    uint8_t sense[RIDGE_SENSE_BYTES];
    uint64_t returned;

    answers[second_execute(
        store->format, &store->unit, store->owners, store->slots,
        &store->marks, store->medium, store->slots * RIDGE_BLOCK_BYTES,
        request->nexus, request->cdb, request->cdb_bytes, request->data_out,
        request->data_out_bytes, data_in, sizeof data_in, sense, sizeof sense,
        &returned)]++;
}

/* A history on a fresh store, which is the bench's. */
static void make_history(struct random *random, struct sheet *sheet)
{
    static struct making making;
    static struct store store;
    static struct request request;
    size_t calls = random_below(random, SHEET_CALLS + 1);
    struct opening opening = make_opening(random);

    making.calls = 0;
    making.bytes = 0;
    memset(&store, 0, sizeof store);
    store.format = RIDGE_FIXED;
    store.slots = BENCH_SLOTS;
    second_fresh(BENCH_CAPACITY, store.format, &store.unit, store.owners,
                 store.slots, &store.marks);
    for (size_t index = 0; index < calls; index++) {
        if (!make_opening_call(opening, index, &request))
            make_call(random, &store, &request);
        if (1 + 4 * calls + making.bytes + request.cdb_bytes +
                request.data_out_bytes > SHEET_BYTES)
            break;
        add_call(&making, (uint8_t)request.nexus, request.cdb,
                 request.cdb_bytes, request.data_out, request.data_out_bytes);
        execute(&store, &request);
    }
    finish(&making, sheet);
}

static void damage(struct random *random, struct sheet *sheet)
{
    switch (random_below(random, 5)) {
    case 0:
        sheet->bytes -= 1 + random_below(random, sheet->bytes);
        break;
    case 1:
        sheet->bytes += 1 + random_below(random, 9);
        break;
    case 2:
        sheet->byte[0] = (uint8_t)random_word(random);
        break;
    case 3: /* a byte of the contents, most likely */
        sheet->byte[random_below(random, 1 + 4 * sheet->byte[0])] =
            (uint8_t)random_word(random);
        break;
    default:
        sheet->bytes = random_below(random, 64);
        random_fill(random, sheet->byte, sheet->bytes);
        break;
    }
}

/* ---- The files ---- */

static FILE *open_file(const char *folder, unsigned long number,
                       const char *kind)
{
    char name[4096];

    snprintf(name, sizeof name, "%s/%05lu.%s", folder, number, kind);
    FILE *file = fopen(name, "wb");
    if (file == NULL) {
        perror(name);
        exit(1);
    }
    return file;
}

static void write_sheet(const char *folder, unsigned long number,
                        const struct sheet *sheet)
{
    FILE *file = open_file(folder, number, "bytes");
    fwrite(sheet->byte, 1, sheet->bytes, file);
    fclose(file);
    file = open_file(folder, number, "expected");
    second_bench(sheet->byte, sheet->bytes, file);
    fclose(file);
}

static void make_sheet(struct random *random, unsigned long number,
                       struct sheet *sheet)
{
    if (make_edge(number, sheet))
        return;
    make_history(random, sheet);
    if (random_percent(random, 25))
        damage(random, sheet);
}

int main(int argc, char **argv)
{
    static struct sheet sheet;

    if (argc < 3 || argc > 4) {
        fprintf(stderr, "usage: make_sheets FOLDER COUNT [SEED]\n");
        return 2;
    }
    unsigned long count = (unsigned long)console_number("SHEETS", argv[2], 1);
    struct random random = {console_seed(argc > 3 ? argv[3] : NULL)};
    printf("sheets: %lu made, SEED=%" PRIu64 "\n", count, random.state);
    for (unsigned long number = 0; number < count; number++) {
        make_sheet(&random, number, &sheet);
        write_sheet(argv[1], number, &sheet);
    }
    printf("answers in the histories:");
    for (unsigned number = 0; number <= RIDGE_ATTENTION; number++)
        printf(" %u:%" PRIu64, number, answers[number]);
    printf("\n");
    return 0;
}
