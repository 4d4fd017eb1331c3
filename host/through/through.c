/* The module tried from outside: random commands of the project's own generator
   go through iSCSI to a served store, and to the second program beside it; each
   time status, sense, data-in, their numbers of bytes and the residual count
   must be the same to the byte.

     through names
     through URL CAPACITY SLOTS fixed|descriptor CALLS SEED [LINES]

   The first prints the initiators that the target must list, in their order. The
   second assumes that the store at URL is fresh and of that capacity, number of
   slots and format, and that nobody else uses it. LINES is a file for what the
   store must have been asked, a line a command: nexus, CDB, answer and bytes
   returned; the last line is what tools/room must tell. Nexus numbers show there
   alone: no command tells them, so that any exchange of them would pass.

   It ends with 0 exactly if there was no difference; the last line of its output
   then counts what was met, in words NAME=NUMBER. At a difference it prints the
   command, what was due and what came.

   Of the generator's calls iSCSI cannot carry all. The 16 bytes of the CDB go
   out, whatever number of bytes the call would have; a nexus above 15 is taken
   modulo 16; sense always has room, so the size of its buffer is left out; and a
   buffer for data-in that is too small is an expected length that is. */
#include <inttypes.h>
#include <stdio.h>
#include <stdlib.h>
#include <string.h>

#include "../differential/console.h"
#include "../second/second.h"
#include "carried.h"
#include "due.h"
#include "sessions.h"

enum {
    /* Of 100 commands: those that take or free slots, those of one for whom
       something waits, those that others must know of or, in turns of so many
       commands, those that meet seldom answers: where nobody is put out, the
       places for registrations fill. The rest are any. */
    ROOMS = 9,
    ATTENDED = 8,
    NOTICES = 20,
    TURN = 300,
    /* Of 100 of all these, those that get another operation code or sender. */
    FAULTS = 6,
    /* Of 100, those whose expected length has nothing to do with the command,
       that go in any direction, and that are sent by no nexus. */
    MISJUDGED = 10,
    MISDIRECTED = 5,
    STRANGERS = 3,
    ACCESS_DENIED = 0x2002,
    INSUFFICIENT_RESOURCES = 0x5503,
    ANSWERS = RIDGE_ATTENTION + 1,
    SHOWN_BYTES = 64
};

struct run {
    struct random random;
    struct store store;
    struct request request;
    struct order order;
    size_t session;
    struct due due;
    struct outcome came;
    FILE *lines;
    uint64_t calls, strangers, answers[ANSWERS];
    uint64_t residuals[DIRECTIONS][RESIDUALS];
};

/* ---- which command ---- */

static void make_request(struct run *run)
{
    const struct store *store = &run->store;
    struct random *random = &run->random;
    uint64_t kind = random_below(random, 100);
    if (kind < NOTICES && run->calls / TURN % 2 == 0)
        generate_notice(random, store, &run->request);
    else if (kind < NOTICES)
        generate_rare(random, store, &run->request);
    else if (kind < NOTICES + ROOMS)
        generate_room(random, store, &run->request);
    else if (kind >= NOTICES + ROOMS + ATTENDED ||
             !generate_attended(random, store, &run->request))
        generate_request(random, store,
                         generate_nexus(random, &store->unit.rights),
                         &run->request);
    if (random_percent(random, FAULTS))
        generate_fault(random, store, &run->request);
    run->request.nexus %= RIDGE_NEXUSES;
}

static enum direction own_direction(uint8_t code)
{
    switch (code) {
    case 0x2A:
    case 0x42:
    case 0x5F:
    case 0x8A:
    case 0x93:
        return DIRECTION_OUT;
    case 0x12:
    case 0x25:
    case 0x28:
    case 0x5E:
    case 0x88:
    case 0x9E:
        return DIRECTION_IN;
    default:
        return DIRECTION_NONE;
    }
}

/* The generator's sizes are mostly right, or beside that by a byte or some. */
static uint32_t expected_bytes(struct run *run, size_t size)
{
    uint64_t any = random_below(&run->random, DATA_ROOM + 1);
    if (random_percent(&run->random, MISJUDGED))
        size = (size_t)RANDOM_CHOICE(&run->random, 0, 0, 1, 3, size / 2,
                                     size + 512, 2 * size, any, DATA_ROOM);
    return (uint32_t)(size < DATA_ROOM ? size : DATA_ROOM);
}

static void make_order(struct run *run)
{
    const struct request *request = &run->request;
    struct order *order = &run->order;
    memcpy(order->cdb, request->cdb, sizeof order->cdb);
    order->direction = own_direction(order->cdb[0]);
    if (random_percent(&run->random, MISDIRECTED))
        order->direction =
            (enum direction)random_below(&run->random, DIRECTIONS);
    order->expected = 0;
    order->data_out = request->data_out;
    if (order->direction == DIRECTION_IN)
        order->expected = expected_bytes(run, request->data_in_bytes);
    else if (order->direction == DIRECTION_OUT)
        order->expected = expected_bytes(run, request->data_out_bytes);
}

static void choose_session(struct run *run)
{
    run->session = (size_t)run->request.nexus;
    if (random_percent(&run->random, STRANGERS))
        run->session = (size_t)RANDOM_CHOICE(
            &run->random, SESSION_WITHOUT_NUMBER, SESSION_NOT_LISTED,
            SESSION_TOO_LONG, SESSION_PARTED);
    else if (run->session == TWIN_NEXUS && random_percent(&run->random, 50))
        run->session = SESSION_TWIN;
}

/* ---- differences ---- */

static bool same_outcome(const struct outcome *due, const struct outcome *came)
{
    return due->status == came->status &&
           due->sense_bytes == came->sense_bytes &&
           memcmp(due->sense, came->sense, due->sense_bytes) == 0 &&
           due->data_bytes == came->data_bytes &&
           memcmp(due->data, came->data, due->data_bytes) == 0 &&
           due->residual == came->residual &&
           due->residual_bytes == came->residual_bytes;
}

static void print_bytes(const char *what, const uint8_t *bytes, size_t from,
                        size_t count)
{
    printf("    %s: %zu bytes", what, count);
    if (from < count)
        printf(", from %zu on:", from);
    for (size_t byte = from; byte < count && byte < from + SHOWN_BYTES; byte++)
        printf("%s%02X", byte == from ? " " : "", bytes[byte]);
    puts("");
}

/* From the first byte on in which they differ. */
static size_t first_difference(const struct outcome *one,
                               const struct outcome *other)
{
    size_t both = one->data_bytes < other->data_bytes ? one->data_bytes
                                                      : other->data_bytes;
    size_t byte = 0;
    while (byte < both && one->data[byte] == other->data[byte])
        byte++;
    return byte;
}

static void print_outcome(const char *whose, const struct outcome *outcome,
                          size_t from)
{
    static const char *const directions[RESIDUALS] = {"no residual",
                                                      "underflow", "overflow"};
    printf("  %s: status %02" PRIX32 "h, %s of %" PRIu64 " bytes\n", whose,
           outcome->status, directions[outcome->residual],
           outcome->residual_bytes);
    print_bytes("sense", outcome->sense, 0, outcome->sense_bytes);
    print_bytes("data-in", outcome->data, from, outcome->data_bytes);
}

static void print_difference(const struct run *run)
{
    static const char *const directions[DIRECTIONS] = {"no data", "data-in",
                                                       "data-out"};
    const struct order *order = &run->order;
    size_t from = first_difference(&run->due.outcome, &run->came);
    printf("call %" PRIu64 ", session %zu: %s of %" PRIu32
           " bytes expected; answer %" PRIu64 ", %" PRIu64
           " bytes returned are due\n",
           run->calls, run->session, directions[order->direction],
           order->expected, run->due.answer, run->due.returned);
    print_bytes("CDB", order->cdb, 0, sizeof order->cdb);
    if (order->direction == DIRECTION_OUT)
        print_bytes("data-out", order->data_out, 0, order->expected);
    print_outcome("due", &run->due.outcome, from);
    print_outcome("came", &run->came, from);
}

/* ---- the run ---- */

/* What the store must have been asked; a stranger's command never comes to it. */
static void note_line(const struct run *run)
{
    if (run->lines == NULL)
        return;
    fprintf(run->lines, "%" PRIu64 " ", run->request.nexus);
    for (size_t byte = 0; byte < run->due.cdb_bytes; byte++)
        fprintf(run->lines, "%02X", run->order.cdb[byte]);
    fprintf(run->lines, " %" PRIu64 " %" PRIu64 "\n", run->due.answer,
            run->due.returned);
}

static void note_room(const struct run *run)
{
    const struct store *store = &run->store;
    uint64_t slots = 0;
    uint64_t lowest = 0;
    if (run->lines == NULL)
        return;
    second_room(store->format, &store->unit, store->owners, store->slots,
                &store->marks, store->medium, store->slots * RIDGE_BLOCK_BYTES,
                &slots, &lowest);
    fprintf(run->lines, "%" PRIu64 " of %zu slots free", slots, store->slots);
    if (slots > 0)
        fprintf(run->lines, ", the lowest is slot %" PRIu64, lowest);
    fputs("\n", run->lines);
}

static void make_due(struct run *run)
{
    if (run->session > SESSION_TWIN) {
        run->strangers++;
        due_of_stranger(run->session == SESSION_WITHOUT_NUMBER
                            ? INSUFFICIENT_RESOURCES
                            : ACCESS_DENIED,
                        &run->order, &run->due);
        return;
    }
    due_of_command(&run->store, run->request.nexus, &run->order, &run->due);
    run->answers[run->due.answer]++;
    note_line(run);
}

static bool one_call(struct run *run)
{
    make_request(run);
    make_order(run);
    choose_session(run);
    make_due(run);
    run->calls++;
    run->residuals[run->order.direction][run->due.outcome.residual]++;
    if (!session_send(run->session, &run->order,
                      run->due.answer != RIDGE_GOOD, &run->came)) {
        print_difference(run);
        return false;
    }
    if (same_outcome(&run->due.outcome, &run->came))
        return true;
    print_difference(run);
    return false;
}

/* Answer 9 does not exist, and 11 is not due: state and nexus are always valid,
   and the CDB has the bytes of its operation code. */
static void print_figures(const struct run *run)
{
    printf("calls=%" PRIu64 " no_nexus=%" PRIu64, run->calls, run->strangers);
    for (size_t answer = 0; answer < ANSWERS; answer++)
        if ((answer != 9 && answer != RIDGE_UNUSABLE) ||
            run->answers[answer] != 0)
            printf(" answer_%zu=%" PRIu64, answer, run->answers[answer]);
    printf(" no_direction=%" PRIu64,
           run->residuals[DIRECTION_NONE][RESIDUAL_NONE]);
    for (size_t residual = 0; residual < RESIDUALS; residual++) {
        static const char *const names[] = {"exact", "underflow", "overflow"};
        printf(" in_%s=%" PRIu64 " out_%s=%" PRIu64, names[residual],
               run->residuals[DIRECTION_IN][residual], names[residual],
               run->residuals[DIRECTION_OUT][residual]);
    }
    puts("");
}

static uint64_t format_of(const char *word)
{
    if (strcmp(word, "fixed") == 0)
        return RIDGE_FIXED;
    if (strcmp(word, "descriptor") == 0)
        return RIDGE_DESCRIPTOR;
    fprintf(stderr, "through: %s: neither fixed nor descriptor\n", word);
    exit(2);
}

static void begin_run(struct run *run, char **words)
{
    uint64_t capacity = console_number("CAPACITY", words[0], 1);
    run->store.slots = (size_t)console_number("SLOTS", words[1], 1);
    run->store.format = format_of(words[2]);
    run->random.state = console_number("SEED", words[4], 0);
    if (run->store.slots <= RIDGE_SLOTS &&
        second_fresh(capacity, run->store.format, &run->store.unit,
                     run->store.owners, run->store.slots,
                     &run->store.marks) == RIDGE_GOOD)
        return;
    fprintf(stderr, "through: no store has so many blocks or slots\n");
    exit(2);
}

static bool run_calls(struct run *run, const char *url, uint64_t calls)
{
    bool same = sessions_begin(url);
    while (same && run->calls < calls)
        same = one_call(run);
    sessions_end();
    note_room(run);
    if (same)
        print_figures(run);
    return same;
}

int main(int count, char **words)
{
    static struct run run;
    if (count == 2 && strcmp(words[1], "names") == 0) {
        sessions_print_names();
        return 0;
    }
    if (count < 7 || count > 8) {
        fprintf(stderr, "usage: through names | URL CAPACITY SLOTS "
                        "fixed|descriptor CALLS SEED [LINES]\n");
        return 2;
    }
    begin_run(&run, words + 2);
    if (count == 8 && (run.lines = fopen(words[7], "w")) == NULL) {
        perror(words[7]);
        return 2;
    }
    bool same = run_calls(&run, words[1], console_number("CALLS", words[5], 0));
    if (run.lines != NULL && fclose(run.lines) != 0) {
        perror(words[7]);
        return 2;
    }
    return same ? 0 : 1;
}
