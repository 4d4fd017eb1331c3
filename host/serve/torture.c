/* Kills a server that keeps an image, at random moments of a load of writes,
   and holds what is left to what must be.

     torture ROUNDS SEED FOLDER SERVER [WORDS...]

   A round starts the server (SERVER and its WORDS, with options added) on the
   image in FOLDER, asks it random commands and kills it with SIGKILL after a
   random time, often in the middle of one, sometimes between two or while it
   starts. A copy of the store is kept here by the same library. Every answer must
   be the copy's. After the kill the image must be a whole one, and its store
   exactly the copy, or the copy after the one command that was sent and not
   answered: marks too, which the copy has as the library keeps them, and the
   image's store as its owners have them. The next server must then answer from
   that store, tell each nexus what waits for it, once, and tell its room, whenever
   it is asked. The store has descriptor sense, which no server falls back to: one
   that forgets the format shows. It has slots in both words of the marks.

   Prints what was killed when; ends with 0 exactly if all was as it must be. */
#define _GNU_SOURCE
#include <errno.h>
#include <fcntl.h>
#include <limits.h>
#include <poll.h>
#include <signal.h>
#include <stdio.h>
#include <stdlib.h>
#include <string.h>
#include <sys/time.h>
#include <sys/wait.h>
#include <time.h>
#include <unistd.h>

#include "ask.h"
#include "image.h"
#include "store.h"

enum {
    CAPACITY = 96,
    SLOTS = 72,
    WORDS_MOST = 64,
    BLOCKS_MOST = 16,
    NEXUSES = 4,
    OPTIONS_ADDED = 12,
    START_SECONDS = 60,
    CALLS_A_ROUND = 12, /* about as many before a kill */
    DATA_BYTES = CAPACITY * RIDGE_BLOCK_BYTES
};

enum outcome { ANSWERED, NOT_SENT, UNANSWERED };

static struct {
    unsigned long answered, changes, told, rooms, full, done, not_done,
        unchanging, between, starting;
} counts;

static char image_path[PATH_MAX], socket_path[PATH_MAX], log_path[PATH_MAX];
static char *server_words[WORDS_MOST];
static struct store copy, after, found;
static uint8_t cdb[16], data_out[DATA_BYTES], data_in[DATA_BYTES], heard[DATA_BYTES];
static uint64_t random_state;
static volatile pid_t server;
static volatile sig_atomic_t killed;
static int server_input = -1, server_output = -1;
static double seconds_a_call = 0.002, seconds_a_start = 0.02;

/* ---- chance and failure ---- */

static uint64_t chance(uint64_t below)
{
    uint64_t mixed = random_state += UINT64_C(0x9E3779B97F4A7C15);
    mixed = (mixed ^ mixed >> 30) * UINT64_C(0xBF58476D1CE4E5B9);
    mixed = (mixed ^ mixed >> 27) * UINT64_C(0x94D049BB133111EB);
    return (mixed ^ mixed >> 31) % below;
}

static void show_log(void)
{
    char line[512];
    FILE *log = fopen(log_path, "r");
    while (log != NULL && fgets(line, sizeof line, log) != NULL)
        fputs(line, stderr);
}

static void fail(const char *what, const char *why)
{
    fprintf(stderr, "torture: %s%s%s\n", what, why[0] == '\0' ? "" : ": ", why);
    fprintf(stderr, "torture: what the servers said:\n");
    show_log();
    if (server > 0)
        kill(server, SIGKILL);
    exit(1);
}

static double now(void)
{
    struct timespec time;
    clock_gettime(CLOCK_MONOTONIC, &time);
    return (double)time.tv_sec + (double)time.tv_nsec / 1e9;
}

/* ---- the server ---- */

static void kill_server(int signal_number)
{
    (void)signal_number;
    killed = 1;
    if (server > 0)
        kill(server, SIGKILL);
}

/* The kill comes at a random moment of the time given. */
static void arm_kill(double seconds)
{
    uint64_t most = (uint64_t)(1e6 * seconds) + 100;
    uint64_t moment = 1 + chance(most);
    struct itimerval timer = {.it_value = {.tv_sec = (time_t)(moment / 1000000),
                                           .tv_usec = (suseconds_t)(moment % 1000000)}};
    setitimer(ITIMER_REAL, &timer, NULL);
}

static void run_server(int input, int output)
{
    int log = open(log_path, O_WRONLY | O_CREAT | O_APPEND, 0600);
    dup2(input, STDIN_FILENO);
    dup2(output, STDOUT_FILENO);
    dup2(log, STDERR_FILENO);
    execvp(server_words[0], server_words);
    _exit(127);
}

static void start_server(void)
{
    int input[2], output[2];
    if (pipe2(input, O_CLOEXEC) != 0 || pipe2(output, O_CLOEXEC) != 0)
        fail("pipe", strerror(errno));
    killed = 0;
    pid_t child = fork();
    if (child < 0)
        fail("fork", strerror(errno));
    if (child == 0)
        run_server(input[0], output[1]);
    server = child;
    close(input[0]);
    close(output[1]);
    server_input = input[1];
    server_output = output[0];
}

/* Gives 1 once the server says `ready`, 0 if it ended before. */
static int is_ready(void)
{
    char line[PATH_MAX + 256];
    size_t length = 0;
    struct pollfd watched = {.fd = server_output, .events = POLLIN};
    double until = now() + START_SECONDS;
    while (length < sizeof line) {
        if (now() > until)
            fail("the server did not become ready", "");
        if (poll(&watched, 1, 1000) <= 0)
            continue;
        ssize_t got = read(server_output, line + length, 1);
        if (got < 0 && errno == EINTR)
            continue;
        if (got <= 0)
            return 0;
        if (line[length++] == '\n')
            return strncmp(line, "ready", 5) == 0;
    }
    return 0;
}

/* Waits for the server's end and gives its status. */
static int await_end(void)
{
    int status = 0;
    while (waitpid(server, &status, 0) < 0)
        if (errno != EINTR)
            fail("waitpid", strerror(errno));
    server = 0;
    close(server_input);
    close(server_output);
    return status;
}

static void await_kill(void)
{
    int status = await_end();
    if (!WIFSIGNALED(status) || WTERMSIG(status) != SIGKILL)
        fail("the server ended by itself", "");
}

/* ---- asking it ---- */

/* What came back must be what the copy answers. */
static void hold_to_copy(const struct store_call *asked, const struct ask *ask)
{
    struct store_call call = *asked;
    struct store was = copy;
    uint64_t answer = store_execute(&copy, &call);
    if (ask->reply.answer != answer || ask->reply.returned != call.returned ||
        ask->reply.sense_bytes != call.sense_bytes ||
        memcmp(ask->sense, call.sense, ask->reply.sense_bytes) != 0 ||
        memcmp(heard, data_in, (size_t)call.returned) != 0)
        fail("an answer that is not the store's", "");
    counts.answered++;
    counts.changes += !store_same(&was, &copy);
    counts.told += answer == RIDGE_ATTENTION;
}

static enum outcome outcome_of(enum ask_outcome asked)
{
    if (asked == ASK_NO_REPLY)
        fail("a reply that is none", "");
    if (asked != ASK_ANSWERED && !killed)
        fail("something was not answered, and nobody killed the server", "");
    if (asked == ASK_ANSWERED)
        return ANSWERED;
    return asked == ASK_UNANSWERED ? UNANSWERED : NOT_SENT;
}

/* Leaves in `after` what the copy is if the command was done. */
static enum outcome ask_it(const struct store_call *call)
{
    struct store_call same = *call;
    struct ask ask = {
        .request = {.nexus = (uint32_t)call->nexus,
                    .cdb_bytes = (uint32_t)call->cdb_bytes,
                    .data_out_bytes = (uint32_t)call->data_out_bytes,
                    .data_in_bytes = (uint32_t)call->data_in_bytes},
        .cdb = call->cdb, .data_out = call->data_out, .data_in = heard};
    after = copy;
    store_execute(&after, &same);
    enum outcome outcome = outcome_of(ask_server(socket_path, &ask));
    if (outcome == ANSWERED)
        hold_to_copy(call, &ask);
    return outcome;
}

/* The room must be the copy's. */
static enum outcome ask_for_room(void)
{
    struct store_room room;
    struct wire_room told;
    after = copy;
    enum outcome outcome = outcome_of(ask_room(socket_path, &told));
    if (outcome != ANSWERED)
        return outcome;
    if (store_room(&copy, &room) != told.answer || told.slots != SLOTS ||
        room.free_slots != told.free_slots || room.lowest_free != told.lowest_free)
        fail("an answer that is not the store's room", "");
    counts.rooms++;
    counts.full += told.free_slots == 0;
    return ANSWERED;
}

/* ---- the commands ---- */

static struct store_call new_call(size_t cdb_bytes, size_t out, size_t in)
{
    struct store_call call = {.nexus = chance(NEXUSES), .cdb = cdb,
                              .cdb_bytes = cdb_bytes, .data_out = data_out,
                              .data_out_bytes = out, .data_in = data_in,
                              .data_in_bytes = in};
    memset(data_out, 0, out);
    memset(cdb, 0, sizeof cdb);
    return call;
}

static struct store_call random_write(void)
{
    uint8_t blocks = (uint8_t)(1 + chance(BLOCKS_MOST));
    size_t bytes = (size_t)blocks * RIDGE_BLOCK_BYTES;
    struct store_call call = new_call(10, bytes, 0);
    cdb[0] = 0x2A;
    cdb[5] = (uint8_t)chance(CAPACITY - BLOCKS_MOST);
    cdb[8] = blocks;
    for (size_t byte = 0; byte < bytes; byte++)
        data_out[byte] = (uint8_t)chance(256);
    return call;
}

static struct store_call random_unmap(void)
{
    struct store_call call = new_call(10, 24, 0);
    cdb[0] = 0x42;
    cdb[8] = 24;
    data_out[3] = 16;
    data_out[15] = (uint8_t)chance(CAPACITY);
    data_out[19] = (uint8_t)chance(BLOCKS_MOST);
    return call;
}

/* Writes a block all over a range, a random one or zeros; or unmaps it. */
static struct store_call random_same(void)
{
    enum { UNMAP = 0x08, NDOB = 0x01 };
    static const uint8_t flags[] = {0, NDOB, UNMAP, UNMAP | NDOB};
    struct store_call call = new_call(16, RIDGE_BLOCK_BYTES, 0);
    cdb[0] = 0x93;
    cdb[1] = flags[chance(sizeof flags)];
    cdb[9] = (uint8_t)chance(CAPACITY - BLOCKS_MOST);
    cdb[13] = (uint8_t)(1 + chance(BLOCKS_MOST));
    if (chance(2) == 0)
        memset(data_out, (int)(1 + chance(255)), RIDGE_BLOCK_BYTES);
    if ((cdb[1] & NDOB) != 0)
        call.data_out_bytes = 0;
    return call;
}

static struct store_call read_map(void)
{
    struct store_call call = new_call(16, 0, DATA_BYTES);
    cdb[0] = 0x9E;
    cdb[1] = 0x12;
    cdb[12] = 0xFF;
    return call;
}

static struct store_call read_all(void)
{
    struct store_call call = new_call(10, 0, DATA_BYTES);
    cdb[0] = 0x28;
    cdb[8] = CAPACITY;
    return call;
}

/* Registers, reserves, releases, clears or preempts, with the nexus's own key. The
   last three may leave attentions to others. */
static struct store_call random_reservation(void)
{
    enum { RESERVE = 1, RELEASE, CLEAR, PREEMPT, REGISTER_AND_IGNORE = 6 };
    static const uint8_t actions[] = {REGISTER_AND_IGNORE, REGISTER_AND_IGNORE,
                                      REGISTER_AND_IGNORE, REGISTER_AND_IGNORE,
                                      RESERVE, RELEASE, CLEAR, CLEAR, CLEAR,
                                      PREEMPT, PREEMPT};
    static const uint8_t types[] = {1, 3, 5, 6, 7, 8};
    struct store_call call = new_call(10, 24, 0);
    cdb[0] = 0x5F;
    cdb[1] = actions[chance(sizeof actions)];
    cdb[2] = types[chance(sizeof types)];
    cdb[8] = 24;
    data_out[7] = (uint8_t)(call.nexus + 1);
    if (cdb[1] == REGISTER_AND_IGNORE)
        data_out[15] = (uint8_t)(call.nexus + 1);
    if (cdb[1] == PREEMPT)
        data_out[15] = (uint8_t)(chance(NEXUSES) + 1);
    return call;
}

static struct store_call test_unit_ready(uint64_t nexus)
{
    struct store_call call = new_call(6, 0, 0);
    call.nexus = nexus;
    return call;
}

static struct store_call reservation_in(uint8_t action)
{
    struct store_call call = new_call(10, 0, 255);
    cdb[0] = 0x5E;
    cdb[1] = action;
    cdb[8] = 255;
    return call;
}

static struct store_call random_call(void)
{
    uint64_t kind = chance(28);
    if (kind < 13)
        return random_write();
    if (kind < 17)
        return random_same();
    if (kind < 20)
        return random_unmap();
    if (kind < 22)
        return kind == 20 ? read_all() : read_map();
    return random_reservation();
}

/* ---- rounds ---- */

/* The store of the image that the kill left becomes the copy. */
static void look_at_image(enum outcome outcome)
{
    static struct image image;
    if (image_read(&image, image_path, &found) != IMAGE_DONE)
        fail(image_path, image.reason[0] == '\0' ? "is not there" : image.reason);
    int as_before = store_same(&found, &copy);
    int as_after = outcome == UNANSWERED && store_same(&found, &after);
    if (!as_before && !as_after)
        fail("the image is neither the store before the call nor after it", "");
    if (outcome == UNANSWERED) {
        counts.unchanging += as_before && as_after;
        counts.not_done += as_before && !as_after;
        counts.done += !as_before && as_after;
    }
    copy = found;
}

/* As a gateway does, which asks for the room before some of its commands. */
static enum outcome ask_something(void)
{
    if (chance(8) == 0)
        return ask_for_room();
    struct store_call call = random_call();
    return ask_it(&call);
}

/* Asks until the kill; gives what became of the last request. The next change that
   is kept would keep an attention's telling too, were it not kept by itself: behind
   every second one nothing more is asked, and the kill comes between requests. */
static enum outcome load_until_killed(void)
{
    enum outcome outcome;
    double began = now();
    unsigned long asked = 0, told;
    do {
        told = counts.told;
        outcome = ask_something();
        asked++;
    } while (outcome == ANSWERED && (counts.told == told || chance(2) == 0));
    seconds_a_call = 0.9 * seconds_a_call + 0.1 * (now() - began) / (double)asked;
    return outcome;
}

/* What the whole store can tell by commands: what waits for each nexus, which is
   told in place of anything else and therefore first; keys, reservation, blocks,
   map. */
static struct store_call probe_call(unsigned which)
{
    if (which < NEXUSES)
        return test_unit_ready(which);
    switch (which - NEXUSES) {
    case 0:
    case 1:
        return reservation_in((uint8_t)(which - NEXUSES));
    case 2:
        return read_all();
    default:
        return read_map();
    }
}

static enum outcome probe(void)
{
    for (unsigned which = 0; which < NEXUSES + 4; which++) {
        struct store_call call = probe_call(which);
        enum outcome outcome = ask_it(&call);
        if (outcome != ANSWERED)
            return outcome;
    }
    return ask_for_room();
}

static void round_of_killing(void)
{
    int early = chance(10) == 0;
    enum outcome outcome = NOT_SENT;
    start_server();
    double began = now();
    if (early)
        arm_kill(seconds_a_start);
    int ready = is_ready();
    if (!ready && !killed)
        fail("the server did not start", "");
    if (ready) {
        seconds_a_start = 0.5 * seconds_a_start + 0.5 * (now() - began);
        outcome = probe();
    }
    if (outcome == ANSWERED) {
        if (!early)
            arm_kill(2 * CALLS_A_ROUND * seconds_a_call);
        outcome = load_until_killed();
    }
    await_kill();
    counts.starting += !ready;
    counts.between += ready && outcome != UNANSWERED;
    look_at_image(outcome);
}

/* A server that is told to end leaves the image as the last answer left it. */
static void end_in_order(void)
{
    start_server();
    if (!is_ready() || probe() != ANSWERED)
        fail("the last server did not answer", "");
    kill(server, SIGTERM);
    int status = await_end();
    if (!WIFEXITED(status) || WEXITSTATUS(status) != 0)
        fail("the last server did not end in order", "");
    look_at_image(NOT_SENT);
}

/* ---- the start ---- */

static void set_paths(const char *folder)
{
    snprintf(image_path, sizeof image_path, "%s/store.image", folder);
    snprintf(socket_path, sizeof socket_path, "%s/socket", folder);
    snprintf(log_path, sizeof log_path, "%s/log", folder);
}

static void set_words(char **words)
{
    static char capacity[16], slots[16];
    char *added[OPTIONS_ADDED] = {"--socket", socket_path, "--image", image_path,
                                  "--capacity", capacity, "--slots", slots,
                                  "--sense", "descriptor", "--until-input-ends",
                                  NULL};
    size_t count = 0;
    snprintf(capacity, sizeof capacity, "%d", CAPACITY);
    snprintf(slots, sizeof slots, "%d", SLOTS);
    while (words[count] != NULL && count + OPTIONS_ADDED < WORDS_MOST) {
        server_words[count] = words[count];
        count++;
    }
    memcpy(server_words + count, added, sizeof added);
}

static void tell(unsigned long rounds)
{
    printf("%lu kills: %lu with a request in flight (%lu found done, %lu not done, "
           "%lu that change nothing), %lu between requests, %lu while starting; "
           "%lu commands answered, %lu of them changed the store, and every one "
           "is there; %lu told of an attention; room told %lu times, and %lu times "
           "there was none\n", rounds,
           counts.done + counts.not_done + counts.unchanging, counts.done,
           counts.not_done, counts.unchanging, counts.between, counts.starting,
           counts.answered, counts.changes, counts.told, counts.rooms, counts.full);
}

int main(int count, char **words)
{
    struct sigaction action = {.sa_handler = kill_server};
    if (count < 5) {
        fputs("usage: torture ROUNDS SEED FOLDER SERVER [WORDS...]\n", stderr);
        return 2;
    }
    unsigned long rounds = strtoul(words[1], NULL, 10);
    random_state = strtoull(words[2], NULL, 10);
    set_paths(words[3]);
    set_words(words + 4);
    sigaction(SIGALRM, &action, NULL);
    signal(SIGPIPE, SIG_IGN);
    if (!store_fresh(&copy, CAPACITY, RIDGE_DESCRIPTOR, SLOTS))
        fail("a fresh store", "refused");
    /* The image must be there before the first kill may come. */
    end_in_order();
    for (unsigned long round = 0; round < rounds; round++)
        round_of_killing();
    end_in_order();
    tell(rounds);
    return 0;
}
