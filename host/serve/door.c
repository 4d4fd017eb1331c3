/* The door of a store (door.h). */
#define _GNU_SOURCE
#include "door.h"

#include <errno.h>
#include <fcntl.h>
#include <stdio.h>
#include <string.h>
#include <sys/stat.h>
#include <unistd.h>

#include "fail.h"
#include "holding.h"
#include "lock.h"
#include "wire.h"

_Static_assert((int)RIDGE_SLOTS <= (int)WIRE_SLOTS_MOST,
               "the wire holds the room of every pool");

static const char *place;
static struct lock place_lock;

static uint8_t cdb[WIRE_CDB_MOST];
static uint8_t data_out[WIRE_DATA_MOST];
static uint8_t data_in[WIRE_DATA_MOST];

/* ---- one command ---- */

static int send_reply(struct wire *wire, const struct store_call *call,
                      uint64_t answer)
{
    uint8_t head[WIRE_REPLY_BYTES];
    struct wire_reply reply = {.answer = (uint32_t)answer,
                               .sense_bytes = (uint32_t)call->sense_bytes,
                               .returned = (uint32_t)call->returned};
    wire_store_reply(head, &reply);
    return wire_send(wire, head, sizeof head) &&
           wire_send(wire, call->sense, reply.sense_bytes) &&
           wire_send(wire, data_in, reply.returned);
}

static int receive_call(struct wire *wire, const uint8_t *head,
                        struct store_call *call)
{
    struct wire_request request;
    if (!wire_load_request(head, &request) ||
        !wire_receive(wire, cdb, request.cdb_bytes) ||
        !wire_receive(wire, data_out, request.data_out_bytes))
        return 0;
    memset(call, 0, sizeof *call);
    call->nexus = request.nexus;
    call->cdb = cdb;
    call->cdb_bytes = request.cdb_bytes;
    call->data_out = data_out;
    call->data_out_bytes = request.data_out_bytes;
    call->data_in = data_in;
    call->data_in_bytes = request.data_in_bytes;
    return 1;
}

/* Gives 0 exactly if the request was broken off. */
static int serve_call(struct wire *wire, const uint8_t *head)
{
    struct store_call call;
    uint64_t answer;
    if (!receive_call(wire, head, &call))
        return 0;
    if (!holding_execute(&call, &answer))
        return 1;
    int sent = send_reply(wire, &call, answer);
    holding_tell(&call, answer);
    return sent;
}

/* ---- the room ---- */

/* The same. */
static int serve_room(struct wire *wire)
{
    uint8_t reply[WIRE_ROOM_BYTES];
    struct store_room found = {0, 0};
    size_t slots;
    struct wire_room room = {.answer = (uint32_t)holding_room(&found, &slots)};
    room.slots = (uint32_t)slots;
    room.free_slots = (uint32_t)found.free_slots;
    room.lowest_free = (uint32_t)found.lowest_free;
    wire_store_room(reply, &room);
    int sent = wire_send(wire, reply, sizeof reply);
    holding_tell_room(room.answer, &found);
    return sent;
}

/* ---- one request ---- */

/* One who connects and asks nothing is not counted. */
void door_serve(int listener, const sigset_t *while_waiting,
                const volatile sig_atomic_t *ended)
{
    struct wire wire;
    uint8_t head[WIRE_REQUEST_BYTES];
    int connection = accept4(listener, NULL, NULL, SOCK_CLOEXEC);
    if (connection < 0)
        return;
    wire_begin(&wire, connection, WIRE_SERVER_SECONDS);
    wire.while_waiting = while_waiting;
    wire.ended = ended;
    int whole = wire_receive(&wire, head, sizeof head) &&
                (wire_is_room_request(head) ? serve_room(&wire)
                                            : serve_call(&wire, head));
    if (!whole && wire.moved > 0)
        holding_count_broken_off();
    close(connection);
}

/* ---- the socket ---- */

/* Removes the socket that a killed server left. Nobody else starts here, since
   we have the lock; a socket that answers is another program's. */
static int clear_place(const struct sockaddr_un *address)
{
    struct stat about;
    if (lstat(place, &about) != 0)
        return errno == ENOENT || fail(place, strerror(errno));
    if (!S_ISSOCK(about.st_mode))
        return fail(place, "is there and is no socket; it is left alone");
    int trial = socket(AF_UNIX, SOCK_STREAM | SOCK_CLOEXEC | SOCK_NONBLOCK, 0);
    int answers = connect(trial, (const struct sockaddr *)address,
                          sizeof *address) == 0 || errno != ECONNREFUSED;
    close(trial);
    if (answers)
        return fail(place, "another program serves at this socket");
    fail(place, "a stale socket, whose server is gone; taking its place");
    return unlink(place) == 0 || fail(place, strerror(errno));
}

static int take_place(const struct sockaddr_un *address)
{
    switch (lock_take(&place_lock, AT_FDCWD, place)) {
    case LOCK_TAKEN:
        break;
    case LOCK_HELD_BY_ANOTHER:
        return fail(place, "another server serves at this socket");
    default:
        return fail(place_lock.name, strerror(errno));
    }
    if (clear_place(address))
        return 1;
    lock_let_go(&place_lock);
    return 0;
}

int door_open(const char *path)
{
    struct sockaddr_un address;
    place = path;
    if (!wire_address(&address, place)) {
        fprintf(stderr, "server: the socket's path has %zu bytes; a socket's "
                "address holds 1 to %zu: %s\n", strlen(place),
                sizeof address.sun_path - 1, place);
        return -1;
    }
    if (!take_place(&address))
        return -1;
    int listener = socket(AF_UNIX, SOCK_STREAM | SOCK_CLOEXEC | SOCK_NONBLOCK, 0);
    if (bind(listener, (struct sockaddr *)&address, sizeof address) == 0 &&
        listen(listener, 64) == 0)
        return listener;
    fail(place, strerror(errno));
    lock_let_go(&place_lock);
    return -1;
}

void door_close(void)
{
    unlink(place);
    lock_let_go(&place_lock);
}
