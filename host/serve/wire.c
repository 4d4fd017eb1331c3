/* The wire's bytes and its patience; wire.h says what goes over it. */
#define _GNU_SOURCE
#include "wire.h"

#include <errno.h>
#include <poll.h>
#include <string.h>

#include "numbers.h"

static const uint8_t request_kind[4] = {'R', 'D', 'G', 'Q'};
static const uint8_t reply_kind[4] = {'R', 'D', 'G', 'A'};
static const uint8_t room_request_kind[4] = {'R', 'D', 'G', 'R'};
static const uint8_t room_kind[4] = {'R', 'D', 'G', 'F'};

void wire_begin(struct wire *wire, int connection, int seconds)
{
    memset(wire, 0, sizeof *wire);
    wire->connection = connection;
    clock_gettime(CLOCK_MONOTONIC, &wire->until);
    wire->until.tv_sec += seconds;
}

/* Gives 1 and the time that is left, or 0 once there is none. */
static int time_left(const struct wire *wire, struct timespec *left)
{
    struct timespec now;
    clock_gettime(CLOCK_MONOTONIC, &now);
    left->tv_sec = wire->until.tv_sec - now.tv_sec;
    left->tv_nsec = wire->until.tv_nsec - now.tv_nsec;
    if (left->tv_nsec < 0) {
        left->tv_sec -= 1;
        left->tv_nsec += 1000000000;
    }
    return left->tv_sec >= 0;
}

/* Waits until the connection can go on; gives 0 if it was told to end, or if
   the patience for the whole exchange is used up. */
static int wait_for(struct wire *wire, short events)
{
    struct pollfd watched = {.fd = wire->connection, .events = events};
    struct timespec left;
    for (;;) {
        if ((wire->ended != NULL && *wire->ended) || !time_left(wire, &left))
            return 0;
        int ready = ppoll(&watched, 1, &left, wire->while_waiting);
        if (ready > 0)
            return 1;
        if (ready < 0 && errno != EINTR)
            return 0;
    }
}

static int may_be_tried_again(ssize_t moved)
{
    return moved < 0 && (errno == EINTR || errno == EAGAIN);
}

/* No signal is raised for a peer that has gone: its absence is an answer like
   any other. */
int wire_send(struct wire *wire, const uint8_t *bytes, size_t count)
{
    while (count > 0) {
        if (!wait_for(wire, POLLOUT))
            return 0;
        ssize_t sent = send(wire->connection, bytes, count,
                            MSG_NOSIGNAL | MSG_DONTWAIT);
        if (may_be_tried_again(sent))
            continue;
        if (sent <= 0)
            return 0;
        wire->moved += (size_t)sent;
        bytes += sent;
        count -= (size_t)sent;
    }
    return 1;
}

int wire_receive(struct wire *wire, uint8_t *bytes, size_t count)
{
    while (count > 0) {
        if (!wait_for(wire, POLLIN))
            return 0;
        ssize_t received = recv(wire->connection, bytes, count, MSG_DONTWAIT);
        if (may_be_tried_again(received))
            continue;
        if (received <= 0)
            return 0;
        wire->moved += (size_t)received;
        bytes += received;
        count -= (size_t)received;
    }
    return 1;
}

static void store_kind(uint8_t *head, const uint8_t *kind)
{
    memcpy(head, kind, 4);
    put_number(head + 4, WIRE_VERSION, 4);
}

static int has_kind(const uint8_t *head, const uint8_t *kind)
{
    return memcmp(head, kind, 4) == 0 && number_at(head + 4, 4) == WIRE_VERSION;
}

void wire_store_request(uint8_t *head, const struct wire_request *request)
{
    store_kind(head, request_kind);
    put_number(head + 8, request->nexus, 4);
    put_number(head + 12, request->cdb_bytes, 4);
    put_number(head + 16, request->data_out_bytes, 4);
    put_number(head + 20, request->data_in_bytes, 4);
}

int wire_load_request(const uint8_t *head, struct wire_request *request)
{
    request->nexus = (uint32_t)number_at(head + 8, 4);
    request->cdb_bytes = (uint32_t)number_at(head + 12, 4);
    request->data_out_bytes = (uint32_t)number_at(head + 16, 4);
    request->data_in_bytes = (uint32_t)number_at(head + 20, 4);
    return has_kind(head, request_kind) &&
           request->cdb_bytes <= WIRE_CDB_MOST &&
           request->data_out_bytes <= WIRE_DATA_MOST &&
           request->data_in_bytes <= WIRE_DATA_MOST;
}

void wire_store_reply(uint8_t *head, const struct wire_reply *reply)
{
    store_kind(head, reply_kind);
    put_number(head + 8, reply->answer, 4);
    put_number(head + 12, reply->sense_bytes, 4);
    put_number(head + 16, reply->returned, 4);
}

int wire_load_reply(const uint8_t *head, struct wire_reply *reply)
{
    reply->answer = (uint32_t)number_at(head + 8, 4);
    reply->sense_bytes = (uint32_t)number_at(head + 12, 4);
    reply->returned = (uint32_t)number_at(head + 16, 4);
    return has_kind(head, reply_kind) &&
           reply->sense_bytes <= WIRE_SENSE_MOST &&
           reply->returned <= WIRE_DATA_MOST;
}

void wire_store_room_request(uint8_t *head)
{
    memset(head, 0, WIRE_REQUEST_BYTES);
    store_kind(head, room_request_kind);
}

int wire_is_room_request(const uint8_t *head)
{
    uint8_t only[WIRE_REQUEST_BYTES];
    wire_store_room_request(only);
    return memcmp(head, only, sizeof only) == 0;
}

void wire_store_room(uint8_t *head, const struct wire_room *room)
{
    store_kind(head, room_kind);
    put_number(head + 8, room->answer, 4);
    put_number(head + 12, room->slots, 4);
    put_number(head + 16, room->free_slots, 4);
    put_number(head + 20, room->lowest_free, 4);
}

/* The free slots are the lowest one and some above it. */
static int is_possible(const struct wire_room *room)
{
    if (room->slots < 1 || room->slots > WIRE_SLOTS_MOST)
        return 0;
    if (room->answer != 0)
        return room->free_slots == 0 && room->lowest_free == 0;
    return room->lowest_free <= room->slots &&
           room->free_slots <= room->slots - room->lowest_free &&
           (room->free_slots == 0) == (room->lowest_free == room->slots);
}

int wire_load_room(const uint8_t *head, struct wire_room *room)
{
    room->answer = (uint32_t)number_at(head + 8, 4);
    room->slots = (uint32_t)number_at(head + 12, 4);
    room->free_slots = (uint32_t)number_at(head + 16, 4);
    room->lowest_free = (uint32_t)number_at(head + 20, 4);
    return has_kind(head, room_kind) && is_possible(room);
}

int wire_address(struct sockaddr_un *address, const char *path)
{
    memset(address, 0, sizeof *address);
    address->sun_family = AF_UNIX;
    if (path == NULL || path[0] == '\0' ||
        strlen(path) >= sizeof address->sun_path)
        return 0;
    strcpy(address->sun_path, path);
    return 1;
}
