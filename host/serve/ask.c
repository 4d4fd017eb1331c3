/* One command asked of a server, or its room (ask.h). */
#define _GNU_SOURCE
#include "ask.h"

#include <errno.h>
#include <sys/time.h>
#include <unistd.h>

int ask_connect(const char *socket_path)
{
    struct sockaddr_un address;
    struct timeval patience = {.tv_sec = WIRE_TOOL_SECONDS};
    int result;
    if (!wire_address(&address, socket_path)) {
        errno = ENAMETOOLONG;
        return -1;
    }
    int connection = socket(AF_UNIX, SOCK_STREAM | SOCK_CLOEXEC, 0);
    if (connection < 0)
        return -1;
    setsockopt(connection, SOL_SOCKET, SO_SNDTIMEO, &patience, sizeof patience);
    do
        result = connect(connection, (struct sockaddr *)&address, sizeof address);
    while (result != 0 && errno == EINTR);
    if (result == 0)
        return connection;
    close(connection);
    errno = ENXIO;
    return -1;
}

static int send_request(struct wire *wire, const struct ask *ask)
{
    uint8_t head[WIRE_REQUEST_BYTES];
    wire_store_request(head, &ask->request);
    return wire_send(wire, head, sizeof head) &&
           wire_send(wire, ask->cdb, ask->request.cdb_bytes) &&
           wire_send(wire, ask->data_out, ask->request.data_out_bytes);
}

static enum ask_outcome receive_reply(struct wire *wire, struct ask *ask)
{
    uint8_t head[WIRE_REPLY_BYTES];
    if (!wire_receive(wire, head, sizeof head))
        return ASK_UNANSWERED;
    if (!wire_load_reply(head, &ask->reply) ||
        ask->reply.returned > ask->request.data_in_bytes)
        return ASK_NO_REPLY;
    if (!wire_receive(wire, ask->sense, ask->reply.sense_bytes) ||
        !wire_receive(wire, ask->data_in, ask->reply.returned))
        return ASK_UNANSWERED;
    return ASK_ANSWERED;
}

enum ask_outcome ask_server(const char *socket_path, struct ask *ask)
{
    struct wire wire;
    int connection = ask_connect(socket_path);
    if (connection < 0)
        return ASK_NO_SERVER;
    wire_begin(&wire, connection, WIRE_TOOL_SECONDS);
    enum ask_outcome outcome =
        send_request(&wire, ask) ? receive_reply(&wire, ask) : ASK_NOT_SENT;
    close(connection);
    return outcome;
}

static enum ask_outcome exchange_room(struct wire *wire, struct wire_room *room)
{
    uint8_t request[WIRE_REQUEST_BYTES], reply[WIRE_ROOM_BYTES];
    wire_store_room_request(request);
    if (!wire_send(wire, request, sizeof request))
        return ASK_NOT_SENT;
    if (!wire_receive(wire, reply, sizeof reply))
        return ASK_UNANSWERED;
    return wire_load_room(reply, room) ? ASK_ANSWERED : ASK_NO_REPLY;
}

enum ask_outcome ask_room(const char *socket_path, struct wire_room *room)
{
    struct wire wire;
    int connection = ask_connect(socket_path);
    if (connection < 0)
        return ASK_NO_SERVER;
    wire_begin(&wire, connection, WIRE_TOOL_SECONDS);
    enum ask_outcome outcome = exchange_room(&wire, room);
    close(connection);
    return outcome;
}
