/* One command asked of a server, or its room: the tools' side of the wire. */
#ifndef RIDGE_ASK_H
#define RIDGE_ASK_H

#include "wire.h"

/* A command, the room lent to it, and what came of it. Only the returned bytes
   of data_in are written, as the store promises. */
struct ask {
    struct wire_request request;
    const uint8_t *cdb, *data_out;
    uint8_t *data_in;
    struct wire_reply reply;
    uint8_t sense[WIRE_SENSE_MOST];
};

enum ask_outcome {
    ASK_ANSWERED,
    ASK_NO_SERVER,  /* errno tells why */
    ASK_NOT_SENT,   /* not every byte went out: it cannot have been done */
    ASK_UNANSWERED, /* it may have been done or not */
    ASK_NO_REPLY    /* what came back is no reply */
};

/* Gives a connection to the server at this socket, or -1 and errno. */
int ask_connect(const char *socket_path);

enum ask_outcome ask_server(const char *socket_path, struct ask *ask);

/* Asking for the room changes nothing, whatever came of it. */
enum ask_outcome ask_room(const char *socket_path, struct wire_room *room);

#endif
