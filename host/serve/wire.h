/* The wire between those who ask (ask.c, for the preload library and for room.c)
   and the server that holds the store (server.c): a Unix stream socket, one
   connection per request, so that the server serves one at a time and no tool
   can hold the store by keeping a device open.

   Numbers are 4 bytes, most significant first.

   Request, from the tool:            Reply, from the server:
     0-3    RDGQ                        0-3    RDGA
     4-7    version of the wire         4-7    version of the wire
     8-11   nexus                       8-11   answer number
     12-15  CDB bytes                   12-15  sense bytes
     16-19  data-out bytes              16-19  returned bytes
     20-23  data-in bytes lent          20-    the sense, as the store left it
     24-    CDB, then data-out                 in zeros, then the returned
                                               bytes of data-in

   The room of the pool is no command, and no nexus asks for it, so it has a
   request and a reply of its own. Nothing that a SCSI tool sends becomes one:
   the preload library makes requests of the first kind alone.

   Request, from room.c:              Reply, from the server:
     0-3    RDGR                        0-3    RDGF
     4-7    version of the wire         4-7    version of the wire
     8-23   zeros                       8-11   answer number
                                        12-15  slots
                                        16-19  free slots
                                        20-23  the lowest free slot, or the
                                               slots where none is free

   The last two are 0 where the answer is not 0.

   A connection closed before a whole request asks nothing (opening a device
   only tries whether the server is there). A request of another kind or version
   or beyond the bounds below is closed without a reply. Whoever comes to know
   more of a command than this holds raises the version. */
#ifndef RIDGE_WIRE_H
#define RIDGE_WIRE_H

#include <signal.h>
#include <stddef.h>
#include <stdint.h>
#include <sys/socket.h>
#include <sys/un.h>
#include <time.h>

enum {
    WIRE_VERSION = 1,
    WIRE_REQUEST_BYTES = 24,
    WIRE_REPLY_BYTES = 20,
    WIRE_ROOM_BYTES = 24,
    WIRE_CDB_MOST = 260,
    WIRE_SENSE_MOST = 252,
    WIRE_DATA_MOST = 1 << 20,
    WIRE_SLOTS_MOST = 128,
    /* The server's patience for one request, from its connection to the last
       byte of the reply; a tool's is longer, since others may be before it. */
    WIRE_SERVER_SECONDS = 5,
    WIRE_TOOL_SECONDS = 30
};

/* The variable that holds the socket's path, for the tools. */
#define WIRE_SOCKET_VARIABLE "RIDGE_SOCKET"

struct wire_request {
    uint32_t nexus, cdb_bytes, data_out_bytes, data_in_bytes;
};

struct wire_reply {
    uint32_t answer, sense_bytes, returned;
};

struct wire_room {
    uint32_t answer, slots, free_slots, lowest_free;
};

/* One exchange: its connection, the moment its patience ends, and, where it has
   one, the flag that a signal sets to end it. Signals of `while_waiting` are
   let in only while waiting, so that none falls between test and wait. */
struct wire {
    int connection;
    struct timespec until;
    const sigset_t *while_waiting;
    const volatile sig_atomic_t *ended;
    size_t moved; /* bytes, in both directions */
};

void wire_begin(struct wire *wire, int connection, int seconds);

/* Both give 1 exactly if every byte went through in time. */
int wire_send(struct wire *wire, const uint8_t *bytes, size_t count);
int wire_receive(struct wire *wire, uint8_t *bytes, size_t count);

/* The heads. Loading gives 1 exactly if kind, version and bounds are right. */
void wire_store_request(uint8_t *head, const struct wire_request *request);
int wire_load_request(const uint8_t *head, struct wire_request *request);
void wire_store_reply(uint8_t *head, const struct wire_reply *reply);
int wire_load_reply(const uint8_t *head, struct wire_reply *reply);

/* The same of the room. Its request is as long as the head of a command, so that
   the server receives either before it knows which it is. A reply is right if
   some pool of its slots has that room. */
void wire_store_room_request(uint8_t *head);
int wire_is_room_request(const uint8_t *head);
void wire_store_room(uint8_t *head, const struct wire_room *room);
int wire_load_room(const uint8_t *head, struct wire_room *room);

/* Gives 1 exactly if the path fits a socket's address. */
int wire_address(struct sockaddr_un *address, const char *path);

#endif
