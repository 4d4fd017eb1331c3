/* The store behind a server (backing.h). The place is the server's socket. Each
   command is a request of its own (host/serve/ask.h), so that a server may be
   ended and started anew while the target runs. */
#define _GNU_SOURCE
#include "backing.h"

#include <errno.h>
#include <stdio.h>
#include <string.h>
#include <unistd.h>

#include "ask.h"
#include "fail.h"

static char socket_path[sizeof ((struct sockaddr_un *)0)->sun_path];

int backing_begin(const char *place)
{
    if (strlen(place) >= sizeof socket_path)
        return fail(place, strerror(ENAMETOOLONG));
    strcpy(socket_path, place);
    int connection = ask_connect(socket_path);
    if (connection < 0)
        return fail(place, "no server answers here");
    close(connection);
    return 1;
}

void backing_end(void)
{
}

static struct ask ask_of(const struct store_call *call)
{
    return (struct ask){
        .request = {.nexus = (uint32_t)call->nexus,
                    .cdb_bytes = (uint32_t)call->cdb_bytes,
                    .data_out_bytes = (uint32_t)call->data_out_bytes,
                    .data_in_bytes = (uint32_t)call->data_in_bytes},
        .cdb = call->cdb,
        .data_out = call->data_out,
        .data_in = call->data_in};
}

enum backing_outcome backing_execute(struct store_call *call, uint64_t *answer)
{
    struct ask ask = ask_of(call);
    if (ask_server(socket_path, &ask) != ASK_ANSWERED ||
        ask.reply.sense_bytes > sizeof call->sense) {
        fail(socket_path, "the server gave no answer");
        return BACKING_SILENT;
    }
    memcpy(call->sense, ask.sense, ask.reply.sense_bytes);
    call->sense_bytes = ask.reply.sense_bytes;
    call->returned = ask.reply.returned;
    *answer = ask.reply.answer;
    return BACKING_ANSWERED;
}

int backing_door(void)
{
    return -1;
}

void backing_serve_door(void)
{
}
