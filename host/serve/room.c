/* Asks the server at the socket that RIDGE_SOCKET names how much room its pool
   has (tools/room sets it), and prints one line:

     124 of 128 slots free, the lowest is slot 4

   Its first word is the number of free slots, for a script. Where none is free
   the line ends before the comma. The room is no SCSI command and goes by no
   device: it is for whoever serves the store, not for a nexus (wire.h).

   Ends with 0 exactly if the room was told; else it says why not. */
#define _GNU_SOURCE
#include <errno.h>
#include <stdio.h>
#include <stdlib.h>
#include <string.h>

#include "ask.h"

static int fail(const char *path, const char *why)
{
    fprintf(stderr, "room: %s: %s\n", path, why);
    return 1;
}

static int tell(const char *path, const struct wire_room *room)
{
    if (room->answer != 0) {
        fprintf(stderr, "room: %s: its store is not in a valid state "
                "(answer %u)\n", path, room->answer);
        return 1;
    }
    printf("%u of %u slots free", room->free_slots, room->slots);
    if (room->free_slots > 0)
        printf(", the lowest is slot %u", room->lowest_free);
    puts("");
    return fflush(stdout) == 0 ? 0 : fail("standard output", strerror(errno));
}

int main(int count, char **words)
{
    struct wire_room room;
    const char *path = getenv(WIRE_SOCKET_VARIABLE);
    (void)words;
    if (count != 1 || path == NULL) {
        fputs("usage: " WIRE_SOCKET_VARIABLE "=PATH room\n", stderr);
        return 2;
    }
    switch (ask_room(path, &room)) {
    case ASK_ANSWERED:
        return tell(path, &room);
    case ASK_NO_SERVER:
        return fail(path, errno == ENXIO ? "no server answers here"
                                         : strerror(errno));
    case ASK_NO_REPLY:
        return fail(path, "what came back is not the room of a pool");
    default:
        return fail(path, "the server told no room; those before version 5.0.0 "
                          "cannot");
    }
}
