/* The sessions of the test through iSCSI (through.c): one for each nexus, and
   some for what else an initiator may be. None sends a command that was not
   ordered. */
#ifndef RIDGE_SESSIONS_H
#define RIDGE_SESSIONS_H

#include <stdbool.h>

#include "carried.h"

/* A session below SESSION_TWIN is the nexus of its number; those behind it are
   none. */
enum {
    SESSION_TWIN = RIDGE_NEXUSES, /* another under the name of TWIN_NEXUS */
    SESSION_WITHOUT_NUMBER,       /* listed, behind sixteen others */
    SESSION_NOT_LISTED,           /* as the last nexus, but for a byte */
    SESSION_TOO_LONG,             /* as the last nexus, and a byte more */
    SESSION_PARTED,               /* as the first nexus, a blank, and more */
    SESSIONS,
    TWIN_NEXUS = 3
};

/* Prints the names that the target must list, a line each, in this order. */
void sessions_print_names(void);

/* Gives true, or false after it has said what is wrong. */
bool sessions_begin(const char *url);
void sessions_end(void);

/* Sends a command and waits for its end. Gives false, after it has said why, if
   there was none: what came is then not known. With `refused`, where no data-in
   is due, every byte that comes all the same is counted; libiscsi itself drops
   data-in before a status other than GOOD. */
bool session_send(size_t session, const struct order *order, bool refused,
                  struct outcome *outcome);

#endif
