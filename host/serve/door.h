/* The door of a store: a Unix socket at which the tools ask (wire.h), one request
   to a connection, for the store that this process holds (holding.h). Every
   command goes to the store as it came, and what that leaves goes back. */
#ifndef RIDGE_DOOR_H
#define RIDGE_DOOR_H

#include <signal.h>

/* Gives the listening socket, or -1 after it has said what is wrong. The path is
   kept; door_close removes it. */
int door_open(const char *path);
void door_close(void);

/* Serves one who waits at the door, if there is one. A signal of `while_waiting`
   may set the flag `ended`, which breaks the request off; both may be NULL. */
void door_serve(int listener, const sigset_t *while_waiting,
                const volatile sig_atomic_t *ended);

#endif
