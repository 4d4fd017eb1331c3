/* A lock that one process at a time holds, by a file NAME.lock beside what it
   guards. It ends with the process, however that ends; a lock file that a
   killed process leaves behind holds nobody up. */
#ifndef RIDGE_LOCK_H
#define RIDGE_LOCK_H

#include <limits.h>

struct lock {
    int file, directory;
    char name[PATH_MAX];
};

enum lock_outcome { LOCK_TAKEN, LOCK_HELD_BY_ANOTHER, LOCK_FAILED };

/* Takes the lock on a name in a directory, or AT_FDCWD and a path. errno tells
   why it failed. */
enum lock_outcome lock_take(struct lock *lock, int directory, const char *name);

/* Removes the lock's file and lets go. */
void lock_let_go(struct lock *lock);

#endif
