/* A lock by a file (lock.h). */
#define _GNU_SOURCE
#include "lock.h"

#include <errno.h>
#include <fcntl.h>
#include <stdio.h>
#include <sys/file.h>
#include <sys/stat.h>
#include <unistd.h>

/* The file that was locked may have been removed by one who let go between our
   opening and locking it: then it guards nothing. */
static int is_the_one_named(const struct lock *lock)
{
    struct stat held, named;
    return fstat(lock->file, &held) == 0 &&
           fstatat(lock->directory, lock->name, &named,
                   AT_SYMLINK_NOFOLLOW) == 0 &&
           held.st_dev == named.st_dev && held.st_ino == named.st_ino;
}

static int fits(struct lock *lock, const char *name)
{
    int length = snprintf(lock->name, sizeof lock->name, "%s.lock", name);
    return length > 0 && (size_t)length < sizeof lock->name;
}

enum lock_outcome lock_take(struct lock *lock, int directory, const char *name)
{
    lock->directory = directory;
    if (!fits(lock, name)) {
        errno = ENAMETOOLONG;
        return LOCK_FAILED;
    }
    for (;;) {
        lock->file = openat(directory, lock->name,
                            O_RDWR | O_CREAT | O_CLOEXEC | O_NOFOLLOW, 0600);
        if (lock->file < 0)
            return LOCK_FAILED;
        if (flock(lock->file, LOCK_EX | LOCK_NB) != 0) {
            int why = errno;
            close(lock->file);
            errno = why;
            return why == EWOULDBLOCK ? LOCK_HELD_BY_ANOTHER : LOCK_FAILED;
        }
        if (is_the_one_named(lock))
            return LOCK_TAKEN;
        close(lock->file);
    }
}

void lock_let_go(struct lock *lock)
{
    unlinkat(lock->directory, lock->name, 0);
    close(lock->file);
}
