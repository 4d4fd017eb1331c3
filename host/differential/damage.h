/*
 * damage.h - stores with one thing wrong: a field of the record, an owner or
 * the marks, while all else is as in a valid store. A library that leaves out a
 * test, or looks at fewer bits of a field than it has, then answers otherwise.
 */

#ifndef DAMAGE_H
#define DAMAGE_H

#include "generate.h"

enum { DAMAGE_WAYS = 32 };

/* A store that is lent: what damage may change of it. */
struct lent {
    struct ridge_unit *unit;
    uint64_t *owners;
    size_t slots;
    struct ridge_marks *marks;
};

/* Does one thing to a valid store; returns the way that was taken, a number
   below DAMAGE_WAYS. */
size_t damage_store(struct random *random, const struct lent *lent);

const char *damage_name(size_t way);

/* Whether that way always leaves an invalid state. Some leave a valid one at
   times, which is as well. */
bool damage_is_invalid(size_t way);

#endif
