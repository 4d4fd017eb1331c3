/* How a server says why something does not go: a line on standard error. It
   gives 0, so that whoever fails can return it. */
#ifndef RIDGE_FAIL_H
#define RIDGE_FAIL_H

#include <stdio.h>

static inline int fail(const char *what, const char *why)
{
    fprintf(stderr, "server: %s: %s\n", what, why);
    return 0;
}

#endif
