/* What the server is told on its command line. */
#ifndef RIDGE_OPTIONS_H
#define RIDGE_OPTIONS_H

#include <stdint.h>

struct options {
    const char *socket, *image;
    uint64_t capacity, slots, format; /* 0 where none is named */
    int verbose;
    int until_input_ends;
};

/* Gives 1, or 0 after it has said what is wrong. */
int options_read(struct options *options, int count, char **words);

#endif
