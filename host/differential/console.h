/*
 * console.h - what a test program and whoever runs it say to each other: how
 * many calls, from which seed, how far a long run is, and what a store holds.
 */

#ifndef CONSOLE_H
#define CONSOLE_H

#include <stddef.h>
#include <stdint.h>
#include <time.h>

#include "../include/ridge.h"

/*
 * The number that the word writes in decimal digits, nothing beside them. Any
 * other word (a sign, a letter, 2^64 or more, below `least`) is named on
 * standard error and ends the program with exit status 2: a test that quietly
 * took another number than it was given would pass for more than it is.
 */
uint64_t console_number(const char *name, const char *word, uint64_t least);

/* The seed in the word; a new one, different from run to run, if it is NULL. */
uint64_t console_seed(const char *word);

/* How far a run is. `done` and `total` count in the unit named. */
struct progress {
    const char *program;
    const char *unit;
    uint64_t total;
    time_t told;
};

struct progress console_progress(const char *program, const char *unit,
                                 uint64_t total);

/* Says on standard error how far the run is, once in a few seconds. */
void console_tell(struct progress *progress, uint64_t done);

/* Prints a store's format, record, owners and marks, numbers in hex; of the
   marks the first word first, its highest bit on the left. */
void console_store(uint64_t format, const struct ridge_unit *unit,
                   const uint64_t *owners, size_t slots,
                   const struct ridge_marks *marks);

#endif
