/*
 * attentions.h - what Q-6 says of calls, and what calls must have come to of it
 * in a long run: each attention told to each nexus, by each command and in each
 * place of the order; each call that leaves one waiting; each action that lets
 * others know of it under each type, to one, to several or to nobody, whatever
 * waits for them already; and the numbers that are no attention.
 */

#ifndef ATTENTIONS_H
#define ATTENTIONS_H

#include "occasions.h"
#include "tables.h"

enum { ATTENTION_TABLES = 30, ATTENTION_CELLS = 64 };

extern const struct tables attention_tables;

struct attention_counts {
    uint64_t of[ATTENTION_TABLES][ATTENTION_CELLS];
};

/* What must wait for a nexus after a call on a valid state. It goes by what the
   call did to the registrations and to the reservation, so that it holds a
   library to its own doings. */
uint8_t attention_due(const struct occasion *call, uint64_t nexus);

/* Whether a call that was answered neither 1 nor 11 must be answered 13. */
bool attention_is_due(const struct occasion *call);

/* Counts what the call came to. */
void attentions_count(const struct occasion *call,
                      struct attention_counts *counts);

#endif
