/*
 * occasions.h - what calls must have come to in a long run: each rule of Q-1
 * and Q-2 (WRITE SAME, GET LBA STATUS, INQUIRY), each refusal by its own cause
 * alone, and the near misses on both sides; for Q-4 each field by itself and
 * every set of fields that can be wrong at once; for Q-8 in each format each
 * answer, each address that an answer may have to tell, which descriptor of an
 * UNMAP fails, how long the sense buffer is and what it held before, and the
 * numbers that are no format. A rule that no call came near was not tried.
 * Those of Q-6 are in attentions.h, those of Q-7 in marks.h.
 */

#ifndef OCCASIONS_H
#define OCCASIONS_H

#include "generate.h"

enum { OCCASIONS = 543 };

/* A call and its answer; unit, owners, marks and sense are those from before
   it. It is sound if at its start only format or sense can make it unusable,
   and sized if slots and medium are as long as the store's. `without` is the
   answer to the same call without what came in its way: after an answer 13,
   where nothing waits for the sender; where the marks alone of all that the
   store has are wrong, with those that are right. Room, if it was asked for, is
   what was told of the store as the call left it. */
struct occasion {
    uint64_t format;
    bool sound;
    bool sized;
    bool marks_wrong; /* and nothing else of the store */
    const struct ridge_unit *unit;
    const struct ridge_unit *after;
    const uint64_t *owners;
    const uint64_t *owners_after;
    size_t slots;
    const struct ridge_marks *marks;
    const struct ridge_marks *marks_after;
    size_t medium_bytes;
    uint64_t nexus;
    const uint8_t *cdb;
    size_t cdb_bytes;
    const uint8_t *data_out;
    size_t data_out_bytes;
    const uint8_t *data_in;
    size_t data_in_bytes;
    const uint8_t *sense;
    size_t sense_bytes;
    uint64_t answer;
    uint64_t without;
    uint64_t returned;
    bool asked;
    uint64_t room;
    uint64_t free_slots;
    uint64_t lowest_free;
};

/* Counts what the call came to. */
void occasions_count(const struct occasion *call, uint64_t counts[OCCASIONS]);

/* Counts the making of a fresh store, by its format and the answer. */
void occasions_count_fresh(uint64_t format, uint64_t answer,
                           uint64_t counts[OCCASIONS]);

const char *occasion_name(size_t occasion);

#endif
