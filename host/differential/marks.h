/*
 * marks.h - what calls must have come to of Q-7 in a long run: room told of
 * pools of each size, empty, full and between, whatever the call before was
 * answered, and refused for each thing that can be wrong with a store; marks
 * set and cleared at the ends of both words by each command that does; marks
 * that are wrong in each way while all else of the store is right, alone and
 * where the call has a fault that is tested later; and what the marks were
 * before a fresh store.
 */

#ifndef MARKS_H
#define MARKS_H

#include "occasions.h"
#include "tables.h"

enum { MARK_TABLES = 17, MARK_CELLS = 64 };

extern const struct tables mark_tables;

struct mark_counts {
    uint64_t of[MARK_TABLES][MARK_CELLS];
};

/* Counts what the call came to. */
void marks_count(const struct occasion *call, struct mark_counts *counts);

/* A fresh store, asked for and made or refused; marks are those before. */
struct fresh_asked {
    uint64_t capacity;
    uint64_t format;
    size_t slots;
    const struct ridge_marks *marks;
};

void marks_count_fresh(const struct fresh_asked *asked,
                       struct mark_counts *counts);

#endif
