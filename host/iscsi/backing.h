/* Who answers for the module: the store itself, linked into it
   (backing_linked.c, on x86-64), or a server that holds the store
   (backing_served.c, on any machine). */
#ifndef RIDGE_BACKING_H
#define RIDGE_BACKING_H

#include "store.h"

enum backing_outcome {
    BACKING_ANSWERED,
    BACKING_SILENT, /* no answer: the command may have been done or not */
    BACKING_ENDED   /* the same, and there will be none any more */
};

/* `place` is what the target's administrator named as the backing store. Gives
   1, or 0 after it has said what is wrong. */
int backing_begin(const char *place);
void backing_end(void);

enum backing_outcome backing_execute(struct store_call *call, uint64_t *answer);

/* The file to watch for those who ask the store itself for its room, and what to
   do when one comes; -1 where that is not this process' concern. */
int backing_door(void);
void backing_serve_door(void);

#endif
