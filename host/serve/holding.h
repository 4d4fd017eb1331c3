/* The store that a process holds, for whoever asks it: the server's door
   (door.h), or the module of an iSCSI target (host/iscsi). It is fresh, or that
   of an image (image.h); what a command changes is then in the image, synced,
   before the command may be answered. One process holds one store.

   Where the image cannot be written nobody may be told of the command, and the
   process is to end: what is on the disk is then the store before the command
   or after it. */
#ifndef RIDGE_HOLDING_H
#define RIDGE_HOLDING_H

#include "options.h"
#include "store.h"

/* Takes hold of the store that the options name, which are kept. Gives 1, or 0
   after it has said why not. */
int holding_begin(const struct options *options);
void holding_end(void);

/* Gives 1 and the answer, or 0 where the command may not be answered. */
int holding_execute(struct store_call *call, uint64_t *answer);

/* Gives the answer number, and the slots in any case. The store stays as it
   is, so there is nothing to keep. */
uint64_t holding_room(struct store_room *room, size_t *slots);

/* Gives 1 once the image could not be written. */
int holding_has_failed(void);

/* What it tells a person: that it can be asked, a command once it is answered,
   the room, and in the end what was served. A request broken off is counted. */
void holding_tell_ready(void);
void holding_tell(const struct store_call *call, uint64_t answer);
void holding_tell_room(uint64_t answer, const struct store_room *room);
void holding_tell_counts(void);
void holding_count_broken_off(void);

#endif
