/* The image: a file that holds a store between servers.

     0-7    RIDGEIMG
     8-11   version of this format, 1
     12-15  layout of the store's bytes (store.c)
     16-23  bytes of the store
     24-    the store
     last 8 a checksum of all before it: CRC-64, as in the xz format

   Numbers are most significant byte first. A file is never changed: the next
   image is written whole beside it (NAME.new), synced, and takes its name; then
   the directory is synced. So the name is at every moment that of a whole
   image, the one before a call or the one after. Whoever holds the image has
   the lock NAME.lock, and NAME.new is his alone. */
#ifndef RIDGE_IMAGE_H
#define RIDGE_IMAGE_H

#include <limits.h>

#include "lock.h"
#include "store.h"

struct image {
    int directory;
    char name[NAME_MAX + 1], next[NAME_MAX + 1];
    struct lock lock;
    /* Why the last step failed, for a person. */
    char reason[256];
};

enum image_outcome { IMAGE_DONE, IMAGE_ABSENT, IMAGE_FAILED };

/* Takes hold of a path. Gives 1 exactly if it is held; image_let_go ends it. */
int image_hold(struct image *image, const char *path);
void image_let_go(struct image *image);

/* Reads the store of an image that is held. A damaged one is not touched. */
enum image_outcome image_load(struct image *image, struct store *store);

/* Puts the store in the place of the image. Gives 1 exactly if it is there for
   good; otherwise the image is the one before or this one. */
int image_replace(struct image *image, const struct store *store);

/* Reads an image that another process may hold. */
enum image_outcome image_read(struct image *image, const char *path,
                              struct store *store);

#endif
