/* Which nexus an initiator is. The table that number_initiators writes is read
   once; iSCSI names are compared byte for byte. */
#ifndef RIDGE_INITIATORS_H
#define RIDGE_INITIATORS_H

#include <stddef.h>
#include <stdint.h>

enum { INITIATOR_NAME_MOST = 223 };

enum initiator_standing {
    INITIATOR_ADMITTED,
    INITIATOR_NOT_LISTED,
    INITIATOR_WITHOUT_NUMBER /* it is listed, and all numbers are given */
};

/* Gives 1, or 0 after it has said what is wrong. */
int initiators_read(const char *path);

/* The nexus number is told of an admitted one alone. */
enum initiator_standing initiator_find(const char *name, uint64_t *nexus);

#endif
