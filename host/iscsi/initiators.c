/* Which nexus an initiator is (initiators.h). */
#include "initiators.h"

#include <errno.h>
#include <stdio.h>
#include <stdlib.h>
#include <string.h>

#include "fail.h"
#include "ridge.h"

enum { LISTED_MOST = 256 };

/* Of one without a number the nexus is RIDGE_NEXUSES. */
static struct {
    char name[INITIATOR_NAME_MOST + 1];
    uint64_t nexus;
} listed[LISTED_MOST];
static size_t listed_count;

/* A line is `number name` or `- name`. */
static int take_line(const char *number, const char *name)
{
    if (listed_count == LISTED_MOST)
        return 0;
    strcpy(listed[listed_count].name, name);
    listed[listed_count].nexus =
        strcmp(number, "-") == 0 ? RIDGE_NEXUSES : strtoul(number, NULL, 10);
    return listed[listed_count++].nexus <= RIDGE_NEXUSES;
}

int initiators_read(const char *path)
{
    char number[3], name[INITIATOR_NAME_MOST + 1];
    FILE *file = fopen(path, "r");
    int whole = 1;
    if (file == NULL)
        return fail(path, strerror(errno));
    listed_count = 0;
    while (whole && fscanf(file, "%2s %223s", number, name) == 2)
        whole = take_line(number, name);
    whole = whole && feof(file) && listed_count > 0;
    fclose(file);
    return whole || fail(path, "it is no table of initiators");
}

enum initiator_standing initiator_find(const char *name, uint64_t *nexus)
{
    for (size_t i = 0; i < listed_count; i++) {
        if (strcmp(listed[i].name, name) != 0)
            continue;
        *nexus = listed[i].nexus;
        return *nexus < RIDGE_NEXUSES ? INITIATOR_ADMITTED
                                      : INITIATOR_WITHOUT_NUMBER;
    }
    return INITIATOR_NOT_LISTED;
}
