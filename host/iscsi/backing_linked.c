/* The store in the target's own process (backing.h). The place is a file with the
   words of the server's command line, one a line (host/serve/server.c): what is
   held, kept and told is the same, and so is its door for tools/room. */
#define _GNU_SOURCE
#include "backing.h"

#include <errno.h>
#include <getopt.h>
#include <signal.h>
#include <stdio.h>
#include <stdlib.h>
#include <string.h>

#include "door.h"
#include "fail.h"
#include "holding.h"
#include "options.h"

enum { WORDS_MOST = 16 };

static struct options options;
static char *words[WORDS_MOST + 1];
static int word_count, door = -1;

/* The words stay allocated, since the options point into them. */
static int read_words(const char *place)
{
    static char program[] = "server";
    FILE *file = fopen(place, "r");
    size_t room = 0;
    ssize_t length;
    if (file == NULL)
        return fail(place, strerror(errno));
    words[0] = program;
    word_count = 1;
    while (word_count < WORDS_MOST &&
           (length = getline(&words[word_count], &room, file)) > 0) {
        words[word_count++][length - 1] = '\0';
        room = 0;
    }
    fclose(file);
    return 1;
}

int backing_begin(const char *place)
{
    setvbuf(stdout, NULL, _IOLBF, 0);
    /* An image that outgrows a limit is seen as a call that fails. */
    signal(SIGXFSZ, SIG_IGN);
    /* The target has read a command line of its own. */
    optind = 0;
    if (!read_words(place) || !options_read(&options, word_count, words) ||
        !holding_begin(&options))
        return 0;
    door = door_open(options.socket);
    if (door >= 0) {
        holding_tell_ready();
        return 1;
    }
    holding_end();
    return 0;
}

void backing_end(void)
{
    door_close();
    holding_tell_counts();
    holding_end();
}

enum backing_outcome backing_execute(struct store_call *call, uint64_t *answer)
{
    if (!holding_execute(call, answer))
        return BACKING_ENDED;
    holding_tell(call, *answer);
    return BACKING_ANSWERED;
}

int backing_door(void)
{
    return door;
}

void backing_serve_door(void)
{
    door_serve(door, NULL, NULL);
}
