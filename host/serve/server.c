/* The process that holds the store for SCSI tools, behind a Unix socket
   (wire.h).

     server --socket PATH [--capacity BLOCKS] [--slots NUMBER]
            [--sense fixed|descriptor] [--image FILE] [--verbose 0|1|2]
            [--until-input-ends]

   It prints a line that begins with `ready` once it can be asked, serves one
   request at a time and ends at SIGTERM, SIGINT or SIGHUP, also in the middle
   of a request; with --until-input-ends also when its standard input closes, so
   that it never outlives the script that started it. It then removes its socket
   and says what it served. It decides nothing: the store that it holds does
   (holding.h), and its door passes on what goes in and out (door.h). Where what
   a command changed cannot be kept it gives no answer and ends. */
#define _GNU_SOURCE
#include <poll.h>
#include <signal.h>
#include <stdio.h>
#include <unistd.h>

#include "door.h"
#include "holding.h"
#include "options.h"

static struct options options;
static sigset_t while_waiting;
static volatile sig_atomic_t told_to_end;

static void end_when_told(int signal_number)
{
    (void)signal_number;
    told_to_end = 1;
}

/* Standard input is never read for its bytes: only its end counts. */
static int input_has_ended(const struct pollfd *input)
{
    char ignored[256];
    return input->revents != 0 && read(input->fd, ignored, sizeof ignored) <= 0;
}

/* Signals are let in only while waiting, so none is missed between the test
   of the flag and the wait. A file of -1 is not watched. */
static void serve_until_told(int listener)
{
    struct pollfd watched[2] = {
        {.fd = options.until_input_ends ? STDIN_FILENO : -1, .events = POLLIN},
        {.fd = listener, .events = POLLIN}};
    while (!told_to_end && !holding_has_failed()) {
        watched[0].revents = watched[1].revents = 0;
        if (ppoll(watched, 2, NULL, &while_waiting) < 0)
            continue;
        if (input_has_ended(&watched[0]))
            return;
        if (watched[1].revents != 0)
            door_serve(listener, &while_waiting, &told_to_end);
    }
}

/* A reader of our output that has gone, or an image that outgrows a limit, is
   seen as a call that fails, not as a signal. */
static void arrange_signals(void)
{
    static const int ending[] = {SIGTERM, SIGINT, SIGHUP};
    struct sigaction action = {.sa_handler = end_when_told};
    sigset_t blocked;
    sigemptyset(&blocked);
    for (size_t i = 0; i < sizeof ending / sizeof ending[0]; i++) {
        sigaction(ending[i], &action, NULL);
        sigaddset(&blocked, ending[i]);
    }
    sigprocmask(SIG_BLOCK, &blocked, &while_waiting);
    for (size_t i = 0; i < sizeof ending / sizeof ending[0]; i++)
        sigdelset(&while_waiting, ending[i]);
    signal(SIGPIPE, SIG_IGN);
    signal(SIGXFSZ, SIG_IGN);
}

static int serve_at_door(void)
{
    int listener = door_open(options.socket);
    if (listener < 0)
        return 0;
    holding_tell_ready();
    serve_until_told(listener);
    door_close();
    holding_tell_counts();
    return !holding_has_failed();
}

int main(int count, char **words)
{
    setvbuf(stdout, NULL, _IOLBF, 0);
    if (!options_read(&options, count, words))
        return 2;
    arrange_signals();
    if (!holding_begin(&options))
        return 1;
    int served = serve_at_door();
    holding_end();
    return served ? 0 : 1;
}
