/* The store as a logical unit of Debian's iSCSI target, tgtd: a backing store
   "sgridge" whose device type is pt (passthrough). Every command of the unit goes
   to the store as it came, and what that leaves goes back; none of tgtd's own
   SCSI runs for it. (tgtd lets pt have backing stores whose names begin with sg,
   hence this one's.)

   It is preloaded into tgtd (LD_PRELOAD), which needs no folder of tgtd's own
   and leaves an installed tgtd as it is; put into tgtd's folder of modules it is
   found there as well. What it needs to know stands in the environment:

     RIDGE_INITIATORS        the table of number_initiators
     RIDGE_SECRET            a file with a user and a secret for CHAP, a line each;
                             none where it is not set
     RIDGE_UNTIL_INPUT_ENDS  if set, tgtd ends when its standard input does

   and what backs the unit is the --backing-store of tgtadm (backing.h).

   The store has one thread, and so has tgtd for it: a command is done when the
   next is looked at. Two sessions of one initiator name are one nexus, since the
   name is all that tgtd tells. */
#define _GNU_SOURCE
#include <errno.h>
#include <inttypes.h>
#include <stdio.h>
#include <stdlib.h>
#include <string.h>
#include <sys/epoll.h>
#include <unistd.h>

#include <list.h>
#include <util.h>
#include <tgtd.h>
#include <scsi.h>
#include <target.h>
#include <tgtadm.h>

#include "backing.h"
#include "fail.h"
#include "initiators.h"
#include "secret.h"
#include "transfer.h"

enum {
    /* More the store neither takes nor returns, whatever a command asks for. */
    DATA_MOST = RIDGE_TRANSFER_BLOCKS * RIDGE_BLOCK_BYTES,
    /* Additional sense codes that tgtd has no name for. */
    INVALID_FIELD_IN_INFORMATION_UNIT = 0x0E03,
    ACCESS_DENIED_NO_ACCESS_RIGHTS = 0x2002,
    INSUFFICIENT_RESOURCES = 0x5503
};

static uint8_t data_in[DATA_MOST], no_data[1];

/* ---- who asks ---- */

/* A line "Initiator: NAME alias: ALIAS" is all that tgtd tells of a session, and
   it takes any name. Where the alias does not follow, the name is longer than one
   may be or has a blank, and what was read is the beginning of it. */
static int name_of(const struct it_nexus *nexus, char *name)
{
    static const char behind[] = " alias: ";
    int end = 0;
    _Static_assert(INITIATOR_NAME_MOST == 223, "the width of the conversion");
    return nexus->info != NULL &&
           sscanf(nexus->info, " Initiator: %223s%n", name, &end) == 1 &&
           strncmp(nexus->info + end, behind, sizeof behind - 1) == 0;
}

/* Said once for each that comes after another. */
static void tell_refused(const char *name, enum initiator_standing standing)
{
    static char last[INITIATOR_NAME_MOST + 1];
    if (strcmp(last, name) == 0)
        return;
    strcpy(last, name);
    fail(name, standing == INITIATOR_NOT_LISTED
                   ? "not in the list of initiators; its commands are refused"
                   : "all nexus numbers are given; its commands are refused");
}

/* ---- one command ---- */

static int check_condition(struct scsi_cmd *command, uint8_t key, uint16_t codes)
{
    sense_data_build(command, key, codes);
    return SAM_STAT_CHECK_CONDITION;
}

/* Answers 11 and 12 have no status of SCSI's, since they are the transport's
   mistake: 12 says that fewer bytes came than the command asks for. */
static int status_of(struct scsi_cmd *command, const struct store_call *call,
                     uint64_t answer)
{
    switch (answer) {
    case RIDGE_GOOD:
        return SAM_STAT_GOOD;
    case RIDGE_CONFLICT:
        return SAM_STAT_RESERVATION_CONFLICT;
    case RIDGE_UNUSABLE:
        return check_condition(command, HARDWARE_ERROR, ASC_INTERNAL_TGT_FAILURE);
    case RIDGE_BUFFER_SHORT:
        return check_condition(command, ILLEGAL_REQUEST,
                               INVALID_FIELD_IN_INFORMATION_UNIT);
    default:
        memcpy(command->sense_buffer, call->sense, call->sense_bytes);
        command->sense_len = (int)call->sense_bytes;
        return SAM_STAT_CHECK_CONDITION;
    }
}

static struct store_call call_of(struct scsi_cmd *command, uint64_t nexus)
{
    uint32_t sent = scsi_get_out_length(command);
    return (struct store_call){
        .nexus = nexus,
        .cdb = command->scb,
        .cdb_bytes = transfer_cdb_bytes(command->scb, (size_t)command->scb_len),
        .data_out = sent == 0 ? no_data : scsi_get_out_buffer(command),
        .data_out_bytes = sent < DATA_MOST ? sent : DATA_MOST,
        .data_in = data_in,
        .data_in_bytes = sizeof data_in};
}

/* What was moved, beside what the initiator expected: the residual counts. A
   command that is refused moves nothing; of one that sent too little the count
   says how much is missing. */
static void count_moved(struct scsi_cmd *command, uint64_t answer,
                        uint64_t returned)
{
    uint32_t room = scsi_get_in_length(command);
    int asks = answer == RIDGE_GOOD || answer == RIDGE_BUFFER_SHORT;
    if (scsi_get_in_buffer(command) != NULL)
        memcpy(scsi_get_in_buffer(command), data_in,
               returned < room ? returned : room);
    scsi_set_in_resid_by_actual(command, (uint32_t)returned);
    scsi_set_out_resid_by_actual(
        command,
        asks ? (uint32_t)transfer_data_out_bytes(command->scb) : 0);
}

static int execute(struct scsi_cmd *command, uint64_t nexus)
{
    struct store_call call = call_of(command, nexus);
    uint64_t answer = RIDGE_UNUSABLE;
    switch (backing_execute(&call, &answer)) {
    case BACKING_ANSWERED:
        break;
    case BACKING_ENDED:
        /* Nobody may be told more, so the sessions end without an answer. */
        backing_end();
        exit(1);
    default:
        call.returned = 0;
        answer = RIDGE_UNUSABLE;
    }
    count_moved(command, answer, call.returned);
    return status_of(command, &call, answer);
}

static int serve_command(int target, struct scsi_cmd *command)
{
    char name[INITIATOR_NAME_MOST + 1] = "";
    uint64_t nexus;
    (void)target;
    enum initiator_standing standing = INITIATOR_NOT_LISTED;
    if (name_of(command->it_nexus, name))
        standing = initiator_find(name, &nexus);
    if (standing == INITIATOR_ADMITTED)
        return execute(command, nexus);
    tell_refused(name, standing);
    count_moved(command, RIDGE_UNUSABLE, 0);
    return check_condition(command, ILLEGAL_REQUEST,
                           standing == INITIATOR_NOT_LISTED
                               ? ACCESS_DENIED_NO_ACCESS_RIGHTS
                               : INSUFFICIENT_RESOURCES);
}

/* ---- the unit ---- */

static void end_with_input(int file, int events, void *nothing)
{
    char ignored[256];
    (void)events, (void)nothing;
    if (read(file, ignored, sizeof ignored) > 0)
        return;
    tgt_event_del(file);
    backing_end();
    system_active = 0;
}

static void serve_door(int file, int events, void *nothing)
{
    (void)file, (void)events, (void)nothing;
    backing_serve_door();
}

static int watch(void)
{
    if (backing_door() >= 0 &&
        tgt_event_add(backing_door(), EPOLLIN, serve_door, NULL) != 0)
        return fail("the store's socket", "cannot be watched");
    if (getenv("RIDGE_UNTIL_INPUT_ENDS") != NULL &&
        tgt_event_add(STDIN_FILENO, EPOLLIN, end_with_input, NULL) != 0)
        return fail("standard input", "cannot be watched");
    return 1;
}

/* From here on only who knows the secret may log in. The administrator's tool
   would want it on its command line, where others can read it. */
static int want_secret(int target)
{
    struct secret secret;
    const char *path = getenv("RIDGE_SECRET");
    if (path == NULL)
        return 1;
    if (!secret_read(path, &secret))
        return 0;
    return (account_add(secret.user, secret.word) == TGTADM_SUCCESS &&
            account_ctl(target, ACCOUNT_TYPE_INCOMING, secret.user, 1) ==
                TGTADM_SUCCESS) ||
           fail(path, "the target does not take it");
}

/* One process holds one store, so there is one unit. */
static int open_unit(struct scsi_lu *unit, char *place, int *file, uint64_t *size)
{
    static int opened;
    const char *table = getenv("RIDGE_INITIATORS");
    *file = -1;
    *size = 0;
    if (opened)
        return fail(place, "this target has a store already"), -EBUSY;
    if (table == NULL)
        return fail("RIDGE_INITIATORS", "not set"), -EINVAL;
    if (!initiators_read(table) || !want_secret(unit->tgt->tid) ||
        !backing_begin(place))
        return -EINVAL;
    opened = 1;
    if (watch())
        return 0;
    backing_end();
    return -EINVAL;
}

static void close_unit(struct scsi_lu *unit)
{
    (void)unit;
}

static tgtadm_err prepare_unit(struct scsi_lu *unit, char *options)
{
    (void)options;
    unit->cmd_perform = target_cmd_perform_passthrough;
    unit->cmd_done = __cmd_done_passthrough;
    unit->dev_type_template.cmd_passthrough = serve_command;
    return TGTADM_SUCCESS;
}

static struct backingstore_template store_template = {
    .bs_name = "sgridge",
    .bs_open = open_unit,
    .bs_close = close_unit,
    .bs_init = prepare_unit,
};

/* tgtd calls this where it finds the module itself. */
__attribute__((visibility("default"))) void register_bs_module(void)
{
    if (get_backingstore_template(store_template.bs_name) == NULL)
        register_backingstore_template(&store_template);
}

__attribute__((constructor)) static void register_when_loaded(void)
{
    register_bs_module();
}
