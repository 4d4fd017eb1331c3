/* The sessions of the test through iSCSI (sessions.h), by Debian's libiscsi. It
   is built and run on the machine itself and links no proved library. */
#include "sessions.h"

#include <stdio.h>
#include <string.h>

#include <iscsi/iscsi.h>
#include <iscsi/scsi-lowlevel.h>

enum {
    NAME_MOST = 223,
    PATIENCE_SECONDS = 20,
    SENSE_LENGTH_BYTES = 2 /* which iSCSI puts before sense */
};

static struct iscsi_context *sessions[SESSIONS];
static int unit;
static uint8_t watched[DATA_ROOM], untouched[DATA_ROOM];

/* Of the nexuses and of the one without a number, each name is the beginning of
   the next, so that one taken for another by its beginning is seen; that of the
   last nexus is as long as a name may be. */
static const char *name_of(size_t session)
{
    static char name[NAME_MOST + 2];
    size_t begun = (size_t)snprintf(name, sizeof name, "iqn.2026-11.example:");
    bool long_one = session == RIDGE_NEXUS_LAST ||
                    session == SESSION_NOT_LISTED || session == SESSION_TOO_LONG;
    size_t bytes = long_one                    ? NAME_MOST
                   : session == SESSION_TWIN   ? begun + 1 + TWIN_NEXUS
                   : session == SESSION_PARTED ? begun + 1
                                               : begun + 1 + session;
    memset(name + begun, 'n', bytes - begun);
    strcpy(name + bytes, session == SESSION_TOO_LONG ? "n"
                         : session == SESSION_PARTED ? " n"
                                                     : "");
    if (session == SESSION_NOT_LISTED)
        name[bytes - 1] = 'm';
    return name;
}

void sessions_print_names(void)
{
    for (size_t session = 0; session < RIDGE_NEXUSES; session++)
        puts(name_of(session));
    puts(name_of(SESSION_WITHOUT_NUMBER));
}

/* ---- logging in ---- */

static bool fails(size_t session, const char *what)
{
    fprintf(stderr, "through: session %zu: %s: %s\n", session, what,
            sessions[session] == NULL ? "no memory"
                                      : iscsi_get_error(sessions[session]));
    return false;
}

/* Data-out goes with the command, behind it unasked, or when it is asked for:
   each of the four ways in a quarter of the sessions. Some have an alias, which
   says no more of them. Two sessions of one name must differ in their
   identifiers. */
static void settle(struct iscsi_context *context, size_t session)
{
    iscsi_set_session_type(context, ISCSI_SESSION_NORMAL);
    iscsi_set_isid_random(context, (uint32_t)session + 1, 0);
    iscsi_set_immediate_data(context, session & 1 ? ISCSI_IMMEDIATE_DATA_NO
                                                  : ISCSI_IMMEDIATE_DATA_YES);
    iscsi_set_initial_r2t(context, session & 2 ? ISCSI_INITIAL_R2T_YES
                                               : ISCSI_INITIAL_R2T_NO);
    if (session & 4)
        iscsi_set_alias(context, "Initiator: iqn.2026-11.example:n alias: n");
    iscsi_set_noautoreconnect(context, 1);
    iscsi_set_timeout(context, PATIENCE_SECONDS);
}

/* Not iscsi_full_connect_sync, which sends TEST UNIT READY by itself. */
static bool log_in(size_t session, const char *url)
{
    struct iscsi_context *context = iscsi_create_context(name_of(session));
    struct iscsi_url *parts;
    sessions[session] = context;
    if (context == NULL)
        return fails(session, "cannot be made");
    parts = iscsi_parse_full_url(context, url);
    if (parts == NULL)
        return fails(session, url);
    settle(context, session);
    unit = parts->lun;
    bool in = iscsi_set_targetname(context, parts->target) == 0 &&
              iscsi_connect_sync(context, parts->portal) == 0 &&
              iscsi_login_sync(context) == 0;
    iscsi_destroy_url(parts);
    return in || fails(session, "cannot log in");
}

bool sessions_begin(const char *url)
{
    struct random random = {1};
    random_fill(&random, untouched, sizeof untouched);
    for (size_t session = 0; session < SESSIONS; session++)
        if (!log_in(session, url))
            return false;
    return true;
}

void sessions_end(void)
{
    for (size_t session = 0; session < SESSIONS; session++) {
        if (sessions[session] == NULL)
            continue;
        if (iscsi_is_logged_in(sessions[session]))
            iscsi_logout_sync(sessions[session]);
        iscsi_destroy_context(sessions[session]);
    }
}

/* ---- one command ---- */

static struct scsi_task *task_of(const struct order *order)
{
    static const int directions[DIRECTIONS] = {
        [DIRECTION_NONE] = SCSI_XFER_NONE,
        [DIRECTION_IN] = SCSI_XFER_READ,
        [DIRECTION_OUT] = SCSI_XFER_WRITE};
    uint8_t cdb[CARRIED_CDB_BYTES];
    memcpy(cdb, order->cdb, sizeof cdb);
    return scsi_create_task(sizeof cdb, cdb, directions[order->direction],
                            (int)order->expected);
}

static bool take_data(const struct scsi_data *data, struct outcome *outcome)
{
    outcome->data_bytes = (size_t)data->size;
    if (outcome->data_bytes > sizeof outcome->data)
        return false;
    if (outcome->data_bytes > 0)
        memcpy(outcome->data, data->data, outcome->data_bytes);
    return true;
}

/* It comes behind its length and, as all that iSCSI carries, is filled up to four
   bytes. */
static bool take_sense(const struct scsi_data *data, struct outcome *outcome)
{
    size_t count = (size_t)data->size;
    if (count == 0)
        return true;
    if (count < SENSE_LENGTH_BYTES)
        return false;
    outcome->sense_bytes = (size_t)(data->data[0] << 8 | data->data[1]);
    if (outcome->sense_bytes > sizeof outcome->sense ||
        (SENSE_LENGTH_BYTES + outcome->sense_bytes + 3) / 4 * 4 != count)
        return false;
    memcpy(outcome->sense, data->data + SENSE_LENGTH_BYTES,
           outcome->sense_bytes);
    return true;
}

static bool take_bytes(const struct scsi_task *task, struct outcome *outcome)
{
    if (outcome->status == SCSI_STATUS_GOOD)
        return take_data(&task->datain, outcome);
    return outcome->status != SCSI_STATUS_CHECK_CONDITION ||
           take_sense(&task->datain, outcome);
}

static enum residual residual_of(const struct scsi_task *task)
{
    switch (task->residual_status) {
    case SCSI_RESIDUAL_NO_RESIDUAL:
        return RESIDUAL_NONE;
    case SCSI_RESIDUAL_UNDERFLOW:
        return RESIDUAL_UNDERFLOW;
    default:
        return RESIDUAL_OVERFLOW;
    }
}

/* How far data-in that was not due has come. */
static void count_watched(const struct order *order, struct outcome *outcome)
{
    for (size_t byte = order->expected; byte > 0; byte--) {
        if (watched[byte - 1] == untouched[byte - 1])
            continue;
        outcome->data_bytes = byte;
        memcpy(outcome->data, watched, byte);
        return;
    }
}

static bool take_outcome(size_t session, const struct scsi_task *task,
                         struct outcome *outcome)
{
    memset(outcome, 0, sizeof *outcome);
    outcome->status = (uint32_t)task->status;
    outcome->residual = residual_of(task);
    outcome->residual_bytes = task->residual;
    if (task->status > UINT8_MAX)
        return fails(session, "a command was not answered");
    return take_bytes(task, outcome) ||
           fails(session, "what came has another length than it says");
}

bool session_send(size_t session, const struct order *order, bool refused,
                  struct outcome *outcome)
{
    bool watches = refused && order->direction == DIRECTION_IN;
    struct scsi_task *task = task_of(order);
    struct iscsi_data out = {.size = order->expected,
                             .data = (unsigned char *)order->data_out};
    bool sends = order->direction == DIRECTION_OUT && order->expected > 0;
    if (task == NULL)
        return fails(session, "no memory");
    if (watches && order->expected > 0) {
        memcpy(watched, untouched, order->expected);
        scsi_task_add_data_in_buffer(task, (int)order->expected, watched);
    }
    bool done = iscsi_scsi_command_sync(sessions[session], unit, task,
                                        sends ? &out : NULL) != NULL
                    ? take_outcome(session, task, outcome)
                    : fails(session, "a command cannot be sent");
    if (done && watches)
        count_watched(order, outcome);
    scsi_free_scsi_task(task);
    return done;
}
