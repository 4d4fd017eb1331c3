/* SG_IO, in the form of version 3 (sg_io_hdr) or 4 (sg_io_v4): each command
   goes to the server (server.c) over the wire of wire.h.

   SCSI status, sense and driver status are laid out as Linux's sg driver does
   it; the host status is always 0. Answers 11 and 12 have no SCSI status: SG_IO
   itself fails, with EINVAL and ENOBUFS, and touches nothing of the caller's.
   Other errors are not the store's: ENXIO no server, EIO it broke off, ENOMEM
   beyond the wire's bounds, EPROTO a reply that is none, EOPNOTSUPP scatter
   lists, which no tool of the transcript sends. */
#define _GNU_SOURCE
#include "sg_io.h"

#include <errno.h>
#include <linux/bsg.h>
#include <scsi/sg.h>
#include <stdlib.h>
#include <string.h>
#include <unistd.h>

#include "ask.h"

#define VERSION_VARIABLE "RIDGE_SG_VERSION"

enum {
    SG_VERSION = 30536,
    RESERVED_BYTES = 1 << 16,
    TIMEOUT_TICKS = 6000,
    STATUS_GOOD = 0x00,
    STATUS_CHECK_CONDITION = 0x02,
    STATUS_CONFLICT = 0x18,
    DRIVER_SENSE = 0x08
};

static int refuse(int error)
{
    errno = error;
    return -1;
}

/* ---- one command over the wire ---- */

int sg_io_try_server(void)
{
    const char *path = getenv(WIRE_SOCKET_VARIABLE);
    if (path == NULL)
        return refuse(ENXIO);
    int connection = ask_connect(path);
    return connection < 0 ? -1 : close(connection);
}

static int exchange(struct ask *ask)
{
    const char *path = getenv(WIRE_SOCKET_VARIABLE);
    if (path == NULL)
        return refuse(ENXIO);
    if (ask->request.cdb_bytes > WIRE_CDB_MOST ||
        ask->request.data_out_bytes > WIRE_DATA_MOST ||
        ask->request.data_in_bytes > WIRE_DATA_MOST)
        return refuse(ENOMEM);
    switch (ask_server(path, ask)) {
    case ASK_ANSWERED:
        return 0;
    case ASK_NO_SERVER:
        return -1;
    case ASK_NO_REPLY:
        return refuse(EPROTO);
    default:
        return refuse(EIO);
    }
}

/* ---- what the answer is in SCSI ---- */

/* Gives 0 and the SCSI status, or fails as SG_IO does where no command went
   out: 11 and 12 have no SCSI status, and a status byte of 0 beside a host
   error would be read as GOOD. */
static int status_of(uint32_t answer, uint8_t *status)
{
    switch (answer) {
    case 0:
        *status = STATUS_GOOD;
        return 0;
    case 1: case 2: case 3: case 4: case 5: case 6: case 7: case 8: case 13:
        *status = STATUS_CHECK_CONDITION;
        return 0;
    case 10:
        *status = STATUS_CONFLICT;
        return 0;
    case 11:
        return refuse(EINVAL);
    case 12:
        return refuse(ENOBUFS);
    default:
        return refuse(EPROTO);
    }
}

/* The sense goes to the tool exactly with CHECK CONDITION, as much as fits. */
static uint32_t hand_over_sense(const struct ask *ask, uint8_t status,
                                uint8_t *sense, uint32_t most)
{
    uint32_t count = ask->reply.sense_bytes;
    if (status != STATUS_CHECK_CONDITION || sense == NULL)
        return 0;
    if (count > most)
        count = most;
    memcpy(sense, ask->sense, count);
    return count;
}

static int perform(struct ask *ask, uint8_t *status)
{
    if (exchange(ask) != 0)
        return -1;
    return status_of(ask->reply.answer, status);
}

static int driver_status_of(uint8_t status)
{
    return status == STATUS_CHECK_CONDITION ? DRIVER_SENSE : 0;
}

static unsigned info_of(uint8_t status)
{
    return status == STATUS_GOOD ? SG_INFO_OK : SG_INFO_CHECK;
}

/* Data-out counts as moved as a whole on GOOD and not at all otherwise: the
   store does not say how much of an overlong list it looked at. */
static int data_out_left(const struct ask *ask)
{
    return ask->reply.answer == 0 ? 0 : (int)ask->request.data_out_bytes;
}

static int data_in_left(const struct ask *ask)
{
    return (int)(ask->request.data_in_bytes - ask->reply.returned);
}

/* ---- the two forms of SG_IO ---- */

static int perform_version_3(uint32_t nexus, struct sg_io_hdr *header)
{
    struct ask ask = {.request = {.nexus = nexus, .cdb_bytes = header->cmd_len},
                      .cdb = header->cmdp};
    uint8_t status;
    if (header->iovec_count != 0)
        return refuse(EOPNOTSUPP);
    if (header->dxfer_direction == SG_DXFER_TO_DEV) {
        ask.data_out = header->dxferp;
        ask.request.data_out_bytes = header->dxfer_len;
    } else if (header->dxfer_direction != SG_DXFER_NONE) {
        ask.data_in = header->dxferp;
        ask.request.data_in_bytes = header->dxfer_len;
    }
    if (perform(&ask, &status) != 0)
        return -1;
    header->status = status;
    header->masked_status = status >> 1;
    header->msg_status = 0;
    header->sb_len_wr = (unsigned char)hand_over_sense(
        &ask, status, header->sbp, header->mx_sb_len);
    header->host_status = 0;
    header->driver_status = (unsigned short)driver_status_of(status);
    header->resid = data_out_left(&ask) + data_in_left(&ask);
    header->duration = 0;
    header->info = info_of(status);
    return 0;
}

static int perform_version_4(uint32_t nexus, struct sg_io_v4 *header)
{
    struct ask ask = {
        .request = {.nexus = nexus,
                    .cdb_bytes = header->request_len,
                    .data_out_bytes = header->dout_xfer_len,
                    .data_in_bytes = header->din_xfer_len},
        .cdb = (const uint8_t *)(uintptr_t)header->request,
        .data_out = (const uint8_t *)(uintptr_t)header->dout_xferp,
        .data_in = (uint8_t *)(uintptr_t)header->din_xferp};
    uint8_t status;
    if (header->protocol != BSG_PROTOCOL_SCSI ||
        header->subprotocol != BSG_SUB_PROTOCOL_SCSI_CMD ||
        header->dout_iovec_count != 0 || header->din_iovec_count != 0)
        return refuse(EOPNOTSUPP);
    if (perform(&ask, &status) != 0)
        return -1;
    header->device_status = status;
    header->transport_status = 0;
    header->driver_status = (unsigned)driver_status_of(status);
    header->response_len = hand_over_sense(
        &ask, status, (uint8_t *)(uintptr_t)header->response,
        header->max_response_len);
    header->din_resid = data_in_left(&ask);
    header->dout_resid = data_out_left(&ask);
    header->retry_delay = 0;
    header->duration = 0;
    header->info = info_of(status);
    return 0;
}

static int perform_any(uint32_t nexus, void *header)
{
    int form;
    if (header == NULL)
        return refuse(EFAULT);
    memcpy(&form, header, sizeof form);
    if (form == 'S')
        return perform_version_3(nexus, header);
    if (form == 'Q')
        return perform_version_4(nexus, header);
    return refuse(EOPNOTSUPP);
}

static int named_version(void)
{
    const char *named = getenv(VERSION_VARIABLE);
    return named == NULL ? SG_VERSION : atoi(named);
}

int sg_io_control(uint32_t nexus, unsigned long request, void *argument)
{
    switch (request) {
    case SG_IO:
        return perform_any(nexus, argument);
    case SG_GET_VERSION_NUM:
        *(int *)argument = named_version();
        return 0;
    case SG_GET_RESERVED_SIZE:
        *(int *)argument = RESERVED_BYTES;
        return 0;
    case SG_GET_TIMEOUT:
        return TIMEOUT_TICKS;
    case SG_SET_TIMEOUT:
    case SG_SET_RESERVED_SIZE:
        return 0;
    default:
        return refuse(ENOTTY);
    }
}
