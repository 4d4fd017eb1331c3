/* Sends a command that the store refuses, with every room for sense from none to
   ROOM_MOST bytes and in both forms of SG_IO, and wants in it as much of the
   sense as fits, as many bytes told, and none touched behind them.

     sense_room DEVICE CDB SENSE

   CDB and the whole SENSE are hex digits. Runs as tools/scsi runs a tool; ends
   with 0 exactly if all was as it must be. */
#define _GNU_SOURCE
#include <fcntl.h>
#include <linux/bsg.h>
#include <scsi/sg.h>
#include <stdint.h>
#include <stdio.h>
#include <string.h>
#include <sys/ioctl.h>
#include <unistd.h>

enum {
    CDB_MOST = 16,
    ROOM_MOST = 32,
    DATA_BYTES = 512,
    FILL = 0xC5,
    CHECK_CONDITION = 2,
    DRIVER_SENSE = 8
};

static uint8_t cdb[CDB_MOST], wanted[ROOM_MOST], room[ROOM_MOST + 1];
static uint8_t data_in[DATA_BYTES];
static size_t cdb_bytes, wanted_bytes;

/* Gives how many bytes the digits are, or 0 where they are none or too many. */
static size_t bytes_of(const char *digits, uint8_t *bytes, size_t most)
{
    size_t count = strlen(digits) / 2;
    if (count > most || strspn(digits, "0123456789abcdef") != 2 * count)
        return 0;
    for (size_t byte = 0; byte < count; byte++)
        if (sscanf(digits + 2 * byte, "%2hhx", &bytes[byte]) != 1)
            return 0;
    return count;
}

/* Both give how many bytes of sense are told, or -1. */
static int ask_version_3(int device, size_t most)
{
    struct sg_io_hdr header = {
        .interface_id = 'S', .dxfer_direction = SG_DXFER_FROM_DEV,
        .cmd_len = (unsigned char)cdb_bytes, .cmdp = cdb,
        .mx_sb_len = (unsigned char)most, .sbp = room,
        .dxfer_len = DATA_BYTES, .dxferp = data_in};
    int refused = ioctl(device, SG_IO, &header) == 0 &&
                  header.status == CHECK_CONDITION &&
                  header.driver_status == DRIVER_SENSE;
    return refused ? header.sb_len_wr : -1;
}

static int ask_version_4(int device, size_t most)
{
    struct sg_io_v4 header = {
        .guard = 'Q', .protocol = BSG_PROTOCOL_SCSI,
        .subprotocol = BSG_SUB_PROTOCOL_SCSI_CMD,
        .request_len = (uint32_t)cdb_bytes, .request = (uintptr_t)cdb,
        .max_response_len = (uint32_t)most, .response = (uintptr_t)room,
        .din_xfer_len = DATA_BYTES, .din_xferp = (uintptr_t)data_in};
    int refused = ioctl(device, SG_IO, &header) == 0 &&
                  header.device_status == CHECK_CONDITION &&
                  header.driver_status == DRIVER_SENSE;
    return refused ? (int)header.response_len : -1;
}

/* Gives 1 exactly if the sense is there as far as the room goes. */
static int is_right(int (*ask)(int, size_t), int device, size_t most)
{
    uint8_t expected[sizeof room];
    size_t fits = most < wanted_bytes ? most : wanted_bytes;
    memset(room, FILL, sizeof room);
    memset(expected, FILL, sizeof expected);
    memcpy(expected, wanted, fits);
    int told = ask(device, most);
    if (told == (int)fits && memcmp(room, expected, sizeof room) == 0)
        return 1;
    fprintf(stderr, "sense_room: room for %zu bytes, version %d: %d told, and in "
            "it", most, ask == ask_version_3 ? 3 : 4, told);
    for (size_t byte = 0; byte < sizeof room; byte++)
        fprintf(stderr, " %02X", room[byte]);
    fputs("\n", stderr);
    return 0;
}

int main(int count, char **words)
{
    int right = 1;
    if (count == 4) {
        cdb_bytes = bytes_of(words[2], cdb, sizeof cdb);
        wanted_bytes = bytes_of(words[3], wanted, sizeof wanted);
    }
    if (cdb_bytes == 0 || wanted_bytes == 0) {
        fputs("usage: sense_room DEVICE CDB SENSE\n", stderr);
        return 2;
    }
    int device = open(words[1], O_RDWR);
    if (device < 0) {
        perror(words[1]);
        return 1;
    }
    for (size_t most = 0; most <= ROOM_MOST; most++)
        right &= is_right(ask_version_3, device, most) &
                 is_right(ask_version_4, device, most);
    close(device);
    return right ? 0 : 1;
}
