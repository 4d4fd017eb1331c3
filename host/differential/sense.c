/*
 * sense.c - sense data read back; sense.h says what for.
 */

#include "sense.h"

#include <string.h>

enum {
    FIXED_WRITTEN = 18,
    HEADER = 8,
    PLACE_DESCRIPTOR = 8,
    INFORMATION_DESCRIPTOR = 12
};

static bool has_sense(uint64_t answer)
{
    return (answer >= RIDGE_CODE_NOT_LISTED && answer <= RIDGE_POOL_FULL) ||
           answer == RIDGE_ATTENTION;
}

size_t sense_written(uint64_t format, uint64_t answer)
{
    if (!has_sense(answer))
        return 0;
    if (format == RIDGE_FIXED)
        return FIXED_WRITTEN;
    switch (answer) {
    case RIDGE_CDB_FIELD:
    case RIDGE_LIST_FIELD:
        return HEADER + PLACE_DESCRIPTOR;
    case RIDGE_ADDRESS_RANGE:
    case RIDGE_POOL_FULL:
        return HEADER + INFORMATION_DESCRIPTOR;
    default:
        return HEADER;
    }
}

const uint8_t *sense_codes(uint64_t answer, uint8_t attention)
{
    static const uint8_t codes[][SENSE_CODES] = {
        [RIDGE_CODE_NOT_LISTED] = {0x05, 0x20, 0x00},
        [RIDGE_CDB_FIELD] = {0x05, 0x24, 0x00},
        [RIDGE_ADDRESS_RANGE] = {0x05, 0x21, 0x00},
        [RIDGE_LIST_LENGTH] = {0x05, 0x1A, 0x00},
        [RIDGE_LIST_FIELD] = {0x05, 0x26, 0x00},
        [RIDGE_PLACES_USED] = {0x05, 0x55, 0x04},
        [RIDGE_RELEASE_TYPE] = {0x05, 0x26, 0x04},
        [RIDGE_POOL_FULL] = {0x07, 0x27, 0x07},
    };
    static const uint8_t waiting[][SENSE_CODES] = {
        [RIDGE_REGISTRATIONS_PREEMPTED] = {0x06, 0x2A, 0x05},
        [RIDGE_RESERVATIONS_PREEMPTED] = {0x06, 0x2A, 0x03},
        [RIDGE_RESERVATIONS_RELEASED] = {0x06, 0x2A, 0x04},
    };

    return answer == RIDGE_ATTENTION ? waiting[attention] : codes[answer];
}

static uint64_t number(const uint8_t *bytes, size_t count)
{
    uint64_t value = 0;

    while (count-- > 0)
        value = value << 8 | *bytes++;
    return value;
}

/* Bit 7 tells that there is a place, and then bit 3 is set too. Bits 5 and 4
   are always 0. */
static bool read_place(const uint8_t *bytes, struct told *told)
{
    told->has_place = (bytes[0] & 0x80) != 0;
    memcpy(told->place, bytes, PLACE_BYTES);
    if (!told->has_place)
        return number(bytes, PLACE_BYTES) == 0;
    return (bytes[0] & 0x38) == 0x08;
}

static bool read_fixed(const uint8_t *sense, struct told *told)
{
    told->codes[0] = sense[2];
    told->codes[1] = sense[12];
    told->codes[2] = sense[13];
    told->has_address = sense[0] == 0xF0;
    told->address = number(sense + 3, 4);
    if (!told->has_address && (sense[0] != 0x70 || told->address != 0))
        return false;
    return sense[1] == 0 && number(sense + 7, 5) == UINT64_C(0x0A00000000) &&
           sense[14] == 0 && read_place(sense + 15, told);
}

static bool read_descriptor(const uint8_t *sense, struct told *told)
{
    static const uint8_t information[] = {0x00, 0x0A, 0x80, 0x00};
    static const uint8_t specific[] = {0x02, 0x06, 0x00, 0x00};
    const uint8_t *behind = sense + HEADER;

    memcpy(told->codes, sense + 1, SENSE_CODES);
    if (sense[0] != 0x72 || number(sense + 4, 3) != 0)
        return false;
    switch (sense[7]) {
    case 0:
        return true;
    case PLACE_DESCRIPTOR:
        return memcmp(behind, specific, sizeof specific) == 0 &&
               read_place(behind + 4, told) && told->has_place &&
               behind[7] == 0;
    case INFORMATION_DESCRIPTOR:
        told->has_address = true;
        told->address = number(behind + 4, 8);
        return memcmp(behind, information, sizeof information) == 0;
    default:
        return false;
    }
}

bool sense_read(uint64_t format, const uint8_t *sense, struct told *told)
{
    memset(told, 0, sizeof *told);
    return format == RIDGE_FIXED ? read_fixed(sense, told)
                                 : read_descriptor(sense, told);
}
