/*
 * sense.h - sense data read back from its bytes, in either format. The papers'
 * layouts stand here a second time, so that the tests can hold both libraries
 * to them and not only to each other.
 */

#ifndef SENSE_H
#define SENSE_H

#include <stdbool.h>
#include <stddef.h>
#include <stdint.h>

#include "../include/ridge.h"

enum { SENSE_CODES = 3, PLACE_BYTES = 3 };

/* What sense data says. */
struct told {
    uint8_t codes[SENSE_CODES]; /* key, ASC, ASCQ */
    bool has_place;
    uint8_t place[PLACE_BYTES]; /* Q-4's three bytes; 0 where there is none */
    bool has_address;
    uint64_t address; /* 0 where there is none */
};

/* The bytes of sense that this answer writes in a store of that format, from
   the first on; 0 if it writes none. */
size_t sense_written(uint64_t format, uint64_t answer);

/* Key, ASC and ASCQ of an answer from 1 to 8, or of 13, which tells that
   attention. */
const uint8_t *sense_codes(uint64_t answer, uint8_t attention);

/* Reads sense data of that format. False if the bytes are laid out in another
   way: a byte is not 0 where it must be, or a length or a type is wrong. */
bool sense_read(uint64_t format, const uint8_t *sense, struct told *told);

#endif
