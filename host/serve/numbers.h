/* Numbers in bytes, most significant first, as everywhere in this store. */
#ifndef RIDGE_NUMBERS_H
#define RIDGE_NUMBERS_H

#include <stdint.h>

static inline void put_number(uint8_t *at, uint64_t number, int width)
{
    for (int place = 0; place < width; place++)
        at[place] = (uint8_t)(number >> (8 * (width - 1 - place)));
}

static inline uint64_t number_at(const uint8_t *at, int width)
{
    uint64_t number = 0;
    for (int place = 0; place < width; place++)
        number = number << 8 | at[place];
    return number;
}

#endif
