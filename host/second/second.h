/*
 * second.h - the second program's interface: that of ridge.h under another
 * prefix, so that one test can hold both libraries. ridge.h has the record,
 * and says what each parameter and each answer number is.
 */

#ifndef SECOND_H
#define SECOND_H

#include "../include/ridge.h"

/*
 * Puts the prefix before a function's name. The tests compile further copies
 * of second.c under another prefix by defining this on the command line.
 */
#ifndef SECOND_NAME
#define SECOND_NAME(name) second_##name
#endif

uint64_t SECOND_NAME(fresh)(uint64_t capacity, uint64_t format,
                            struct ridge_unit *unit, uint64_t *owners,
                            size_t slots, struct ridge_marks *marks);

uint64_t SECOND_NAME(execute)(
    uint64_t format, struct ridge_unit *unit, uint64_t *owners, size_t slots,
    struct ridge_marks *marks, uint8_t *medium, size_t medium_bytes,
    uint64_t nexus, const uint8_t *cdb, size_t cdb_bytes,
    const uint8_t *data_out, size_t data_out_bytes, uint8_t *data_in,
    size_t data_in_bytes, uint8_t *sense, size_t sense_bytes,
    uint64_t *returned);

uint64_t SECOND_NAME(room)(uint64_t format, const struct ridge_unit *unit,
                           const uint64_t *owners, size_t slots,
                           const struct ridge_marks *marks,
                           const uint8_t *medium, size_t medium_bytes,
                           uint64_t *free_slots, uint64_t *lowest_free);

#endif
