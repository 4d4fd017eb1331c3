/*
 * both.c - the second program's functions by way of the library's, for tests in
 * which one program stands in the place of both: no comparison of the two can
 * find it wrong then, only what the papers say of every call.
 */

#include "../second/second.h"

uint64_t second_fresh(uint64_t capacity, uint64_t format,
                      struct ridge_unit *unit, uint64_t *owners, size_t slots,
                      struct ridge_marks *marks)
{
    return ridge_fresh(capacity, format, unit, owners, slots, marks);
}

uint64_t second_execute(
    uint64_t format, struct ridge_unit *unit, uint64_t *owners, size_t slots,
    struct ridge_marks *marks, uint8_t *medium, size_t medium_bytes,
    uint64_t nexus, const uint8_t *cdb, size_t cdb_bytes,
    const uint8_t *data_out, size_t data_out_bytes, uint8_t *data_in,
    size_t data_in_bytes, uint8_t *sense, size_t sense_bytes,
    uint64_t *returned)
{
    return ridge_execute(format, unit, owners, slots, marks, medium,
                         medium_bytes, nexus, cdb, cdb_bytes, data_out,
                         data_out_bytes, data_in, data_in_bytes, sense,
                         sense_bytes, returned);
}

uint64_t second_room(uint64_t format, const struct ridge_unit *unit,
                     const uint64_t *owners, size_t slots,
                     const struct ridge_marks *marks, const uint8_t *medium,
                     size_t medium_bytes, uint64_t *free_slots,
                     uint64_t *lowest_free)
{
    return ridge_room(format, unit, owners, slots, marks, medium, medium_bytes,
                      free_slots, lowest_free);
}
