/*
 * second_bench.c - an independent bench; second_bench.h says what for. It is
 * written from the requirements alone: a sheet is taken whole or not at all,
 * the status of an answer stands in a table here, and the sense that is printed
 * is read from the sense buffer, which is of the fixed format.
 */

#include "second_bench.h"

#include <stdbool.h>

#include "../include/ridge.h"
#include "../second/second.h"

/* Where a call stands in the sheet. */
struct call {
    uint8_t nexus;
    size_t cdb_bytes;
    size_t data_out_bytes;
    const uint8_t *cdb;
    const uint8_t *data_out;
};

/* Finds the calls of a sheet; false if it is a bad sheet. */
static bool find_calls(const uint8_t *sheet, size_t bytes, struct call *calls)
{
    if (bytes == 0 || bytes > SHEET_BYTES || sheet[0] > SHEET_CALLS)
        return false;
    size_t count = sheet[0];
    size_t at = 1 + 4 * count;
    if (at > bytes)
        return false;
    for (size_t index = 0; index < count; index++) {
        const uint8_t *contents = sheet + 1 + 4 * index;
        struct call *call = &calls[index];

        call->nexus = contents[0];
        call->cdb_bytes = contents[1];
        call->data_out_bytes = (size_t)contents[2] << 8 | contents[3];
        if (call->cdb_bytes + call->data_out_bytes > bytes - at)
            return false;
        call->cdb = sheet + at;
        call->data_out = call->cdb + call->cdb_bytes;
        at += call->cdb_bytes + call->data_out_bytes;
    }
    return at == bytes;
}

static void print_line(FILE *out, size_t number, uint64_t answer,
                       uint64_t returned, const uint8_t *data_in,
                       const uint8_t *sense)
{
    fprintf(out, "%zu,%u,", number, (unsigned)answer);
    if (answer == 0)
        fputs("00,", out);
    else if (answer <= 8 || answer == 13)
        fprintf(out, "02,%02X%02X%02X", sense[2], sense[12], sense[13]);
    else if (answer == 10)
        fputs("18,", out);
    else
        fputs("--,", out);
    fprintf(out, ",%u,", (unsigned)returned);
    for (size_t index = 0; index < returned && index < 32; index++)
        fprintf(out, "%02X", data_in[index]);
    fputc('\n', out);
}

void second_bench(const uint8_t *sheet, size_t bytes, FILE *out)
{
    static struct call calls[SHEET_CALLS];
    struct ridge_unit unit = {0};
    uint64_t owners[BENCH_SLOTS] = {0};
    struct ridge_marks marks = {{0}};
    uint8_t medium[BENCH_SLOTS * RIDGE_BLOCK_BYTES] = {0};

    if (!find_calls(sheet, bytes, calls)) {
        fputs("bad sheet\n", out);
        return;
    }
    fputs("call,answer,status,sense,length,data\n", out);
    second_fresh(BENCH_CAPACITY, RIDGE_FIXED, &unit, owners, BENCH_SLOTS,
                 &marks);
    for (size_t index = 0; index < sheet[0]; index++) {
        const struct call *call = &calls[index];
        uint8_t data_in[BENCH_DATA_IN] = {0};
        uint8_t sense[18] = {0};
        uint64_t returned = 0;
        uint64_t answer = second_execute(
            RIDGE_FIXED, &unit, owners, BENCH_SLOTS, &marks, medium,
            sizeof medium, call->nexus, call->cdb, call->cdb_bytes,
            call->data_out, call->data_out_bytes, data_in, sizeof data_in,
            sense, sizeof sense, &returned);

        print_line(out, index + 1, answer, returned, data_in, sense);
    }
}
