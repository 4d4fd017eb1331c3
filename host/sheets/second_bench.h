/*
 * second_bench.h - an independent bench: what a call sheet prints when its
 * calls are run on the second program.
 */

#ifndef SECOND_BENCH_H
#define SECOND_BENCH_H

#include <stddef.h>
#include <stdint.h>
#include <stdio.h>

enum {
    BENCH_CAPACITY = 8,
    BENCH_SLOTS = 2,
    BENCH_DATA_IN = 4096,
    SHEET_CALLS = 32,
    SHEET_BYTES = 65536
};

void second_bench(const uint8_t *sheet, size_t bytes, FILE *out);

#endif
