/*
 * console.c - numbers given to the test programs, seeds, progress and stores;
 * console.h says what for.
 */

#include "console.h"

#include <inttypes.h>
#include <stdio.h>
#include <stdlib.h>
#include <string.h>

enum { SECONDS_BETWEEN = 5, TOLD_EVERY = 256, DIGITS_MOST = 20 };

/* The value of a word of digits; false if it is none, or 2^64 or more. */
static int read_digits(const char *word, uint64_t *value)
{
    *value = 0;
    if (*word == '\0' || strlen(word) > DIGITS_MOST)
        return 0;
    for (; *word != '\0'; word++) {
        uint64_t digit = (uint64_t)(*word - '0');

        if (*word < '0' || *word > '9' || *value > (UINT64_MAX - digit) / 10)
            return 0;
        *value = *value * 10 + digit;
    }
    return 1;
}

uint64_t console_number(const char *name, const char *word, uint64_t least)
{
    uint64_t value;

    if (!read_digits(word, &value) || value < least) {
        fprintf(stderr,
                "%s=%s: must be a whole number from %" PRIu64
                " to 2^64 - 1, in decimal digits\n",
                name, word, least);
        exit(2);
    }
    return value;
}

/* 32 bits: short enough to be typed again. */
static uint64_t new_seed(void)
{
    uint32_t seed = 0;
    FILE *file = fopen("/dev/urandom", "rb");

    if (file == NULL || fread(&seed, sizeof seed, 1, file) != 1) {
        perror("/dev/urandom");
        exit(2);
    }
    fclose(file);
    return seed;
}

uint64_t console_seed(const char *word)
{
    return word == NULL ? new_seed() : console_number("SEED", word, 0);
}

struct progress console_progress(const char *program, const char *unit,
                                 uint64_t total)
{
    struct progress progress = {program, unit, total, time(NULL)};

    return progress;
}

/* The clock is not asked at every call: that would take longer than some. */
void console_tell(struct progress *progress, uint64_t done)
{
    time_t now;

    if (done % TOLD_EVERY != 0)
        return;
    now = time(NULL);
    if (now - progress->told < SECONDS_BETWEEN)
        return;
    progress->told = now;
    fprintf(stderr, "%s: %" PRIu64 " of %" PRIu64 " %s\n", progress->program,
            done, progress->total, progress->unit);
}

void console_store(uint64_t format, const struct ridge_unit *unit,
                   const uint64_t *owners, size_t slots,
                   const struct ridge_marks *marks)
{
    const struct ridge_rights *rights = &unit->rights;

    printf("  format %" PRIX64 ", capacity %" PRIX64 ", generation %" PRIX32
           ", type %" PRIX32 ", holder %" PRIX64 "\n  places, nexus:key",
           format, unit->capacity, rights->generation, rights->type,
           rights->holder);
    for (size_t place = 0; place < RIDGE_PLACES; place++)
        printf(" %" PRIX64 ":%" PRIX64, rights->places[place].nexus,
               rights->places[place].key);
    printf("\n  attentions");
    for (size_t nexus = 0; nexus < RIDGE_NEXUSES; nexus++)
        printf(" %X", unit->attentions[nexus]);
    printf("\n  owners of %zu slots", slots);
    for (size_t slot = 0; slot < slots; slot++)
        printf(" %" PRIX64, owners[slot]);
    printf("\n  marks %016" PRIX64 " %016" PRIX64 "\n", marks->words[0],
           marks->words[1]);
}
