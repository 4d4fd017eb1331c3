/* Reads the server's command line (options.h). A number that is none, or out
   of its bounds, is refused by name, and so is a format that is none: nothing is
   cut to fit. */
#define _GNU_SOURCE
#include "options.h"

#include <errno.h>
#include <getopt.h>
#include <stdio.h>
#include <stdlib.h>
#include <string.h>

#include "names.h"
#include "ridge.h"

enum { VERBOSE_MOST = 2 };

static const char usage[] =
    "usage: server --socket PATH [--capacity BLOCKS] [--slots NUMBER]\n"
    "              [--sense fixed|descriptor] [--image FILE] [--verbose 0|1|2]\n"
    "              [--until-input-ends]\n";

static const struct option known[] = {
    {"socket", required_argument, NULL, 's'},
    {"capacity", required_argument, NULL, 'c'},
    {"slots", required_argument, NULL, 'n'},
    {"sense", required_argument, NULL, 'f'},
    {"image", required_argument, NULL, 'i'},
    {"verbose", required_argument, NULL, 'v'},
    {"until-input-ends", no_argument, NULL, 'u'},
    {NULL, 0, NULL, 0}};

/* Decimal digits and nothing else. */
static int number(const char *what, const char *word, uint64_t least,
                  uint64_t most, uint64_t *value)
{
    size_t digits = strspn(word, "0123456789");
    errno = 0;
    *value = strtoull(word, NULL, 10);
    if (digits > 0 && word[digits] == '\0' && errno == 0 && *value >= least &&
        *value <= most)
        return 1;
    fprintf(stderr, "server: %s: '%s' is not a number from %llu to %llu\n", what,
            word, (unsigned long long)least, (unsigned long long)most);
    return 0;
}

static int format(const char *word, uint64_t *value)
{
    static const uint64_t formats[] = {RIDGE_FIXED, RIDGE_DESCRIPTOR};
    for (size_t i = 0; i < sizeof formats / sizeof formats[0]; i++) {
        *value = formats[i];
        if (strcmp(word, name_of_format(*value)) == 0)
            return 1;
    }
    fprintf(stderr, "server: sense: '%s' is neither fixed nor descriptor\n", word);
    return 0;
}

static int take(struct options *options, int option)
{
    uint64_t level = 0;
    switch (option) {
    case 's':
        options->socket = optarg;
        return 1;
    case 'i':
        options->image = optarg;
        return 1;
    case 'c':
        return number("capacity", optarg, 1, RIDGE_CAPACITY_LAST,
                      &options->capacity);
    case 'n':
        return number("slots", optarg, 1, RIDGE_SLOTS, &options->slots);
    case 'f':
        return format(optarg, &options->format);
    case 'v':
        if (!number("verbose", optarg, 0, VERBOSE_MOST, &level))
            return 0;
        options->verbose = (int)level;
        return 1;
    case 'u':
        options->until_input_ends = 1;
        return 1;
    default:
        fputs(usage, stderr);
        return 0;
    }
}

int options_read(struct options *options, int count, char **words)
{
    int option;
    memset(options, 0, sizeof *options);
    while ((option = getopt_long(count, words, "", known, NULL)) != -1)
        if (!take(options, option))
            return 0;
    if (options->socket != NULL && optind == count)
        return 1;
    fputs(usage, stderr);
    return 0;
}
