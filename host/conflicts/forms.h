/*
 * forms.h - the rows of the conflict table: the commands that the store serves,
 * each with the calls that are sent for it, and those of Table 3 of 004 (the
 * T10 proposal 08-149) that it does not serve. docs/CONFLICTS.md has the tables.
 */

#ifndef CONFLICTS_FORMS_H
#define CONFLICTS_FORMS_H

#include <stddef.h>
#include <stdint.h>

#include "ridge.h"

enum {
    CAPACITY = 64,
    SLOTS = 3,
    MAPPED = 1,       /* the first of the blocks that are mapped */
    MAPPED_COUNT = 2, /* so that one slot is free */
    UNMAPPED = 9,     /* the first of many blocks that are not */
    CDB_ROOM = 32,
    DATA_ROOM = 1024,
    LIST_BYTES = 24,
    DESCRIPTOR_BYTES = 16,
    /* The most that GET LBA STATUS has to tell. */
    STATUS_BYTES = 8 + RIDGE_STATUS_DESCRIPTORS * DESCRIPTOR_BYTES
};

/* In the order of 004. */
enum column {
    WRITE_EXCLUSIVE,
    EXCLUSIVE_ACCESS,
    REGISTERED_RR,
    WRITE_EXCLUSIVE_RR,
    EXCLUSIVE_ACCESS_RR,
    COLUMNS
};

/* What decides the answer to a call. */
enum rule {
    PLAIN, /* the table alone: 0 or 10 */
    LATER, /* has a fault that is tested after the table */
    ALWAYS /* has its answer in every column */
};

/* Who sends, and what stands, in bits. */
enum { HOLDS = 1, REGISTERED = 2, UNREGISTERED = 4 };
enum { NO_RESERVATION = 1, ONE_HOLDS = 2, ALL_HOLD = 4 };

enum sends { NOTHING, BLOCKS, DESCRIPTORS, KEYS };

/* RIGHT is what REGISTER wants: a registered sender's own key, otherwise 0. */
enum key { ZERO, OWN, RIGHT, OTHERS, NEW, NOBODYS };

/* The type that a reservation-out call names. */
enum named { NO_TYPE, STANDING_TYPE, OTHER_TYPE };

struct form {
    const char *name;
    enum rule rule;
    uint64_t answer;      /* of LATER and ALWAYS */
    unsigned who;         /* who may send it to this end; 0 is everybody */
    unsigned reservation; /* under what; 0 is everything */
    enum sends sends;
    enum key key, action_key;
    enum named named;
    size_t descriptors, address;
    size_t data_out_bytes;
    size_t data_in_bytes; /* 0 is all of the room */
    size_t cdb_bytes;
    uint8_t cdb[CDB_ROOM];
};

/* Cells are letters: A allowed, C conflict, n allowed with a footnote whose
   text is missing in the extracted text of 004, - nothing there; p no row, for
   the command is SPC's, u no row, for the command is unknown to 004. */
struct row {
    const char *name;
    const char *source_name;  /* 004's name of it; empty where it has no row */
    const char *source_cells; /* what 004 has */
    const struct form *forms;
    size_t count;
};

/* The codes of a command that is not served: as 004 names its form, or empty
   where there is but one. */
struct code {
    const char *form;
    size_t cdb_bytes;
    uint8_t cdb[CDB_ROOM];
};

enum { CODES_OF_ROW = 4 };

struct other_row {
    const char *name;
    const char *source_cells;
    struct code codes[CODES_OF_ROW]; /* a length of 0 says unused */
};

extern const struct row rows[];
extern const size_t rows_count;
extern const struct other_row other_rows[];
extern const size_t other_rows_count;

#endif
