/*
 * cells.c - the cells of the conflict rule; cells.h says what for. Which of
 * them stop a command does not stand here: the two libraries are to say it.
 */

#include "cells.h"

#include <inttypes.h>
#include <stdio.h>
#include <stdlib.h>
#include <string.h>

enum sender { HOLDER, REGISTRANT, STRANGER };

static const char *const sender_names[] = {"holder", "registrant", "stranger"};

/* Under 7 and 8 all registrants are holders; with no reservation nobody is. */
static const struct {
    uint32_t type;
    enum sender sender;
} columns[CELL_COLUMNS] = {
    {0, REGISTRANT}, {0, STRANGER},
    {1, HOLDER},     {1, REGISTRANT}, {1, STRANGER},
    {3, HOLDER},     {3, REGISTRANT}, {3, STRANGER},
    {5, HOLDER},     {5, REGISTRANT}, {5, STRANGER},
    {6, HOLDER},     {6, REGISTRANT}, {6, STRANGER},
    {7, HOLDER},     {7, STRANGER},
    {8, HOLDER},     {8, STRANGER},
};

enum row {
    TEST_UNIT_READY,
    GET_LBA_STATUS,
    INQUIRY,
    INQUIRY_PAGE,
    READ_CAPACITY_10,
    READ_CAPACITY_16,
    READ,
    WRITE,
    WRITE_SAME,
    UNMAP,
    READ_KEYS,
    READ_RESERVATION,
    RESERVE_OUT,
    NO_ROW = CELL_ROWS
};

static const char *const row_names[CELL_ROWS] = {
    "test_unit_ready",  "get_lba_status",   "inquiry", "inquiry_page",
    "read_capacity_10", "read_capacity_16", "read",    "write",
    "write_same",       "unmap",            "read_keys",
    "read_reservation", "reserve_out"};

static enum row row_of(const uint8_t *cdb)
{
    switch (cdb[0]) {
    case 0x00:
        return TEST_UNIT_READY;
    case 0x12:
        return (cdb[1] & 0x01) == 0 ? INQUIRY : INQUIRY_PAGE;
    case 0x25:
        return READ_CAPACITY_10;
    case 0x9E:
        return (cdb[1] & 0x1F) == 0x12 ? GET_LBA_STATUS : READ_CAPACITY_16;
    case 0x28:
    case 0x88:
        return READ;
    case 0x2A:
    case 0x8A:
        return WRITE;
    case 0x93:
        return WRITE_SAME;
    case 0x42:
        return UNMAP;
    case 0x5E:
        return (cdb[1] & 0x1F) == 0 ? READ_KEYS : READ_RESERVATION;
    case 0x5F:
        return RESERVE_OUT;
    default:
        return NO_ROW;
    }
}

static enum sender sender_of(const struct ridge_rights *rights, uint64_t nexus)
{
    if (key_of(rights, nexus) == 0)
        return STRANGER;
    if (rights->type >= 7 || (rights->type != 0 && rights->holder == nexus))
        return HOLDER;
    return REGISTRANT;
}

size_t cell_of(const struct ridge_rights *rights, uint64_t nexus,
               const uint8_t *cdb)
{
    enum row row = row_of(cdb);
    enum sender sender = sender_of(rights, nexus);

    if (row == NO_ROW)
        return CELLS;
    for (size_t column = 0; column < CELL_COLUMNS; column++) {
        if (columns[column].type == rights->type &&
            columns[column].sender == sender)
            return row * CELL_COLUMNS + column;
    }
    return CELLS;
}

void cell_name(size_t cell, char name[CELL_NAME_ROOM])
{
    size_t column = cell % CELL_COLUMNS;

    snprintf(name, CELL_NAME_ROOM, "%s_of_%s_under_%" PRIu32,
             row_names[cell / CELL_COLUMNS],
             sender_names[columns[column].sender], columns[column].type);
}

bool cell_is_wrong(const struct ridge_rights *rights, uint64_t nexus,
                   const uint8_t *cdb)
{
    const char *wrong = getenv("WRONG_CELLS");
    size_t cell = cell_of(rights, nexus, cdb);
    char name[CELL_NAME_ROOM];

    if (wrong == NULL || cell == CELLS)
        return false;
    cell_name(cell, name);
    return strstr(wrong, name) != NULL;
}
