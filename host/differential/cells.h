/*
 * cells.h - the cells of the conflict rule, as source document 004 has it in
 * its table 3: a row for each command served, and for its columns the type held
 * and who sends. These tell more senders apart than the table does, so a slip
 * in a cell of the table, or in the choice of a column, is one in some of these
 * cells. READ(10) and (16) are one row, WRITE likewise, and all actions of
 * PERSISTENT RESERVE OUT. The two commands of Q-1 and the pages of INQUIRY have
 * rows of their own, since a slip may be in theirs alone.
 */

#ifndef CELLS_H
#define CELLS_H

#include "generate.h"

enum { CELL_ROWS = 13, CELL_COLUMNS = 18, CELLS = CELL_ROWS * CELL_COLUMNS };

enum { CELL_NAME_ROOM = 48 };

/* The cell of a call on a valid state, a number below CELLS; CELLS itself if
   the operation code is not listed. */
size_t cell_of(const struct ridge_rights *rights, uint64_t nexus,
               const uint8_t *cdb);

/* Its name, such as read_of_stranger_under_6; type 0 is no reservation. */
void cell_name(size_t cell, char name[CELL_NAME_ROOM]);

/* Whether WRONG_CELLS in the environment names the call's cell. Wrong copies of
   the second program ask this: so one of them serves for all cells. */
bool cell_is_wrong(const struct ridge_rights *rights, uint64_t nexus,
                   const uint8_t *cdb);

#endif
