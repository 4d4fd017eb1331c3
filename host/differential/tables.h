/*
 * tables.h - occasions that stand in tables: what a call came to, told apart by
 * up to three things at once, so that each cell of a table is an occasion.
 */

#ifndef TABLES_H
#define TABLES_H

#include <stddef.h>

enum { TABLE_AXES = 3, AXIS_LABELS = 24, TABLE_NAME_ROOM = 160 };

/* What the rows or columns of a table are told apart by. */
struct axis {
    size_t count;
    const char *labels[AXIS_LABELS];
};

/* The axes are named by their numbers; one of a table that has fewer is 0. */
struct table {
    const char *name;
    size_t axes[TABLE_AXES];
};

/* The tables of one subject; axis 0 has one label, which is empty. */
struct tables {
    const char *subject;
    const struct axis *axes;
    const struct table *of;
};

size_t table_cells(const struct tables *tables, size_t table);

/* The number of a cell; the last axis counts fastest. */
size_t table_cell(const struct tables *tables, size_t table,
                  const size_t at[TABLE_AXES]);

void table_cell_name(const struct tables *tables, size_t table, size_t cell,
                     char name[TABLE_NAME_ROOM]);

#endif
