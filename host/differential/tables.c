/*
 * tables.c - the cells of tables, by number and by name; tables.h says what
 * for.
 */

#include "tables.h"

#include <stdio.h>

static const struct axis *axis_of(const struct tables *tables, size_t table,
                                  size_t axis)
{
    return &tables->axes[tables->of[table].axes[axis]];
}

size_t table_cells(const struct tables *tables, size_t table)
{
    size_t cells = 1;

    for (size_t axis = 0; axis < TABLE_AXES; axis++)
        cells *= axis_of(tables, table, axis)->count;
    return cells;
}

size_t table_cell(const struct tables *tables, size_t table,
                  const size_t at[TABLE_AXES])
{
    size_t cell = 0;

    for (size_t axis = 0; axis < TABLE_AXES; axis++)
        cell = cell * axis_of(tables, table, axis)->count + at[axis];
    return cell;
}

void table_cell_name(const struct tables *tables, size_t table, size_t cell,
                     char name[TABLE_NAME_ROOM])
{
    const char *labels[TABLE_AXES];

    for (size_t axis = TABLE_AXES; axis > 0; axis--) {
        const struct axis *labelled = axis_of(tables, table, axis - 1);

        labels[axis - 1] = labelled->labels[cell % labelled->count];
        cell /= labelled->count;
    }
    snprintf(name, TABLE_NAME_ROOM, "%s %s, %s%s%s%s%s", tables->subject,
             tables->of[table].name, labels[0], *labels[1] == '\0' ? "" : ", ",
             labels[1], *labels[2] == '\0' ? "" : ", ", labels[2]);
}
