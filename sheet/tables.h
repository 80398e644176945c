/* Tables of cells: columns of a least width, each cell on its side, two blanks between them, none at a row's end. */
#ifndef SHEET_TABLES_H
#define SHEET_TABLES_H

#include "text.h"

/* HEADINGS: a heading has at most so many rows. MOST_CELLS: those of the posts of a year. */
enum { HEADINGS = 3, MOST_COLUMNS = 12, MOST_CELLS = 16 * MOST_COLUMNS };

enum side { LEFT, RIGHT };

/* A column: its heading from the top row to the lowest, empty where a row has none; its least width; its side;
 * whether its cells are worked, so that a blank sheet leaves them out. */
struct column {
    const char *heading[HEADINGS];
    size_t least;
    enum side side;
    int is_worked;
};

/* Cells one behind the other, row by row: their bytes, where each ends, and how wide each is. */
struct cells {
    struct text bytes;
    size_t end[MOST_CELLS];
    size_t width[MOST_CELLS];
    size_t count;
};

/* Ends the cell whose bytes were put last. */
void end_cell(struct cells *cells);

/* The same of a number, of which only the sign of pounds before it has more than one byte. */
void end_number(struct cells *cells);

/* A cell of words. */
void add_cell(struct cells *cells, const char *words);

/* A cell of underscores, as wide as its column at least is. */
void add_line_to_fill(struct cells *cells, const struct column *column);

void no_cells(struct cells *cells);

int is_empty(const struct cells *cells, size_t place);

/* The widths of the columns: the least ones, or those of the widest cells. */
void widths_of(const struct cells *cells, const struct column *columns, size_t count, size_t widths[MOST_COLUMNS]);

/* A row of cells, the first of them at a place of the list. */
void put_row(struct text *out, const struct cells *cells, size_t first, const struct column *columns, size_t count,
             const size_t widths[MOST_COLUMNS]);

/* The rows of the heading, from one of them on. */
void put_headings(struct text *out, const struct column *columns, size_t count, const size_t widths[MOST_COLUMNS],
                  size_t from);

/* A rule under every column. */
void put_rule(struct text *out, size_t count, const size_t widths[MOST_COLUMNS]);

#endif
