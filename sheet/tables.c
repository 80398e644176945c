/* Tables of cells. */
#include "tables.h"

#include "characters.h"

#include <string.h>

/* BETWEEN: so many blanks between two columns. */
enum { BETWEEN = 2 };

/* The bytes that were put behind the last cell that was ended. */
static struct span last_bytes(const struct cells *cells)
{
    return from_place(&cells->bytes, cells->count == 0 ? 0 : cells->end[cells->count - 1]);
}

static void end_as_wide(struct cells *cells, size_t wide)
{
    if (cells->count == MOST_CELLS)
        return;
    cells->end[cells->count] = cells->bytes.length;
    cells->width[cells->count++] = wide;
}

void end_cell(struct cells *cells)
{
    end_as_wide(cells, width(last_bytes(cells)));
}

void end_number(struct cells *cells)
{
    struct span bytes = last_bytes(cells);

    end_as_wide(cells, bytes.length - (bytes.length > 0 && bytes.start[0] > 0x7F ? 1 : 0));
}

void add_cell(struct cells *cells, const char *words)
{
    put(&cells->bytes, words);
    end_cell(cells);
}

void add_line_to_fill(struct cells *cells, const struct column *column)
{
    put_repeated(&cells->bytes, '_', column->least);
    end_cell(cells);
}

void no_cells(struct cells *cells)
{
    cells->bytes.length = 0;
    cells->count = 0;
}

static struct span cell_at(const struct cells *cells, size_t place)
{
    struct span span = {NULL, 0};
    size_t start = place == 0 ? 0 : cells->end[place - 1];

    if (cells->end[place] > start) {
        span.start = (const unsigned char *)cells->bytes.bytes + start;
        span.length = cells->end[place] - start;
    }
    return span;
}

int is_empty(const struct cells *cells, size_t place)
{
    return cell_at(cells, place).length == 0;
}

void widths_of(const struct cells *cells, const struct column *columns, size_t count, size_t widths[MOST_COLUMNS])
{
    for (size_t i = 0; i < count; i++)
        widths[i] = columns[i].least;
    for (size_t i = 0; i < cells->count; i++) {
        if (cells->width[i] > widths[i % count])
            widths[i % count] = cells->width[i];
    }
}

/* A row as it is put: how many blanks are owed before the next cell. Those owed at its end are never put. */
struct row {
    struct text *out;
    size_t start;
    size_t owed;
};

/* A cell that takes so many places, on its side of a column. */
static void put_cell(struct row *row, struct span cell, size_t taken, enum side side, size_t wide)
{
    size_t blanks = taken < wide ? wide - taken : 0;

    if (side == RIGHT)
        row->owed += blanks;
    if (cell.length > 0) {
        put_repeated(row->out, ' ', row->owed);
        put_span(row->out, cell);
        row->owed = 0;
    }
    row->owed += (side == LEFT ? blanks : 0) + BETWEEN;
}

/* Ends a row; a name may itself end in blanks. */
static void end_row(struct row *row)
{
    drop_blanks(row->out, row->start);
    put_byte(row->out, '\n');
}

void put_row(struct text *out, const struct cells *cells, size_t first, const struct column *columns, size_t count,
             const size_t widths[MOST_COLUMNS])
{
    struct row row = {out, out->length, 0};

    for (size_t i = 0; i < count && first + i < cells->count; i++)
        put_cell(&row, cell_at(cells, first + i), cells->width[first + i], columns[i].side, widths[i]);
    end_row(&row);
}

void put_headings(struct text *out, const struct column *columns, size_t count, const size_t widths[MOST_COLUMNS],
                  size_t from)
{
    for (size_t line = from; line < HEADINGS; line++) {
        struct row row = {out, out->length, 0};
        for (size_t i = 0; i < count; i++) {
            struct span heading = {(const unsigned char *)columns[i].heading[line], strlen(columns[i].heading[line])};
            put_cell(&row, heading, heading.length, columns[i].side, widths[i]);
        }
        end_row(&row);
    }
}

void put_rule(struct text *out, size_t count, const size_t widths[MOST_COLUMNS])
{
    for (size_t i = 0; i < count; i++) {
        if (i > 0)
            put_repeated(out, ' ', BETWEEN);
        put_repeated(out, '-', widths[i]);
    }
    put_byte(out, '\n');
}
