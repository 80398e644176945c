/* The sheet, block by block. */
#include "sheet.h"

#include "characters.h"
#include "lines.h"
#include "tables.h"

#include <string.h>

/* POST_COLUMN: the first column of the posts. HOW_MARGIN: where a further line of how something comes about begins. */
enum { POST_COLUMN = 0, POST_COLUMNS = 12, STEP_COLUMNS = 5, HOW_MARGIN = 85 };

/* What the printing of a sheet needs beside its case. */
struct page {
    struct text *out;
    const struct worked_case *work;
    int is_blank;
    struct cells cells;
    struct lines lines;
};

static const struct column post_columns[POST_COLUMNS] = {
    {{"", "", "post"}, 16, LEFT, 0},
    {{"", "", "contract"}, 8, RIGHT, 0},
    {{"", "whole", "time"}, 6, RIGHT, 0},
    {{"", "", "proportion"}, 10, RIGHT, 1},
    {{"", "", "pay"}, 11, RIGHT, 0},
    {{"", "", "supplement"}, 10, RIGHT, 0},
    {{"comparable", "whole-time", "pay"}, 14, RIGHT, 1},
    {{"rate: a year,", "for an hour", "a week"}, 13, RIGHT, 1},
    {{"", "hours", "counted *"}, 11, RIGHT, 1},
    {{"", "hours", "left out"}, 11, RIGHT, 1},
    {{"", "pay", "counted"}, 11, RIGHT, 1},
    {{"", "", "counts"}, 7, LEFT, 1},
};
static const struct column step_columns[STEP_COLUMNS] = {
    {{"", "", "step"}, 14, LEFT, 0},    {{"", "", "what"}, 30, LEFT, 0}, {{"", "", "figure"}, 20, RIGHT, 1},
    {{"", "", "rounded"}, 12, LEFT, 1}, {{"", "", "how"}, 0, LEFT, 0},
};
static const struct column pay_columns[] = {
    {{"", "", "year"}, 4, RIGHT, 0},
    {{"", "", "pay"}, 14, RIGHT, 0},
    {{"", "", "allowance"}, 9, RIGHT, 0},
    {{"", "", "controlled"}, 10, LEFT, 0},
};
static const struct column factor_columns[] = {
    {{"", "", "factor given"}, 12, LEFT, 0},
    {{"", "", "months"}, 6, RIGHT, 0},
    {{"", "", "pension"}, 7, RIGHT, 0},
    {{"", "", "lump sum"}, 8, RIGHT, 0},
};
static const struct column debit_columns[] = {
    {{"", "", "debit given"}, 12, LEFT, 0},
    {{"", "", "pot"}, 14, RIGHT, 0},
    {{"", "", "factor"}, 6, RIGHT, 0},
};

void put_name(struct text *text, const struct worked_case *work, const struct record *post, size_t place)
{
    if (post->name_length > 0) {
        put_bytes(text, work->records->names.bytes + post->name_start, post->name_length);
        return;
    }
    put(text, "post ");
    put_digits(text, place + 1, 1);
}

const char *extent_in_words(enum extent extent)
{
    static const char *const words[] = {[NONE] = "none", [CUT] = "cut", [IN_FULL] = "in full"};

    return words[extent];
}

static void add_number(struct cells *cells, enum number kind, uint64_t number)
{
    put_number(&cells->bytes, kind, number);
    end_number(cells);
}

/* A worked figure, or on a blank sheet the line to fill in. */
static void add_worked(struct page *page, const struct column *column, struct figure figure)
{
    if (page->is_blank) {
        add_line_to_fill(&page->cells, column);
        return;
    }
    put_figure(&page->cells.bytes, figure);
    end_number(&page->cells);
}

/* The name of a post for a line of the sheet: a tab in it is a blank. */
static void put_name_flat(struct page *page, struct text *text, const struct record *post, size_t place)
{
    size_t start = text->length;

    put_name(text, page->work, post, place);
    for (size_t i = start; i < text->length; i++) {
        if (text->bytes[i] == '\t')
            text->bytes[i] = ' ';
    }
}

/* The cells of a post. A name that is too wide is left out, and stands above its row. */
static void add_post(struct page *page, const struct case_year *year, size_t place)
{
    const struct record *post = &year->posts[place];
    struct text *bytes = &page->cells.bytes;
    size_t start = bytes->length;

    put_name_flat(page, bytes, post, place);
    if (width(from_place(bytes, start)) > post_columns[POST_COLUMN].least)
        bytes->length = start;
    end_cell(&page->cells);
    add_number(&page->cells, TIME, post->number[CONTRACT]);
    add_number(&page->cells, TIME, post->number[WHOLE_TIME]);
    add_worked(page, &post_columns[3], proportion(year, place));
    add_number(&page->cells, MONEY, post->number[PAY]);
    add_number(&page->cells, MONEY, post->number[SUPPLEMENT]);
    add_worked(page, &post_columns[6], comparable_pay(year, place));
    add_worked(page, &post_columns[7], rate_of(year, place));
    add_worked(page, &post_columns[8], hours_counted(year, place));
    add_worked(page, &post_columns[9], hours_left_out(year, place));
    add_worked(page, &post_columns[10], whole(MONEY, year->pay_counted[place]));
    add_worked(page, &post_columns[11], in_word(extent_in_words(extent_of(year, place))));
}

/* A name that is too wide for its column, on a line of its own: that of a row whose first cell is empty. */
static void put_wide_name(struct page *page, const struct case_year *year, size_t place)
{
    size_t start = page->out->length;

    if (!is_empty(&page->cells, place * POST_COLUMNS))
        return;
    put_name_flat(page, page->out, &year->posts[place], place);
    drop_blanks(page->out, start);
    put(page->out, "\n");
}

static void put_posts(struct page *page, const struct case_year *year)
{
    size_t widths[MOST_COLUMNS];

    if (year->count == 0) {
        put(page->out, "no posts\n");
        return;
    }
    no_cells(&page->cells);
    for (size_t i = 0; i < year->count; i++)
        add_post(page, year, i);
    widths_of(&page->cells, post_columns, POST_COLUMNS, widths);
    put_headings(page->out, post_columns, POST_COLUMNS, widths, 0);
    put_rule(page->out, POST_COLUMNS, widths);
    for (size_t i = 0; i < year->count; i++) {
        put_wide_name(page, year, i);
        put_row(page->out, &page->cells, i * POST_COLUMNS, post_columns, POST_COLUMNS, widths);
    }
    put(page->out, "* of the post that is cut, the hours counted are the \"curtailed hours\" of note 001\n");
}

/* How a line comes about; a line feed in it begins a further line under it. A blank sheet keeps only the dates. */
static void add_how(struct page *page, const struct line *line)
{
    size_t start = line->how_start;
    int is_kept = !page->is_blank || line->step == MONTHS_EARLY;

    while (is_kept && start < line->how_end) {
        const char *bytes = page->lines.how.bytes + start;
        const char *feed = memchr(bytes, '\n', line->how_end - start);
        size_t length = feed == NULL ? line->how_end - start : (size_t)(feed - bytes) + 1;
        put_bytes(&page->cells.bytes, bytes, length);
        if (feed != NULL)
            put_repeated(&page->cells.bytes, ' ', HOW_MARGIN);
        start += length;
    }
    end_cell(&page->cells);
}

static void put_step(struct page *page, const struct line *line, const size_t widths[MOST_COLUMNS])
{
    no_cells(&page->cells);
    add_cell(&page->cells, step_in_words(line->step, page->work->section));
    put(&page->cells.bytes, line->what[0]);
    put(&page->cells.bytes, line->what[1]);
    add_cell(&page->cells, line->what[2]);
    add_worked(page, &step_columns[2], line->figure);
    add_worked(page, &step_columns[3], in_word(way_in_words(line->way)));
    add_how(page, line);
    put_row(page->out, &page->cells, 0, step_columns, STEP_COLUMNS, widths);
}

/* The lines that the page has now, under their heading, behind an empty line. */
static void put_steps(struct page *page)
{
    size_t widths[MOST_COLUMNS];

    no_cells(&page->cells);
    widths_of(&page->cells, step_columns, STEP_COLUMNS, widths);
    put(page->out, "\n");
    put_headings(page->out, step_columns, STEP_COLUMNS, widths, HEADINGS - 1);
    for (size_t i = 0; i < page->lines.count; i++)
        put_step(page, &page->lines.list[i], widths);
}

/* The row of cells that the page has now, under the heading where it is the first row. */
static void put_given(struct page *page, const struct column *columns, size_t count, int is_first)
{
    size_t widths[MOST_COLUMNS];

    widths_of(&page->cells, columns, count, widths);
    if (is_first)
        put_headings(page->out, columns, count, widths, HEADINGS - 1);
    put_row(page->out, &page->cells, 0, columns, count, widths);
}

static void put_title(struct page *page)
{
    put(page->out,
        "WORKSHEET OF A PENSION CASE\n\n"
        "Pensions, pays and supplements are for a year, hours for a week; a lump sum and a charge are paid once.\n"
        "Amounts are rounded to the nearest penny, a half up. A fraction behind the pence or the minutes is exact.\n");
}

static void put_member(struct page *page)
{
    const uint64_t *number = page->work->member->number;
    struct text *out = page->out;

    put(out, "\nMEMBER\n\nborn ");
    put_number(out, DATE, date_at(page->work->member, BORN));
    put(out, ", retires ");
    put_number(out, DATE, date_at(page->work->member, RETIRES));
    put(out, ", pension age ");
    put_number(out, AGE, number[PENSION_AGE]);
    put(out, " in the 2015 Scheme, ");
    if (page->work->section == 0) {
        put(out, "no section\n");
        return;
    }
    put_number(out, AGE, number[SECTION_AGE]);
    put(out, page->work->section == 1995 ? " in the 1995 Section\n" : " in the 2008 Section\n");
}

static void put_year(struct page *page, size_t place)
{
    const struct case_year *year = &page->work->year[place];

    put(page->out, "\nYEAR ");
    put_number(page->out, CALENDAR_YEAR, year->record->number[APRIL_YEAR]);
    put(page->out, ", from 1 April ");
    put_number(page->out, CALENDAR_YEAR, year->record->number[APRIL_YEAR]);
    put(page->out, ", revaluation ");
    put_number(page->out, REVALUATION, year->record->number[YEAR_REVALUATION]);
    put(page->out, "\n\n");
    put_posts(page, year);
    year_lines(&page->lines, page->work, place);
    put_steps(page);
}

/* The pays of a section, the oldest first. */
static void put_pays(struct page *page, const struct record *pays)
{
    uint64_t oldest = years_of_pay(pays);
    int has_allowances = pays->kind == FINAL_PAY;

    for (uint64_t year = oldest; year > 0; year--) {
        no_cells(&page->cells);
        add_number(&page->cells, PAY_YEAR, year);
        add_number(&page->cells, MONEY, pay_of(pays, year));
        if (has_allowances && year < oldest) {
            add_number(&page->cells, ALLOWANCE, allowance_of(pays, year));
            add_cell(&page->cells, is_controlled(pays, year) ? "yes" : "no");
        }
        put_given(page, pay_columns, has_allowances ? 4 : 2, year == oldest);
    }
}

static void put_section(struct page *page)
{
    const struct record *pays = pays_of(page->work->records);

    if (pays == NULL)
        return;
    put(page->out, "\nSECTION ");
    put_number(page->out, CALENDAR_YEAR, page->work->section);
    put(page->out, ", ");
    put_number(page->out, DAYS, days_of(pays));
    put(page->out, " days of service");
    if (pays->kind == FINAL_PAY) {
        put(page->out, ", factor of the charge ");
        put_number(page->out, HUNDREDTHS, pays->number[CHARGE_FACTOR]);
    }
    put(page->out, "\n\n");
    put_pays(page, pays);
    section_lines(&page->lines, page->work);
    put_steps(page);
}

/* The fields of a factor or a debit behind its scheme. */
static void add_fields(struct page *page, const struct record *record)
{
    const struct field *fields = NULL;

    (void)fields_of(record->kind, &fields);
    for (size_t i = 1; i < fields_said(page->work->records, record); i++)
        add_number(&page->cells, fields[i].kind, record->number[i]);
}

/* All factors or debits of the case, in their order, with an empty line before the first. */
static void put_all_given(struct page *page, enum frame kind)
{
    const struct records *records = page->work->records;
    int is_first = 1;

    for (size_t i = 0; i < records->count; i++) {
        if (records->list[i].kind != kind)
            continue;
        if (is_first)
            put(page->out, "\n");
        no_cells(&page->cells);
        add_number(&page->cells, CALENDAR_YEAR, scheme_of(records, &records->list[i]));
        add_fields(page, &records->list[i]);
        put_given(page, kind == FACTOR ? factor_columns : debit_columns, kind == FACTOR ? 4 : 3, is_first);
        is_first = 0;
    }
}

void put_sheet(struct text *out, const struct worked_case *work, int is_blank)
{
    struct page page = {out, work, is_blank, {{NULL, 0, 0, 0}, {0}, {0}, 0}, {{{0}}, 0, {NULL, 0, 0, 0}}};

    put_title(&page);
    put_member(&page);
    for (size_t i = 0; i < work->years; i++)
        put_year(&page, i);
    put_section(&page);
    put(out, "\nRETIREMENT\n");
    put_all_given(&page, FACTOR);
    retirement_lines(&page.lines, work);
    put_steps(&page);
    put(out, "\nDEBITS AND NETS\n");
    put_all_given(&page, DEBIT);
    debit_lines(&page.lines, work);
    put_steps(&page);
    charge_lines(&page.lines, work);
    if (page.lines.count > 0) {
        put(out, "\nCHARGE\n");
        put_steps(&page);
    }
    rounding_lines(&page.lines, work);
    put(out, "\nROUNDING\n");
    put_steps(&page);
    out->failed |= page.cells.bytes.failed | page.lines.how.failed;
    free_text(&page.cells.bytes);
    free_text(&page.lines.how);
}
