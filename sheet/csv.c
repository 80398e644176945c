/* The table for a spreadsheet: a row for every number of the case and for every figure of the sheet, in the sheet's
 * order. */
#include "sheet.h"

#include "characters.h"
#include "lines.h"

#include <string.h>

/* What the printing of the table needs beside its case. The rows that belong together begin alike: with their kind,
 * year, number and name. */
struct table {
    struct text *out;
    const struct worked_case *work;
    struct text name;
    struct text beginning;
    struct lines lines;
};

static void put_cell_end(struct text *out)
{
    put_byte(out, ',');
}

/* Bytes inside quotes, each quote doubled. */
static void put_doubled(struct text *out, struct span span)
{
    while (span.length > 0) {
        const unsigned char *quote = memchr(span.start, '"', span.length);
        size_t length = quote == NULL ? span.length : (size_t)(quote - span.start) + 1;
        put_bytes(out, span.start, length);
        if (quote != NULL)
            put_byte(out, '"');
        span.start += length;
        span.length -= length;
    }
}

/* A cell of words; without any it is empty. */
static void put_word(struct text *out, const char *word)
{
    if (word[0] != '\0') {
        put_byte(out, '"');
        put(out, word);
        put_byte(out, '"');
    }
    put_cell_end(out);
}

/* Whether a spreadsheet may take a name for a formula: it begins with a tab, or behind blanks and tabs with one of =
 * + - @, also as wide characters. */
static int is_like_formula(struct span name)
{
    uint32_t code = 0;
    size_t length;

    if (name.length > 0 && name.start[0] == '\t')
        return 1;
    while (name.length > 0 && (name.start[0] == ' ' || name.start[0] == '\t')) {
        name.start++;
        name.length--;
    }
    length = character(name, &code);
    if (length == 0)
        return 0;
    if (code >= 0xFF01 && code <= 0xFF5E)
        code -= 0xFF01 - 0x21;
    return code == '=' || code == '+' || code == '-' || code == '@';
}

static void put_name_cell(struct text *out, struct span name)
{
    if (name.length > 0) {
        put(out, is_like_formula(name) ? "\"'" : "\"");
        put_doubled(out, name);
        put_byte(out, '"');
    }
    put_cell_end(out);
}

static void put_positive(struct text *out, uint64_t number)
{
    if (number != 0)
        put_digits(out, number, 1);
    put_cell_end(out);
}

/* The fraction of a figure in two cells, both empty where it has none. A whole-time post has the proportion 1/1. */
static void put_fraction_cells(struct text *out, struct figure figure)
{
    uint64_t numerator =
        figure.kind == PROPORTION ? figure.whole * figure.denominator + figure.numerator : figure.numerator;

    put_positive(out, numerator);
    put_positive(out, numerator == 0 ? 0 : figure.denominator);
}

/* The kind, the year and the number of the rows that follow, both left out where they are 0, and the name that the
 * table has now, left out where it is empty. */
static void begin_rows(struct table *table, const char *kind, uint64_t year, uint64_t number)
{
    struct text *beginning = &table->beginning;

    beginning->length = 0;
    put_word(beginning, kind);
    put_positive(beginning, year);
    put_positive(beginning, number);
    put_name_cell(beginning, from_place(&table->name, 0));
}

/* A row: what it is, in three pieces, its step, its figure and the way that was rounded. */
static void put_csv_row(struct table *table, const char *const item[3], enum step step, struct figure figure,
                        uint64_t way)
{
    struct text *out = table->out;

    put_span(out, from_place(&table->beginning, 0));
    put_byte(out, '"');
    for (size_t i = 0; i < 3; i++)
        put(out, item[i]);
    put(out, "\",");
    put_positive(out, step == ALL_STEPS ? 0 : step);
    put_plain(out, figure);
    put_cell_end(out);
    put_fraction_cells(out, figure);
    put_word(out, unit_of(figure.kind));
    if (way != NO_WAY) {
        put_byte(out, '"');
        put(out, way_in_words(way));
        put_byte(out, '"');
    }
    put(out, "\r\n");
}

/* A row of what the case says or of a post's figure. */
static void put_item(struct table *table, enum step step, const char *item, struct figure figure)
{
    const char *const items[3] = {item, "", ""};

    put_csv_row(table, items, step, figure, NO_WAY);
}

static void name_scheme(struct table *table, uint64_t scheme)
{
    table->name.length = 0;
    if (scheme != 0)
        put_number(&table->name, CALENDAR_YEAR, scheme);
}

/* The lines that the table has now. */
static void put_lines(struct table *table, const char *kind, uint64_t year)
{
    name_scheme(table, 0);
    begin_rows(table, kind, year, 0);
    for (size_t i = 0; i < table->lines.count; i++) {
        const struct line *line = &table->lines.list[i];
        put_csv_row(table, line->what, line->step, line->figure, line->way);
    }
}

static void put_member_rows(struct table *table)
{
    const struct record *member = table->work->member;

    name_scheme(table, 0);
    begin_rows(table, "member", 0, 0);
    put_item(table, NO_STEP, "born", whole(DATE, date_at(member, BORN)));
    put_item(table, NO_STEP, "retires", whole(DATE, date_at(member, RETIRES)));
    name_scheme(table, 2015);
    begin_rows(table, "member", 0, 0);
    put_item(table, NO_STEP, "pension age", whole(AGE, member->number[PENSION_AGE]));
    if (table->work->section == 0)
        return;
    name_scheme(table, table->work->section);
    begin_rows(table, "member", 0, 0);
    put_item(table, NO_STEP, "pension age", whole(AGE, member->number[SECTION_AGE]));
}

static void put_post_rows(struct table *table, const struct case_year *year, size_t place)
{
    const struct record *post = &year->posts[place];

    table->name.length = 0;
    put_name(&table->name, table->work, post, place);
    begin_rows(table, "post", year->record->number[APRIL_YEAR], place + 1);
    put_item(table, NO_STEP, "contract", whole(TIME, post->number[CONTRACT]));
    put_item(table, NO_STEP, "whole time", whole(TIME, post->number[WHOLE_TIME]));
    put_item(table, POSTS, "proportion", proportion(year, place));
    put_item(table, NO_STEP, "pay", whole(MONEY, post->number[PAY]));
    put_item(table, NO_STEP, "supplement", whole(MONEY, post->number[SUPPLEMENT]));
    put_item(table, POSTS, "comparable whole-time pay", comparable_pay(year, place));
    put_item(table, POSTS, "rate", rate_of(year, place));
    put_item(table, POSTS, "hours counted", hours_counted(year, place));
    put_item(table, POSTS, "hours left out", hours_left_out(year, place));
    put_item(table, POSTS, "pay counted", whole(MONEY, year->pay_counted[place]));
    put_item(table, POSTS, "counts", in_word(extent_in_words(extent_of(year, place))));
}

static void put_year_rows(struct table *table, size_t place)
{
    const struct case_year *year = &table->work->year[place];
    uint64_t april = year->record->number[APRIL_YEAR];

    name_scheme(table, 0);
    begin_rows(table, "year", april, 0);
    put_item(table, NO_STEP, "revaluation", whole(REVALUATION, year->record->number[YEAR_REVALUATION]));
    for (size_t i = 0; i < year->count; i++)
        put_post_rows(table, year, i);
    year_lines(&table->lines, table->work, place);
    put_lines(table, "year", april);
}

static void put_pay_rows(struct table *table, const struct record *pays)
{
    uint64_t oldest = years_of_pay(pays);

    for (uint64_t year = oldest; year > 0; year--) {
        begin_rows(table, "section", 0, year);
        put_item(table, NO_STEP, "pay", whole(MONEY, pay_of(pays, year)));
        if (pays->kind != FINAL_PAY || year == oldest)
            continue;
        put_item(table, NO_STEP, "allowance", whole(ALLOWANCE, allowance_of(pays, year)));
        put_item(table, NO_STEP, "controlled", in_word(is_controlled(pays, year) ? "yes" : "no"));
    }
}

static void put_section_rows(struct table *table)
{
    const struct record *pays = pays_of(table->work->records);

    if (pays == NULL)
        return;
    name_scheme(table, table->work->section);
    begin_rows(table, "section", 0, 0);
    put_item(table, NO_STEP, "days of service", whole(DAYS, days_of(pays)));
    if (pays->kind == FINAL_PAY)
        put_item(table, NO_STEP, "factor of the charge", whole(HUNDREDTHS, pays->number[CHARGE_FACTOR]));
    put_pay_rows(table, pays);
    section_lines(&table->lines, table->work);
    put_lines(table, "section", 0);
}

/* All factors or all debits, each with the names of its fields. */
static void put_given_rows(struct table *table, enum frame kind, const char *called, const char *const items[4])
{
    const struct records *records = table->work->records;
    const struct field *fields = NULL;
    uint64_t number = 0;

    (void)fields_of(kind, &fields);
    for (size_t i = 0; i < records->count; i++) {
        const struct record *record = &records->list[i];
        if (record->kind != kind)
            continue;
        name_scheme(table, scheme_of(records, record));
        begin_rows(table, called, 0, ++number);
        for (size_t field = 1; field < fields_said(records, record); field++)
            put_item(table, NO_STEP, items[field], whole(fields[field].kind, record->number[field]));
    }
}

void put_csv(struct text *out, const struct worked_case *work)
{
    static const char *const factor_items[4] = {"", "months", "pension factor", "lump factor"};
    static const char *const debit_items[4] = {"", "pot", "factor", ""};
    struct table table = {out, work, {NULL, 0, 0, 0}, {NULL, 0, 0, 0}, {{{0}}, 0, {NULL, 0, 0, 0}}};

    put(out, "\"kind\",\"year\",\"number\",\"name\",\"item\",\"step\",\"value\",\"numerator\",\"denominator\",\"unit\","
             "\"rounded\"\r\n");
    put_member_rows(&table);
    for (size_t i = 0; i < work->years; i++)
        put_year_rows(&table, i);
    put_section_rows(&table);
    put_given_rows(&table, FACTOR, "factor", factor_items);
    retirement_lines(&table.lines, work);
    put_lines(&table, "retirement", 0);
    put_given_rows(&table, DEBIT, "debit", debit_items);
    debit_lines(&table.lines, work);
    put_lines(&table, "nets", 0);
    charge_lines(&table.lines, work);
    put_lines(&table, "charge", 0);
    rounding_lines(&table.lines, work);
    put_lines(&table, "rounding", 0);
    out->failed |= table.name.failed | table.beginning.failed | table.lines.how.failed;
    free_text(&table.name);
    free_text(&table.beginning);
    free_text(&table.lines.how);
}
