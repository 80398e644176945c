/* How lines are built, and those of the years, the section and the count. Amounts are fields of library answers. */
#include "building.h"

#include <string.h>

/* TERMS_OF_LINE: so many terms of the weighted week stand on a line. */
enum { TERMS_OF_LINE = 3 };

const char *way_in_words(uint64_t way)
{
    static const char *const words[] = {
        [CANYONSIEVE_EXACT] = "exact", [CANYONSIEVE_DOWN] = "rounded down", [CANYONSIEVE_UP] = "rounded up"};

    return way < sizeof words / sizeof words[0] ? words[way] : "";
}

const char *step_in_words(enum step step, uint64_t section)
{
    static const char *const words[] = {
        [NO_STEP] = "",
        [MONTHS_EARLY] = "1 months early",
        [POSTS] = "2 posts",
        [YEARS] = "3 years",
        [SECTION_PAY] = "4 final pay",
        [REDUCTION] = "5 reduction",
        [DEBITS] = "6 debit",
        [CHARGE] = "7 charge",
        [ALL_STEPS] = "1 to 7",
    };

    return step == SECTION_PAY && section == 2008 ? "4 ten pays" : words[step];
}

void no_lines(struct lines *lines)
{
    lines->count = 0;
    lines->how.length = 0;
}

struct line *add(struct lines *lines, enum step step, const char *what, struct figure figure)
{
    struct line *line = &lines->list[lines->count++];

    memset(line, 0, sizeof *line);
    line->step = step;
    line->what[0] = what;
    line->what[1] = "";
    line->what[2] = "";
    line->figure = figure;
    line->way = NO_WAY;
    line->how_start = lines->how.length;
    return line;
}

void because(struct lines *lines, const char *words)
{
    put(&lines->how, words);
    lines->list[lines->count - 1].how_end = lines->how.length;
}

void amount(struct lines *lines, enum step step, const char *what, uint64_t pence)
{
    (void)add(lines, step, what, whole(MONEY, pence));
}

void rounded(struct lines *lines, enum step step, const char *what, struct canyonsieve_rounded pence)
{
    add(lines, step, what, whole(MONEY, pence.number))->way = pence.way;
}

void about(struct lines *lines, const char *benefit, const char *after)
{
    struct line *line = &lines->list[lines->count - 1];

    line->what[1] = benefit;
    line->what[2] = after;
}

void how(struct lines *lines, const char *before, enum number kind, uint64_t number, const char *after)
{
    put(&lines->how, before);
    put_number(&lines->how, kind, number);
    because(lines, after);
}

void how_two(struct lines *lines, uint64_t pence, const char *sign, enum number kind, uint64_t number)
{
    put_number(&lines->how, MONEY, pence);
    how(lines, sign, kind, number, "");
}

/* (h × w + h × w)/H, a line feed before every third term but the first. */
static void how_weighted(struct lines *lines, const struct case_year *year)
{
    for (size_t i = 0; i < year->count; i++) {
        put(&lines->how, i == 0 ? "(" : i % TERMS_OF_LINE == 0 ? " +\n" : " + ");
        put_number(&lines->how, TIME, year->posts[i].number[CONTRACT]);
        put(&lines->how, " × ");
        put_number(&lines->how, TIME, year->posts[i].number[WHOLE_TIME]);
    }
    how(lines, ")/", TIME, year->contracted, "");
}

/* The weighted week, where no post is whole-time. */
static void weighted_line(struct lines *lines, const struct case_year *year)
{
    if (year->count == 0)
        return;
    if (year->has_whole_time) {
        (void)add(lines, POSTS, "weighted week", in_word("none"));
        because(lines, "a whole-time post counts by itself: no other hours count");
        return;
    }
    /* worked here, exact: the weighted week, K/H */
    (void)add(lines, POSTS, "weighted week", divided(TIME, year->weighted, year->contracted));
    how_weighted(lines, year);
}

void year_lines(struct lines *lines, const struct worked_case *work, size_t place)
{
    const struct case_year *year = &work->year[place];
    const struct canyonsieve_year_steps *steps = year->steps;

    no_lines(lines);
    weighted_line(lines, year);
    rounded(lines, POSTS, "pensionable pay", steps->aggregate);
    because(lines, year->count == 0 ? "no posts" : "the pay counted of all posts");
    amount(lines, YEARS, "pension brought forward", year->brought_forward);
    if (place == 0)
        because(lines, "nothing before the first year");
    else
        how(lines, "carried forward from ", CALENDAR_YEAR, year[-1].record->number[APRIL_YEAR], "");
    rounded(lines, YEARS, "revalued", steps->revalued);
    how_two(lines, year->brought_forward, " × ", TEN_THOUSANDTHS, 10000 + year->record->number[YEAR_REVALUATION]);
    rounded(lines, YEARS, "a 54th of pensionable pay", steps->accrued);
    how(lines, "", MONEY, steps->aggregate.number, "/54");
    amount(lines, YEARS, "pension carried forward", steps->pension);
    how_two(lines, steps->revalued.number, " + ", MONEY, steps->accrued.number);
}

void how_by_days(struct lines *lines, uint64_t pence, uint64_t days, uint64_t over)
{
    put_number(&lines->how, MONEY, pence);
    put(&lines->how, " × ");
    put_number(&lines->how, DAYS, days);
    how(lines, "/", DAYS, over, "");
}

static void final_pay_lines(struct lines *lines, const struct canyonsieve_sheet *steps, uint64_t days)
{
    amount(lines, SECTION_PAY, "final pay", steps->pay.number);
    because(lines, "the highest pay of years 3, 2 and 1");
    (void)add(lines, SECTION_PAY, "year of final pay", whole(PAY_YEAR, steps->pay_year));
    because(lines, "of equal pays the later year");
    rounded(lines, SECTION_PAY, "1995 pension", steps->pension_1995.earned);
    how_by_days(lines, steps->pay.number, days, DAYS_OF_80TH);
    amount(lines, SECTION_PAY, "lump sum", steps->lump_sum.earned.number);
    how(lines, "3 × ", MONEY, steps->pension_1995.earned.number, "");
}

/* The three pays that end with a year. */
static void how_average(struct lines *lines, const struct record *pays, uint64_t year)
{
    put(&lines->how, "(");
    put_number(&lines->how, MONEY, pay_of(pays, year + 2));
    put(&lines->how, " + ");
    put_number(&lines->how, MONEY, pay_of(pays, year + 1));
    how(lines, " + ", MONEY, pay_of(pays, year), ")/3");
}

static void ten_pays_lines(struct lines *lines, const struct canyonsieve_sheet *steps, const struct record *pays)
{
    uint64_t year = steps->pay_year;

    rounded(lines, SECTION_PAY, "average of three years", steps->pay);
    how_average(lines, pays, year);
    (void)add(lines, SECTION_PAY, "last of the three years", whole(PAY_YEAR, year));
    put(&lines->how, "years ");
    put_number(&lines->how, PAY_YEAR, year + 2);
    put(&lines->how, ", ");
    put_number(&lines->how, PAY_YEAR, year + 1);
    how(lines, " and ", PAY_YEAR, year, ": of equal averages the latest");
    rounded(lines, SECTION_PAY, "2008 pension", steps->pension_1995.earned);
    how_by_days(lines, steps->pay.number, days_of(pays), DAYS_OF_60TH);
}

void section_lines(struct lines *lines, const struct worked_case *work)
{
    const struct record *pays = pays_of(work->records);

    no_lines(lines);
    if (pays == NULL)
        return;
    if (pays->kind == FINAL_PAY)
        final_pay_lines(lines, &work->steps, days_of(pays));
    else
        ten_pays_lines(lines, &work->steps, pays);
}

void rounding_lines(struct lines *lines, const struct worked_case *work)
{
    no_lines(lines);
    (void)add(lines, ALL_STEPS, "amounts rounded up", whole(COUNT, work->steps.rounded_up));
    because(lines, "the lines that say \"rounded up\"");
}
