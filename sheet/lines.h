/* The steps of a worked case as lines, each saying its step, what it is, its figure, which way that was rounded and how
 * it comes about. The sheet and the spreadsheet print the same lines. */
#ifndef SHEET_LINES_H
#define SHEET_LINES_H

#include "cases.h"

/* The step of a line, by the number that docs/RULES.md has for it. NO_STEP is what the case itself says, ALL_STEPS the
 * count over all of them. */
enum step {
    NO_STEP = 0,
    MONTHS_EARLY = 1,
    POSTS = 2,
    YEARS = 3,
    SECTION_PAY = 4,
    REDUCTION = 5,
    DEBITS = 6,
    CHARGE = 7,
    ALL_STEPS = 8
};

/* A way that no step rounds; the others are those of the library. */
enum { NO_WAY = 3 };

/* A line. What it is is said in three pieces, one behind the other. How it comes about stands in the text of its list,
 * from a place to another; a line feed in it begins a further line. */
struct line {
    enum step step;
    const char *what[3];
    struct figure figure;
    uint64_t way;
    size_t how_start;
    size_t how_end;
};

/* MOST_LINES: no block of the sheet has more. */
enum { MOST_LINES = 12 };

struct lines {
    struct line list[MOST_LINES];
    size_t count;
    struct text how;
};

/* The lines of a block, in the place of those that were there. */
void year_lines(struct lines *lines, const struct worked_case *work, size_t year);
void section_lines(struct lines *lines, const struct worked_case *work);
void retirement_lines(struct lines *lines, const struct worked_case *work);
void debit_lines(struct lines *lines, const struct worked_case *work);
void charge_lines(struct lines *lines, const struct worked_case *work);
void rounding_lines(struct lines *lines, const struct worked_case *work);

/* A way in words, empty for none. */
const char *way_in_words(uint64_t way);

/* The name of a step as the sheet has it, with its number; that of step 4 goes by the section. */
const char *step_in_words(enum step step, uint64_t section);

#endif
