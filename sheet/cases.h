/* A worked case: its records, every step from the library, and of each year the posts with what is worked out here. */
#ifndef SHEET_CASES_H
#define SHEET_CASES_H

#include "frames.h"

#include <canyonsieve.h>

#if CANYONSIEVE_VERSION != 8
#error "another version of canyonsieve.h"
#endif

/* How much of a post counts. */
enum extent { NONE, CUT, IN_FULL };

/* A year: its record, its posts, its steps, its contracted minutes H and K, the parts of its week; whether a whole-time
 * post counts by itself; and of each post its parts and the pay counted. */
struct case_year {
    const struct record *record;
    const struct record *posts;
    size_t count;
    const struct canyonsieve_year_steps *steps;
    uint64_t brought_forward;
    uint64_t contracted;
    uint64_t weighted;
    int has_whole_time;
    uint64_t parts[CANYONSIEVE_MAX_POSTS];
    uint64_t pay_counted[CANYONSIEVE_MAX_POSTS];
};

struct worked_case {
    const struct records *records;
    const struct record *member;
    uint64_t section;
    struct canyonsieve_sheet steps;
    size_t years;
    struct case_year year[CANYONSIEVE_MAX_YEARS];
};

/* Fills in a case of noughts from its records and their steps, which must not be refused. Gives whether the library's
 * answers agree with the records and with each other. */
int work_case(struct worked_case *work, const struct records *records, const struct canyonsieve_sheet *steps);

/* What is worked out of a post at a place of its year, the first being 0; all of it exact. */
struct figure proportion(const struct case_year *year, size_t place);
struct figure comparable_pay(const struct case_year *year, size_t place);
struct figure rate_of(const struct case_year *year, size_t place);
struct figure hours_counted(const struct case_year *year, size_t place);
struct figure hours_left_out(const struct case_year *year, size_t place);
enum extent extent_of(const struct case_year *year, size_t place);

/* A fraction, whole and rest, the rest reduced. The denominator is not 0. */
struct figure divided(enum number kind, uint64_t numerator, uint64_t denominator);

/* A whole number as a figure. */
struct figure whole(enum number kind, uint64_t number);

/* A word in a figure's place. */
struct figure in_word(const char *word);

#endif
