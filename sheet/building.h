/* How lines are built: a line is added, and then how it comes about is put behind it. */
#ifndef SHEET_BUILDING_H
#define SHEET_BUILDING_H

#include "lines.h"

/* What a year of service earns is over so many days: an 80th in the 1995 Section, a 60th in the 2008. */
enum { DAYS_OF_80TH = 29200, DAYS_OF_60TH = 21900 };

void no_lines(struct lines *lines);

/* A new line, which no step rounds. */
struct line *add(struct lines *lines, enum step step, const char *what, struct figure figure);

/* A new line of an amount of pence; and of one that a step rounds. */
void amount(struct lines *lines, enum step step, const char *what, uint64_t pence);
void rounded(struct lines *lines, enum step step, const char *what, struct canyonsieve_rounded pence);

/* What the last line is, continued: the name of a benefit, and words behind it. */
void about(struct lines *lines, const char *benefit, const char *after);

/* How the last line comes about, continued: by words; by a number between words; by an amount, a sign and a number; by
 * an amount times days, over so many. */
void because(struct lines *lines, const char *words);
void how(struct lines *lines, const char *before, enum number kind, uint64_t number, const char *after);
void how_two(struct lines *lines, uint64_t pence, const char *sign, enum number kind, uint64_t number);
void how_by_days(struct lines *lines, uint64_t pence, uint64_t days, uint64_t over);

#endif
