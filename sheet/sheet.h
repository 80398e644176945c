/* The printing of a worked case: as a sheet, with its figures or blank, and as a table for a spreadsheet. */
#ifndef SHEET_SHEET_H
#define SHEET_SHEET_H

#include "cases.h"

/* The sheet; blank, with lines to fill in where a figure is worked. */
void put_sheet(struct text *out, const struct worked_case *work, int is_blank);

/* The table for a spreadsheet: rows of RFC 4180, plain decimals, names that are never a formula. */
void put_csv(struct text *out, const struct worked_case *work);

/* The name of a post: what the case calls it, or its number in the year, the first being 0. */
void put_name(struct text *text, const struct worked_case *work, const struct record *post, size_t place);

/* How much of a post counts, in a word. */
const char *extent_in_words(enum extent extent);

#endif
