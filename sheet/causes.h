/* The causes of refusals, each in words. A cause puts its words behind a message and gives 1; or it finds none, puts
 * nothing and gives 0. */
#ifndef SHEET_CAUSES_H
#define SHEET_CAUSES_H

#include "frames.h"

/* A number of a record as the person wrote it; where there was no word for it, as it is printed. */
void put_own(struct text *message, const struct record *record, size_t field);

/* Refused at a line: 4; 5; 6; 7; 8; 9 and 27; 10; 11. */
int order_cause(struct text *message, const struct records *records, size_t place);
int member_cause(struct text *message, const struct records *records, size_t place);
int year_cause(struct text *message, const struct records *records, size_t place);
int post_cause(struct text *message, const struct records *records, size_t place);
int whole_time_cause(struct text *message, const struct records *records, size_t place);
int limit_cause(struct text *message, const struct records *records, size_t place);
int factor_cause(struct text *message, const struct records *records, size_t place);
int debit_cause(struct text *message, const struct records *records, size_t place);

/* Refused at the end: 12; 13; 14, for which the text is asked again without its debits. */
int no_pays_cause(struct text *message, const struct records *records);
int no_factor_cause(struct text *message, const struct records *records);
int debit_above_cause(struct text *message, const struct records *records, struct span text);

#endif
