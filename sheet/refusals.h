/* Why the engine refused a case, in words. The engine decides the refusal and its line; here are only the words. */
#ifndef SHEET_REFUSALS_H
#define SHEET_REFUSALS_H

#include "frames.h"

/* What a text was refused for: the refusal, the line of the text, that text, and whether it was made from words. */
struct refused {
    uint64_t refusal;
    uint64_t line;
    struct span text;
    int from_words;
};

/* Puts the message: the line of the person's own file, where there is one, the cause, and the number of the refusal. */
void put_refusal(struct text *message, const struct records *records, struct refused refused);

/* The one number that no limit of the engine keeps within its field: the factor of a debit. Puts a message about the
 * first that is too large, with its line; whether there was one. */
int put_large_factor(struct text *message, const struct records *records);

#endif
