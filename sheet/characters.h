/* Characters of UTF-8, told by their bytes alone: no locale has a part in it. */
#ifndef SHEET_CHARACTERS_H
#define SHEET_CHARACTERS_H

#include "text.h"

/* The character at the start of a span, and how many bytes it has; 0 bytes where there is none, as where the bytes
 * are no UTF-8: an overlong one, a surrogate and a number above 10FFFF among them. */
size_t character(struct span span, uint32_t *code);

/* A control character: below a blank, from 007F to 009F. */
int is_control(uint32_t code);

/* How many characters there are, a byte that is no UTF-8 being one. */
size_t characters(struct span span);

/* How many places of a line the characters of UTF-8 take: one each, the combining marks 0300 to 036F none. */
size_t width(struct span span);

/* The span as it is in a text from a place on. */
struct span from_place(const struct text *text, size_t start);

#endif
