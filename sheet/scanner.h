/* The lines and words of a case in words, from the first to the last; the first place that cannot be read ends it. */
#ifndef SHEET_SCANNER_H
#define SHEET_SCANNER_H

#include "text.h"

/* A word of a line: its bytes, without the quotes where it stood in quotes; none at the line's end. */
struct word {
    struct span bytes;
    const unsigned char *start;
    int quoted;
    int is_end;
};

/* Where the reading is. `rest` is what follows the current line, `ahead` what follows the current word in it. The first
 * trouble is kept as a message, and from then on everything is at its end. */
struct scanner {
    struct span rest;
    struct span line;
    struct span ahead;
    uint64_t number;
    struct word word;
    int troubled;
    struct text message;
};

/* Starts before the first line, behind a byte order mark. */
void start_scanner(struct scanner *scanner, struct span bytes);

/* Goes to the next line and its first word; whether there is one. */
int next_line(struct scanner *scanner);

/* Goes to the next word of the line. */
void next_word(struct scanner *scanner);

/* Whether the current word is this one, without quotes. */
int is_word(const struct scanner *scanner, const char *keyword);

/* Keeps the first trouble: where it is, and what. A message is made of words, a word of the file in quotes, and more
 * words; the one in the middle may be empty. */
void trouble_at(struct scanner *scanner, const unsigned char *place, const char *before, struct span word,
                const char *after);

/* The same at the current word, which stands at the start of the message. */
void trouble(struct scanner *scanner, const char *after);

/* A word of the file for a message: whole, or its beginning where it is long. */
void put_shortened(struct text *text, struct span word);

#endif
