/* Bytes that grow. A text that could not grow says so in `failed` and takes nothing more, so that a writer asks
 * once, at its end. */
#ifndef SHEET_TEXT_H
#define SHEET_TEXT_H

#include <stddef.h>
#include <stdint.h>

struct text {
    char *bytes;
    size_t length;
    size_t room;
    int failed;
};

/* Bytes of somebody else, lent. */
struct span {
    const unsigned char *start;
    size_t length;
};

/* Makes room for this many things of a size in a list that has `room` of them; gives the list where it is now, or NULL
 * where there is no memory, and the old one stays. */
void *grown(void *list, size_t *room, size_t wanted, size_t size);

void put_byte(struct text *text, char byte);
void put_bytes(struct text *text, const void *bytes, size_t length);
void put(struct text *text, const char *words);
void put_span(struct text *text, struct span span);
void put_repeated(struct text *text, char byte, size_t times);

/* Decimal digits, with noughts in front until there are this many. */
void put_digits(struct text *text, uint64_t number, unsigned least);

/* Takes the blanks off the end, back to a length. */
void drop_blanks(struct text *text, size_t back_to);

void free_text(struct text *text);

#endif
