/* Bytes that grow. */
#include "text.h"

#include <stdlib.h>
#include <string.h>

/* DIGITS: as many as 64 bits have. */
enum { FIRST_ROOM = 64, DIGITS = 20 };

void *grown(void *list, size_t *room, size_t wanted, size_t size)
{
    size_t next = *room < FIRST_ROOM ? FIRST_ROOM : *room;
    void *larger;

    if (wanted <= *room)
        return list;
    while (next < wanted) {
        if (next > SIZE_MAX / 2)
            return NULL;
        next *= 2;
    }
    if (next > SIZE_MAX / size)
        return NULL;
    larger = realloc(list, next * size);
    if (larger != NULL)
        *room = next;
    return larger;
}

/* Makes room for so many bytes more; whether there is. */
static int makes_room(struct text *text, size_t more)
{
    char *larger = NULL;

    if (!text->failed && more <= SIZE_MAX - text->length)
        larger = grown(text->bytes, &text->room, text->length + more, 1);
    if (larger == NULL) {
        text->failed = 1;
        return 0;
    }
    text->bytes = larger;
    return 1;
}

static int has_room(struct text *text, size_t more)
{
    return (text->room - text->length >= more && !text->failed) || makes_room(text, more);
}

void put_byte(struct text *text, char byte)
{
    if (has_room(text, 1))
        text->bytes[text->length++] = byte;
}

void put_bytes(struct text *text, const void *bytes, size_t length)
{
    if (length == 0 || !has_room(text, length))
        return;
    memcpy(text->bytes + text->length, bytes, length);
    text->length += length;
}

void put(struct text *text, const char *words)
{
    if (words[0] != '\0')
        put_bytes(text, words, strlen(words));
}

void put_span(struct text *text, struct span span)
{
    put_bytes(text, span.start, span.length);
}

void put_repeated(struct text *text, char byte, size_t times)
{
    if (times == 0 || !has_room(text, times))
        return;
    memset(text->bytes + text->length, byte, times);
    text->length += times;
}

void put_digits(struct text *text, uint64_t number, unsigned least)
{
    char digits[DIGITS];
    unsigned count = 0;

    do {
        digits[DIGITS - ++count] = (char)('0' + number % 10);
        number /= 10;
    } while (number != 0);
    if (count < least)
        put_repeated(text, '0', least - count);
    put_bytes(text, digits + DIGITS - count, count);
}

void drop_blanks(struct text *text, size_t back_to)
{
    while (text->length > back_to && text->bytes[text->length - 1] == ' ')
        text->length--;
}

void free_text(struct text *text)
{
    free(text->bytes);
    text->bytes = NULL;
    text->length = 0;
    text->room = 0;
}
