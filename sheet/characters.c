/* Characters of UTF-8. */
#include "characters.h"

/* How many bytes the first byte promises, and its own bits; 0 where it can begin no character. */
static size_t promised(unsigned char first, uint32_t *bits)
{
    if (first < 0x80) {
        *bits = first;
        return 1;
    }
    if (first >= 0xC2 && first <= 0xDF) {
        *bits = first & 0x1Fu;
        return 2;
    }
    if (first >= 0xE0 && first <= 0xEF) {
        *bits = first & 0x0Fu;
        return 3;
    }
    if (first >= 0xF0 && first <= 0xF4) {
        *bits = first & 0x07u;
        return 4;
    }
    return 0;
}

size_t character(struct span span, uint32_t *code)
{
    static const uint32_t lowest[] = {0, 0, 0x80, 0x800, 0x10000};
    size_t length;

    if (span.length == 0)
        return 0;
    length = promised(span.start[0], code);
    if (length == 0 || length > span.length)
        return 0;
    for (size_t i = 1; i < length; i++) {
        if ((span.start[i] & 0xC0u) != 0x80u)
            return 0;
        *code = *code << 6 | (span.start[i] & 0x3Fu);
    }
    if (*code < lowest[length] || *code > 0x10FFFF || (*code >= 0xD800 && *code <= 0xDFFF))
        return 0;
    return length;
}

int is_control(uint32_t code)
{
    return code < 0x20 || (code >= 0x7F && code <= 0x9F);
}

size_t characters(struct span span)
{
    size_t count = 0;

    while (span.length > 0) {
        uint32_t code = 0;
        size_t length = character(span, &code);
        if (length == 0)
            length = 1;
        count++;
        span.start += length;
        span.length -= length;
    }
    return count;
}

/* A combining mark has two bytes, CC 80 to CC BF or CD 80 to CD AF. */
static size_t marks(struct span span)
{
    size_t count = 0;

    for (size_t i = 0; i + 1 < span.length; i++)
        count += span.start[i] == 0xCC || (span.start[i] == 0xCD && span.start[i + 1] < 0xB0);
    return count;
}

size_t width(struct span span)
{
    size_t following = 0;
    unsigned char highest = 0;

    for (size_t i = 0; i < span.length; i++) {
        following += span.start[i] >> 6 == 2;
        highest = span.start[i] > highest ? span.start[i] : highest;
    }
    return span.length - following - (highest < 0xCC ? 0 : marks(span));
}

struct span from_place(const struct text *text, size_t start)
{
    struct span span = {NULL, 0};

    if (text->length > start) {
        span.start = (const unsigned char *)text->bytes + start;
        span.length = text->length - start;
    }
    return span;
}
