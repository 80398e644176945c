/* Lines, words, and the first place that cannot be read. */
#include "scanner.h"

#include "characters.h"

#include <string.h>

/* LONG_WORD: no more characters of a word stand in a message. */
enum { LONG_WORD = 60 };

static const struct span nothing = {NULL, 0};

void put_shortened(struct text *text, struct span word)
{
    size_t length = 0;
    uint32_t code = 0;

    for (size_t i = 0; i < LONG_WORD && length < word.length; i++) {
        struct span left = {word.start + length, word.length - length};
        size_t next = character(left, &code);
        length += next == 0 ? 1 : next;
    }
    put_bytes(text, word.start, length);
    if (length < word.length)
        put(text, "...");
}

void trouble_at(struct scanner *scanner, const unsigned char *place, const char *before, struct span word,
                const char *after)
{
    struct span passed = {scanner->line.start, (size_t)(place - scanner->line.start)};

    if (scanner->troubled)
        return;
    scanner->troubled = 1;
    put(&scanner->message, "line ");
    put_digits(&scanner->message, scanner->number, 1);
    put(&scanner->message, ", column ");
    put_digits(&scanner->message, characters(passed) + 1, 1);
    put(&scanner->message, ": ");
    put(&scanner->message, before);
    if (word.length > 0) {
        put(&scanner->message, "\"");
        put_shortened(&scanner->message, word);
        put(&scanner->message, "\"");
    }
    put(&scanner->message, after);
    scanner->word.is_end = 1;
    scanner->ahead.length = 0;
}

void trouble(struct scanner *scanner, const char *after)
{
    trouble_at(scanner, scanner->word.start, "", scanner->word.bytes, after);
}

/* A trouble at the next character, told by its number in so many hexadecimal digits at least. */
static void trouble_with(struct scanner *scanner, const char *words, uint32_t code, unsigned count)
{
    char digits[2 * sizeof code + 1];

    while (count < 2 * sizeof code && code >> (4 * count) != 0)
        count++;
    digits[count] = '\0';
    while (count-- > 0) {
        digits[count] = "0123456789ABCDEF"[code & 15u];
        code >>= 4;
    }
    trouble_at(scanner, scanner->ahead.start, words, nothing, digits);
}

static void skip(struct scanner *scanner, size_t length)
{
    scanner->ahead.start += length;
    scanner->ahead.length -= length;
}

static int is_at(const struct scanner *scanner, unsigned char byte)
{
    return scanner->ahead.length > 0 && scanner->ahead.start[0] == byte;
}

static int is_at_blank(const struct scanner *scanner)
{
    return is_at(scanner, ' ') || is_at(scanner, '\t');
}

/* Goes past characters that need no looking at: those of one byte that are neither blank nor control, quote nor comment
 * sign. */
static void skip_plain(struct scanner *scanner)
{
    size_t length = 0;

    while (length < scanner->ahead.length && scanner->ahead.start[length] > '#' && scanner->ahead.start[length] < 0x7F)
        length++;
    skip(scanner, length);
}

/* Goes past the next character, if it can be read. */
static int take_character(struct scanner *scanner)
{
    uint32_t code = 0;
    size_t length = character(scanner->ahead, &code);

    if (length == 0)
        trouble_with(scanner, "a byte that is no UTF-8: ", scanner->ahead.start[0], 2);
    else if (is_control(code) && code != '\t')
        trouble_with(scanner, "a control character: U+", code, 4);
    else
        skip(scanner, length);
    return !scanner->troubled;
}

/* A comment, or nothing: every character of it is looked at. */
static void take_end(struct scanner *scanner)
{
    int goes_on = 1;

    scanner->word.is_end = 1;
    while (scanner->ahead.length > 0 && goes_on)
        goes_on = take_character(scanner);
}

/* A word in quotes, two quotes inside being one; its bytes are those between the outer ones. */
static void take_quoted(struct scanner *scanner)
{
    const unsigned char *start;

    skip(scanner, 1);
    start = scanner->ahead.start;
    scanner->word.quoted = 1;
    for (;;) {
        if (scanner->ahead.length == 0) {
            trouble_at(scanner, scanner->word.start, "a quote that is not closed", nothing, "");
            return;
        }
        if (is_at(scanner, '"')) {
            skip(scanner, 1);
            if (!is_at(scanner, '"'))
                break;
            skip(scanner, 1);
        } else if (!take_character(scanner)) {
            return;
        }
        skip_plain(scanner);
    }
    scanner->word.bytes.start = start;
    scanner->word.bytes.length = (size_t)(scanner->ahead.start - 1 - start);
    if (scanner->ahead.length > 0 && !is_at_blank(scanner))
        trouble_at(scanner, scanner->ahead.start, "no blank after a closing quote", nothing, "");
}

/* A word without quotes. */
static void take_bare(struct scanner *scanner)
{
    scanner->word.bytes.start = scanner->ahead.start;
    skip_plain(scanner);
    while (scanner->ahead.length > 0 && !is_at_blank(scanner) && !is_at(scanner, '#')) {
        if (is_at(scanner, '"')) {
            trouble_at(scanner, scanner->ahead.start, "a quote inside a word", nothing, "");
            return;
        }
        if (!take_character(scanner))
            return;
        skip_plain(scanner);
    }
    scanner->word.bytes.length = (size_t)(scanner->ahead.start - scanner->word.bytes.start);
}

void next_word(struct scanner *scanner)
{
    memset(&scanner->word, 0, sizeof scanner->word);
    while (is_at_blank(scanner))
        skip(scanner, 1);
    scanner->word.start = scanner->ahead.start;
    if (scanner->ahead.length == 0 || is_at(scanner, '#'))
        take_end(scanner);
    else if (is_at(scanner, '"'))
        take_quoted(scanner);
    else
        take_bare(scanner);
}

int next_line(struct scanner *scanner)
{
    const unsigned char *feed;
    size_t length;

    if (scanner->troubled || scanner->rest.length == 0)
        return 0;
    feed = memchr(scanner->rest.start, '\n', scanner->rest.length);
    length = feed == NULL ? scanner->rest.length : (size_t)(feed - scanner->rest.start);
    scanner->line.start = scanner->rest.start;
    scanner->line.length = length;
    if (feed != NULL && length > 0 && feed[-1] == '\r')
        scanner->line.length--;
    scanner->rest.start += feed == NULL ? length : length + 1;
    scanner->rest.length -= feed == NULL ? length : length + 1;
    scanner->ahead = scanner->line;
    scanner->number++;
    next_word(scanner);
    return !scanner->troubled;
}

void start_scanner(struct scanner *scanner, struct span bytes)
{
    static const unsigned char mark[] = {0xEF, 0xBB, 0xBF};

    memset(scanner, 0, sizeof *scanner);
    scanner->rest = bytes;
    if (bytes.length >= sizeof mark && memcmp(bytes.start, mark, sizeof mark) == 0) {
        scanner->rest.start += sizeof mark;
        scanner->rest.length -= sizeof mark;
    }
}

int is_word(const struct scanner *scanner, const char *keyword)
{
    const struct word *word = &scanner->word;
    size_t length = strlen(keyword);

    return !word->is_end && !word->quoted && word->bytes.length == length &&
           memcmp(word->bytes.start, keyword, length) == 0;
}
