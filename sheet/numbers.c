/* The kinds of number, in one table. */
#include "numbers.h"

#include <string.h>

enum { MINUTES_OF_HOUR = 60 };

/* What stands before and after a number, how many decimals it has, whether its thousands are parted by commas in print;
 * what a word is not that cannot be read as one, and its unit in a spreadsheet. */
struct kind {
    const char *before;
    const char *after;
    unsigned decimals;
    int commas;
    const char *called;
    const char *unit;
};

static const struct kind kinds[] = {
    [MONEY] = {"£", "", 2, 1, "an amount of money", "pounds"},
    [RATE] = {"£", "", 2, 1, "an amount of money", "pounds for an hour a week"},
    [TIME] = {"", "", 0, 0, "a number of hours (30h00, 30:00 or 30.5)", "minutes"},
    [REVALUATION] = {"", "%", 2, 0, "a percentage (1.50%)", "per cent"},
    [ALLOWANCE] = {"", "%", 1, 0, "a percentage (6.5%)", "per cent"},
    [HUNDREDTHS] = {"", "", 2, 0, "a factor (20.20)", "factor"},
    [THOUSANDTHS] = {"", "", 3, 0, "a factor (0.780)", "factor"},
    [TEN_THOUSANDTHS] = {"", "", 4, 0, "a factor (1.0150)", "factor"},
    [DAYS] = {"", "", 0, 1, "a whole number", "days"},
    [MONTHS] = {"", "", 0, 0, "a whole number", "months"},
    [AGE] = {"", "", 0, 0, "a whole number", "years"},
    [CALENDAR_YEAR] = {"", "", 0, 0, "a whole number", "year"},
    [PAY_YEAR] = {"", "", 0, 0, "a whole number", "year"},
    [COUNT] = {"", "", 0, 0, "a whole number", "amounts"},
    [PROPORTION] = {"", "", 0, 0, "a proportion", "of whole time"},
    [DATE] = {"", "", 0, 0, "a date (1970-04-01)", "date"},
    [WORD] = {"", "", 0, 0, "a word", ""},
};

static int is_digit(unsigned char byte)
{
    return byte >= '0' && byte <= '9';
}

/* Another digit behind a number, which stays at the largest of 64 bits once it is past it. */
static uint64_t with_digit(uint64_t number, unsigned digit)
{
    return number > (UINT64_MAX - digit) / 10 ? UINT64_MAX : number * 10 + digit;
}

static uint64_t times(uint64_t number, uint64_t by)
{
    return number > UINT64_MAX / by ? UINT64_MAX : number * by;
}

static struct span behind(struct span span, size_t length)
{
    span.start += length;
    span.length -= length;
    return span;
}

/* Takes the digits at the start of a span, putting them behind the number; gives how many there were. */
static size_t take_digits(struct span *span, uint64_t *number)
{
    size_t count = 0;

    while (count < span->length && is_digit(span->start[count])) {
        *number = with_digit(*number, (unsigned)(span->start[count] - '0'));
        count++;
    }
    *span = behind(*span, count);
    return count;
}

static int starts_with(struct span span, const char *words)
{
    size_t length = strlen(words);

    return span.length >= length && memcmp(span.start, words, length) == 0;
}

/* Takes whole pounds or the like: digits, in groups of three after the first comma where commas are taken. */
static int take_whole(struct span *span, int commas, uint64_t *number)
{
    size_t first = take_digits(span, number);

    if (first == 0)
        return 0;
    while (commas && starts_with(*span, ",")) {
        *span = behind(*span, 1);
        if (first > 3 || take_digits(span, number) != 3)
            return 0;
    }
    return 1;
}

/* Takes a point and decimals, if there are any: gives how many, or -1 where a point has none behind it. */
static int take_decimals(struct span *span, unsigned most, uint64_t *number)
{
    size_t count;

    if (!starts_with(*span, "."))
        return 0;
    *span = behind(*span, 1);
    count = take_digits(span, number);
    if (count == 0)
        return -1;
    return count > most ? (int)most + 1 : (int)count;
}

static const char *too_many(unsigned decimals)
{
    static const char *const words[] = {"has decimals, and its field holds none", "has more than 1 decimal",
                                        "has more than 2 decimals", "has more than 3 decimals",
                                        "has more than 4 decimals"};

    return words[decimals];
}

/* A number with decimals, between what its kind has before it, which may be left out, and after it, which may not. Only
 * amounts with a sign before them may have commas. */
static const char *read_decimal(const struct kind *kind, struct span span, uint64_t *number)
{
    int decimals;

    *number = 0;
    if (starts_with(span, kind->before))
        span = behind(span, strlen(kind->before));
    if (!take_whole(&span, kind->before[0] != '\0', number))
        return "";
    decimals = take_decimals(&span, kind->decimals, number);
    if (decimals < 0)
        return "";
    if (span.length == 0 && kind->after[0] != '\0')
        return "lacks its per cent sign";
    if (!starts_with(span, kind->after) || span.length != strlen(kind->after))
        return "";
    if (decimals > (int)kind->decimals)
        return too_many(kind->decimals);
    for (unsigned i = (unsigned)decimals; i < kind->decimals; i++)
        *number = times(*number, 10);
    return NULL;
}

/* The minutes of decimals of an hour, whatever noughts end them; whether they are whole. Hours of which the minutes are
 * whole have at most two decimals before such noughts, since 60 has one factor 5 and two factors 2. */
static int decimal_minutes(struct span decimals, uint64_t *minutes)
{
    uint64_t hundredths = 0;

    while (decimals.length > 0 && decimals.start[decimals.length - 1] == '0')
        decimals.length--;
    if (decimals.length > 2)
        return 0;
    hundredths = decimals.length > 0 ? (uint64_t)(decimals.start[0] - '0') * 10 : 0;
    hundredths += decimals.length > 1 ? (uint64_t)(decimals.start[1] - '0') : 0;
    /* worked here, exact: minutes from decimal hours */
    *minutes = hundredths * MINUTES_OF_HOUR / 100;
    return hundredths * MINUTES_OF_HOUR % 100 == 0;
}

/* Minutes behind an h or a colon: two digits, 00 to 59. */
static int clock_minutes(struct span digits, uint64_t *minutes)
{
    return take_digits(&digits, minutes) == 2 && digits.length == 0 && *minutes < MINUTES_OF_HOUR;
}

/* Hours: 30h00, 30:00, 30.5 or 30. */
static const char *read_hours(struct span span, uint64_t *number)
{
    uint64_t hours = 0;
    uint64_t minutes = 0;
    struct span rest = span;
    size_t digits = take_digits(&rest, &hours);

    if (digits == 0)
        return "";
    if (starts_with(rest, "h") || starts_with(rest, ":")) {
        if (!clock_minutes(behind(rest, 1), &minutes))
            return "";
    } else if (rest.length > 0) {
        uint64_t decimals = 0;
        struct span end = rest;
        if (take_decimals(&end, 0, &decimals) <= 0 || end.length > 0)
            return "";
        if (!decimal_minutes(behind(rest, 1), &minutes))
            return "is no whole number of minutes";
    }
    hours = times(hours, MINUTES_OF_HOUR);
    *number = hours > UINT64_MAX - minutes ? UINT64_MAX : hours + minutes;
    return NULL;
}

/* A date of exactly ten characters, as one number of its eight digits. */
static const char *read_date(struct span span, uint64_t *number)
{
    static const char pattern[] = "dddd-dd-dd";

    *number = 0;
    if (span.length != sizeof pattern - 1)
        return "";
    for (size_t i = 0; i < span.length; i++) {
        if (pattern[i] == 'd' ? !is_digit(span.start[i]) : span.start[i] != '-')
            return "";
        if (pattern[i] == 'd')
            *number = with_digit(*number, (unsigned)(span.start[i] - '0'));
    }
    return NULL;
}

const char *read_number(enum number kind, struct span word, uint64_t *number)
{
    if (kind == TIME)
        return read_hours(word, number);
    if (kind == DATE)
        return read_date(word, number);
    return read_decimal(&kinds[kind], word, number);
}

const char *number_in_words(enum number kind)
{
    return kinds[kind].called;
}

const char *unit_of(enum number kind)
{
    return kinds[kind].unit;
}

static uint64_t power_of_ten(unsigned exponent)
{
    uint64_t power = 1;

    while (exponent-- > 0)
        power *= 10;
    return power;
}

/* A number as it is being written, from its end to its start: room for 20 digits, their commas, and what stands around
 * them. */
struct writing {
    char bytes[48];
    size_t start;
};

static struct writing nothing_written(void)
{
    struct writing writing;

    writing.start = sizeof writing.bytes;
    return writing;
}

static void write_before(struct writing *writing, const char *words)
{
    size_t length = strlen(words);

    writing->start -= length;
    memcpy(writing->bytes + writing->start, words, length);
}

/* Digits, with noughts in front until there are this many. */
static void write_digits(struct writing *writing, uint64_t number, unsigned least)
{
    for (unsigned count = 0; count < least || number != 0; count++) {
        writing->bytes[--writing->start] = (char)('0' + number % 10);
        number /= 10;
    }
}

/* Digits with a comma before every three. */
static void write_grouped(struct writing *writing, uint64_t number)
{
    for (; number >= 1000; number /= 1000) {
        write_digits(writing, number % 1000, 3);
        writing->bytes[--writing->start] = ',';
    }
    write_digits(writing, number, 1);
}

static void put_written(struct text *text, const struct writing *writing)
{
    put_bytes(text, writing->bytes + writing->start, sizeof writing->bytes - writing->start);
}

/* A number with the decimals of its kind. */
static void write_decimal(struct writing *writing, const struct kind *kind, uint64_t number, int commas)
{
    uint64_t one = power_of_ten(kind->decimals);

    if (kind->decimals > 0) {
        write_digits(writing, number % one, kind->decimals);
        writing->bytes[--writing->start] = '.';
    }
    if (commas)
        write_grouped(writing, number / one);
    else
        write_digits(writing, number / one, 1);
}

/* The second of two numbers, with two digits, and the sign between them: minutes of hours, parts of a date. */
static void write_pair(struct writing *writing, uint64_t second, char sign)
{
    write_digits(writing, second, 2);
    writing->bytes[--writing->start] = sign;
}

void put_number(struct text *text, enum number kind, uint64_t number)
{
    struct writing writing = nothing_written();

    if (kind == TIME) {
        write_pair(&writing, number % MINUTES_OF_HOUR, 'h');
        write_digits(&writing, number / MINUTES_OF_HOUR, 1);
    } else if (kind == DATE) {
        write_pair(&writing, number % 100, '-');
        write_pair(&writing, number / 100 % 100, '-');
        write_digits(&writing, number / 10000, 4);
    } else {
        write_before(&writing, kinds[kind].after);
        write_decimal(&writing, &kinds[kind], number, kinds[kind].commas);
        write_before(&writing, kinds[kind].before);
    }
    put_written(text, &writing);
}

static void put_fraction(struct text *text, struct figure figure)
{
    struct writing writing = nothing_written();

    write_digits(&writing, figure.denominator, 1);
    write_before(&writing, "/");
    write_digits(&writing, figure.numerator, 1);
    put_written(text, &writing);
}

void put_figure(struct text *text, struct figure figure)
{
    if (figure.kind == WORD) {
        put(text, figure.word);
        return;
    }
    if (figure.kind == PROPORTION && figure.numerator != 0) {
        put_fraction(text, figure);
        return;
    }
    if (figure.below)
        put(text, "-");
    put_number(text, figure.kind, figure.whole);
    if (figure.numerator != 0) {
        put(text, " ");
        put_fraction(text, figure);
    }
}

void put_plain(struct text *text, struct figure figure)
{
    struct writing writing = nothing_written();

    if (figure.kind == PROPORTION)
        return;
    if (figure.kind == WORD || figure.kind == DATE) {
        put(text, "\"");
        put_figure(text, figure);
        put(text, "\"");
        return;
    }
    write_decimal(&writing, &kinds[figure.kind], figure.whole, 0);
    write_before(&writing, figure.below ? "-" : "");
    put_written(text, &writing);
}
