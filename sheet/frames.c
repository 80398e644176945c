/* The frames of a case, and their text. */
#include "frames.h"

#include <canyonsieve.h>

#include <stdlib.h>
#include <string.h>

#define PAY_FIELD(year)                                                                                                \
    {                                                                                                                  \
        "pay of year " #year ": ", "", MONEY, 4, 0, CANYONSIEVE_MAX_PAY                                                \
    }
#define ALLOWANCE_FIELD(year)                                                                                          \
    {                                                                                                                  \
        "allowance of year " #year ": ", "", ALLOWANCE, 2, 0, 1000                                                     \
    }
#define DAYS_FIELD                                                                                                     \
    {                                                                                                                  \
        "", " days", DAYS, 2, 0, 16425                                                                                 \
    }
#define SCHEME_FIELD                                                                                                   \
    {                                                                                                                  \
        "scheme ", "", COUNT, 1, 0, 1                                                                                  \
    }

/* Of dates only the years have limits of their own; refusals.c says the rest. */
static const struct field member_fields[] = {
    {"", "", CALENDAR_YEAR, 2, 1900, 2100}, {"", "", COUNT, 1, 0, 255},   {"", "", COUNT, 1, 0, 255},
    {"", "", CALENDAR_YEAR, 2, 1900, 2100}, {"", "", COUNT, 1, 0, 255},   {"", "", COUNT, 1, 0, 255},
    {"section ", "", COUNT, 1, 0, 2},       {"age ", "", AGE, 1, 55, 75}, {"", "", AGE, 1, 0, 255},
};
static const struct field year_fields[] = {
    {"", "", CALENDAR_YEAR, 2, 2015, 2100},
    {"revaluation ", "", REVALUATION, 2, 0, 2000},
};
static const struct field post_fields[] = {
    {"", "", TIME, 2, 1, 10080},
    {"", "", TIME, 2, 0, 10080},
    {"", "", MONEY, 4, 0, CANYONSIEVE_MAX_PAY},
    {"supplement ", "", MONEY, 4, 0, CANYONSIEVE_MAX_PAY},
};
static const struct field final_pay_fields[] = {
    PAY_FIELD(4),       PAY_FIELD(3),
    PAY_FIELD(2),       PAY_FIELD(1),
    ALLOWANCE_FIELD(3), ALLOWANCE_FIELD(2),
    ALLOWANCE_FIELD(1), {"controls ", "", COUNT, 1, 0, 7},
    DAYS_FIELD,         {"factor ", "", HUNDREDTHS, 2, 1, 10000},
};
static const struct field factor_fields[] = {
    SCHEME_FIELD,
    {"", " months", MONTHS, 2, 1, 600},
    {"factor ", "", THOUSANDTHS, 2, 0, 1000},
    {"lump factor ", "", THOUSANDTHS, 2, 0, 1000},
};
static const struct field debit_fields[] = {
    SCHEME_FIELD,
    {"pot ", "", MONEY, 4, 0, CANYONSIEVE_MAX_PAY},
    {"factor ", "", HUNDREDTHS, 2, 1, 65535},
};
static const struct field ten_pays_fields[] = {
    PAY_FIELD(10), PAY_FIELD(9), PAY_FIELD(8), PAY_FIELD(7), PAY_FIELD(6), PAY_FIELD(5),
    PAY_FIELD(4),  PAY_FIELD(3), PAY_FIELD(2), PAY_FIELD(1), DAYS_FIELD,
};

#define FIELDS(list)                                                                                                   \
    {                                                                                                                  \
        list, sizeof list / sizeof list[0]                                                                             \
    }

size_t fields_of(uint64_t kind, const struct field **fields)
{
    static const struct {
        const struct field *list;
        size_t count;
    } frames[] = {
        [MEMBER] = FIELDS(member_fields),       [YEAR] = FIELDS(year_fields),     [POST] = FIELDS(post_fields),
        [FINAL_PAY] = FIELDS(final_pay_fields), [FACTOR] = FIELDS(factor_fields), [DEBIT] = FIELDS(debit_fields),
        [TEN_PAYS] = FIELDS(ten_pays_fields),
    };

    if (kind >= sizeof frames / sizeof frames[0])
        return 0;
    *fields = frames[kind].list;
    return frames[kind].count;
}

struct record *new_record(struct records *records, enum frame kind, uint64_t line)
{
    struct record *larger =
        records->failed ? NULL : grown(records->list, &records->room, records->count + 1, sizeof *records->list);
    struct record *record;

    if (larger == NULL) {
        records->failed = 1;
        return NULL;
    }
    records->list = larger;
    record = &larger[records->count++];
    memset(record, 0, sizeof *record);
    record->kind = kind;
    record->line = line;
    return record;
}

void free_records(struct records *records)
{
    free(records->list);
    free_text(&records->names);
}

uint64_t largest_of(unsigned width)
{
    return (UINT64_C(1) << (8 * width)) - 1;
}

int fits(const struct record *record)
{
    const struct field *fields = NULL;
    size_t count = fields_of(record->kind, &fields);

    for (size_t i = 0; i < count; i++) {
        if (record->number[i] > largest_of(fields[i].width))
            return 0;
    }
    return 1;
}

size_t put_fields(const struct record *record, uint8_t *bytes)
{
    const struct field *fields = NULL;
    size_t count = fields_of(record->kind, &fields);
    size_t length = 0;

    for (size_t i = 0; i < count; i++) {
        uint64_t largest = largest_of(fields[i].width);
        uint64_t number = record->number[i] > largest ? largest : record->number[i];
        for (unsigned byte = fields[i].width; byte > 0; byte--)
            bytes[length++] = (uint8_t)(number >> (8 * (byte - 1)));
    }
    return length;
}

void put_frame(struct text *text, const struct record *record)
{
    static const char digits[] = "0123456789ABCDEF";
    uint8_t bytes[MOST_BYTES] = {(uint8_t)record->kind};
    size_t length = 1 + put_fields(record, bytes + 1);
    char line[2 * MOST_BYTES + 1];

    for (size_t i = 0; i < length; i++) {
        line[2 * i] = digits[bytes[i] >> 4];
        line[2 * i + 1] = digits[bytes[i] & 15];
    }
    line[2 * length] = '\n';
    put_bytes(text, line, 2 * length + 1);
}

/* The number of a digit, or 16. */
static unsigned digit_of(unsigned char byte)
{
    if (byte >= '0' && byte <= '9')
        return (unsigned)(byte - '0');
    return byte >= 'A' && byte <= 'F' ? (unsigned)(byte - 'A') + 10 : 16;
}

/* The bytes that a line of digits says; 0 where it is none, or longer than any frame. */
static size_t bytes_of(struct span line, uint8_t *bytes)
{
    if (line.length % 2 != 0 || line.length > 2 * MOST_BYTES)
        return 0;
    for (size_t i = 0; i < line.length / 2; i++) {
        unsigned high = digit_of(line.start[2 * i]);
        unsigned low = digit_of(line.start[2 * i + 1]);
        if (high > 15 || low > 15)
            return 0;
        bytes[i] = (uint8_t)(16 * high + low);
    }
    return line.length / 2;
}

/* A record of the bytes of a frame; whether they are one. */
static int read_frame(struct records *records, const uint8_t *bytes, size_t length, uint64_t line)
{
    const struct field *fields = NULL;
    size_t count = length == 0 ? 0 : fields_of(bytes[0], &fields);
    size_t end = 1;
    struct record *record;

    for (size_t i = 0; i < count; i++)
        end += fields[i].width;
    if (count == 0 || end != length)
        return 0;
    record = new_record(records, (enum frame)bytes[0], line);
    if (record == NULL)
        return 0;
    bytes++;
    for (size_t i = 0; i < count; i++) {
        for (unsigned byte = 0; byte < fields[i].width; byte++)
            record->number[i] = record->number[i] << 8 | *bytes++;
    }
    return 1;
}

void read_frames(struct records *records, struct span text)
{
    uint8_t bytes[MOST_BYTES] = {0};
    const unsigned char *feed;

    for (uint64_t line = 1; text.length > 0 && (feed = memchr(text.start, '\n', text.length)) != NULL; line++) {
        struct span digits = {text.start, (size_t)(feed - text.start)};
        if (!read_frame(records, bytes, bytes_of(digits, bytes), line))
            return;
        text.start += digits.length + 1;
        text.length -= digits.length + 1;
    }
}

const struct record *first_of(const struct records *records, enum frame kind, size_t from)
{
    for (size_t i = from; i < records->count; i++) {
        if (records->list[i].kind == kind)
            return &records->list[i];
    }
    return NULL;
}

uint64_t section_of(const struct records *records)
{
    static const uint64_t sections[] = {0, 1995, 2008};
    const struct record *member = first_of(records, MEMBER, 0);

    return member == NULL || member->number[SECTION] > 2 ? 0 : sections[member->number[SECTION]];
}

uint64_t scheme_of(const struct records *records, const struct record *record)
{
    if (record->number[FACTOR_SCHEME] == 0)
        return 2015;
    return record->number[FACTOR_SCHEME] == 1 ? section_of(records) : 0;
}

uint64_t date_at(const struct record *record, size_t field)
{
    const uint64_t *number = &record->number[field];

    return (number[0] * 100 + number[1]) * 100 + number[2];
}

size_t fields_said(const struct records *records, const struct record *record)
{
    const struct field *fields = NULL;
    size_t count = fields_of(record->kind, &fields);

    return record->kind == FACTOR && scheme_of(records, record) != 1995 ? LUMP_FACTOR : count;
}

const struct record *pays_of(const struct records *records)
{
    const struct record *final_pay = first_of(records, FINAL_PAY, 0);

    return final_pay != NULL ? final_pay : first_of(records, TEN_PAYS, 0);
}

uint64_t years_of_pay(const struct record *pays)
{
    return pays->kind == FINAL_PAY ? 4 : 10;
}

uint64_t days_of(const struct record *pays)
{
    return pays->number[pays->kind == FINAL_PAY ? (size_t)FINAL_PAY_DAYS : (size_t)TEN_PAYS_DAYS];
}

uint64_t pay_of(const struct record *pays, uint64_t year)
{
    return pays->number[years_of_pay(pays) - year];
}

uint64_t allowance_of(const struct record *pays, uint64_t year)
{
    return pays->number[ALLOWANCES + 3 - year];
}

int is_controlled(const struct record *pays, uint64_t year)
{
    return (pays->number[CONTROLS] >> (3 - year) & 1) != 0;
}
