/* The causes of refusals at a line. */
#include "causes.h"

#include "words.h"

#include <canyonsieve.h>

void put_own(struct text *message, const struct record *record, size_t field)
{
    const struct field *fields = NULL;
    struct span word = own_word(record, field);

    (void)fields_of(record->kind, &fields);
    if (word.length > 0)
        put_shortened(message, word);
    else
        put_number(message, fields[field].kind, record->number[field]);
}

/* A field of a record that is outside its limits. */
static int outside(struct text *message, const struct record *record, size_t place)
{
    const struct field *fields = NULL;
    const struct field *field;

    (void)fields_of(record->kind, &fields);
    field = &fields[place];
    if (record->number[place] >= field->least && record->number[place] <= field->most)
        return 0;
    put(message, field->label);
    put_own(message, record, place);
    if (field->least == 0) {
        put(message, " is more than ");
    } else {
        put(message, " is not from ");
        put_number(message, field->kind, field->least);
        put(message, " to ");
    }
    put_number(message, field->kind, field->most);
    put(message, field->unit);
    return 1;
}

/* The first field from a place on that is outside its limits. */
static int first_outside(struct text *message, const struct record *record, size_t from)
{
    const struct field *fields = NULL;
    size_t count = fields_of(record->kind, &fields);

    for (size_t i = from; i < count; i++) {
        if (outside(message, record, i))
            return 1;
    }
    return 0;
}

int limit_cause(struct text *message, const struct records *records, size_t place)
{
    return first_outside(message, &records->list[place], 0);
}

static int words(struct text *message, const char *cause)
{
    put(message, cause);
    return 1;
}

/* A frame in a sentence. */
static const char *called(enum frame kind)
{
    static const char *const names[] = {
        [MEMBER] = "member", [YEAR] = "year",   [POST] = "post",        [FINAL_PAY] = "section",
        [FACTOR] = "factor", [DEBIT] = "debit", [TEN_PAYS] = "section",
    };

    return names[kind];
}

/* How late in a text a frame stands. */
static int stage(enum frame kind)
{
    static const int stages[] = {
        [MEMBER] = 0, [YEAR] = 1, [POST] = 1, [FINAL_PAY] = 2, [FACTOR] = 3, [DEBIT] = 4, [TEN_PAYS] = 2,
    };

    return stages[kind];
}

/* A section's pays for a member who has another section or none; only a text can say so. */
static int section_not_had(struct text *message, const struct records *records, const struct record *record)
{
    put(message, record->kind == FINAL_PAY ? "pays of the 1995 Section for a member of "
                                           : "pays of the 2008 Section for a member of ");
    if (section_of(records) == 0)
        return words(message, "no section");
    put(message, "the ");
    put_digits(message, section_of(records), 1);
    return words(message, " Section");
}

int order_cause(struct text *message, const struct records *records, size_t place)
{
    const struct record *record = &records->list[place];
    const struct record *before = place == 0 ? NULL : &records->list[place - 1];
    int has_pays = record->kind == FINAL_PAY || record->kind == TEN_PAYS;

    if (before != NULL && has_pays && stage(before->kind) < stage(record->kind))
        return section_not_had(message, records, record);
    put(message, "a ");
    if (before != NULL && (record->kind == MEMBER || (has_pays && stage(before->kind) == stage(record->kind)))) {
        put(message, "second ");
        return words(message, called(record->kind));
    }
    put(message, called(record->kind));
    if (before == NULL)
        return words(message, " before the member");
    if (record->kind == POST && before->kind == MEMBER)
        return words(message, " before any year");
    put(message, " after a ");
    return words(message, called(before->kind));
}

static int is_leap(uint64_t year)
{
    return year % 4 == 0 && (year % 100 != 0 || year % 400 == 0);
}

static int is_day(const uint64_t date[3])
{
    static const unsigned days[] = {31, 28, 31, 30, 31, 30, 31, 31, 30, 31, 30, 31};

    if (date[1] < 1 || date[1] > 12 || date[2] < 1)
        return 0;
    return date[2] <= days[date[1] - 1] + (date[1] == 2 && is_leap(date[0]) ? 1u : 0u);
}

/* A date as it was written. */
static void put_own_date(struct text *message, const struct record *record, size_t field)
{
    struct span word = own_word(record, field);

    if (word.length > 0)
        put_span(message, word);
    else
        put_number(message, DATE, date_at(record, field));
}

static int wrong_date(struct text *message, const struct record *record, size_t field)
{
    const struct field *fields = NULL;
    uint64_t year = record->number[field];

    (void)fields_of(record->kind, &fields);
    if (year < fields[field].least || year > fields[field].most) {
        put_own_date(message, record, field);
        return words(message, " is not in a year from 1900 to 2100");
    }
    if (is_day(&record->number[field]))
        return 0;
    put_own_date(message, record, field);
    return words(message, " is no day of the calendar");
}

int member_cause(struct text *message, const struct records *records, size_t place)
{
    const struct record *record = &records->list[place];

    if (wrong_date(message, record, BORN) || wrong_date(message, record, RETIRES))
        return 1;
    if (date_at(record, RETIRES) < date_at(record, BORN)) {
        put(message, "retires ");
        put_own_date(message, record, RETIRES);
        put(message, " is before born ");
        put_own_date(message, record, BORN);
        return 1;
    }
    return first_outside(message, record, SECTION);
}

/* The records of a kind before a place, counted back to one of another kind. */
static size_t alike_before(const struct records *records, size_t place, enum frame kind, enum frame until)
{
    size_t count = 0;

    while (place > 0 && records->list[place - 1].kind != until)
        count += records->list[--place].kind == kind;
    return count;
}

int year_cause(struct text *message, const struct records *records, size_t place)
{
    const struct record *record = &records->list[place];
    const struct record *before = NULL;

    if (first_outside(message, record, 0))
        return 1;
    if (alike_before(records, place, YEAR, MEMBER) >= CANYONSIEVE_MAX_YEARS)
        return words(message, "a 51st year");
    for (size_t i = 0; i < place; i++) {
        if (records->list[i].kind == YEAR)
            before = &records->list[i];
    }
    if (before == NULL)
        return 0;
    put_own(message, record, APRIL_YEAR);
    put(message, " is not the year after ");
    put_own(message, before, APRIL_YEAR);
    return 1;
}

int post_cause(struct text *message, const struct records *records, size_t place)
{
    const struct record *record = &records->list[place];
    const struct field *fields = NULL;

    (void)fields_of(POST, &fields);
    if (record->number[CONTRACT] == 0)
        return words(message, "no contracted hours");
    if (record->number[WHOLE_TIME] > fields[WHOLE_TIME].most) {
        put_own(message, record, WHOLE_TIME);
        return words(message, " is more than a week of 168h00");
    }
    if (record->number[CONTRACT] > record->number[WHOLE_TIME]) {
        put_own(message, record, CONTRACT);
        put(message, " is more than its whole-time week of ");
        put_own(message, record, WHOLE_TIME);
        return 1;
    }
    if (first_outside(message, record, PAY))
        return 1;
    if (alike_before(records, place, POST, YEAR) >= CANYONSIEVE_MAX_POSTS)
        return words(message, "a 17th post of the year");
    return 0;
}

int whole_time_cause(struct text *message, const struct records *records, size_t place)
{
    (void)records;
    (void)place;
    return words(message, "a second whole-time post of the year");
}

/* A scheme that the member does not have. */
static int scheme_not_had(struct text *message, const struct records *records, const struct record *record)
{
    uint64_t section = section_of(records);

    if (record->number[FACTOR_SCHEME] == 0 || (record->number[FACTOR_SCHEME] == 1 && section != 0))
        return 0;
    if (record->number[FACTOR_SCHEME] > 1 && record->scheme == 0)
        return outside(message, record, FACTOR_SCHEME);
    if (section == 0)
        return words(message, "the member has no section");
    put(message, "the member has no ");
    put_digits(message, record->scheme, 1);
    return words(message, " Section");
}

/* A factor by its scheme and months. */
static void put_factor(struct text *message, const struct records *records, const struct record *record)
{
    put_digits(message, scheme_of(records, record), 1);
    put(message, " ");
    put_own(message, record, FACTOR_MONTHS);
    put(message, " months");
}

int factor_cause(struct text *message, const struct records *records, size_t place)
{
    const struct record *record = &records->list[place];

    if (scheme_not_had(message, records, record) || first_outside(message, record, FACTOR_MONTHS))
        return 1;
    if (record->number[LUMP_FACTOR] != 0 && scheme_of(records, record) != 1995) {
        put(message, "a lump factor, and no lump sum in ");
        put_digits(message, scheme_of(records, record), 1);
        return 1;
    }
    if (place == 0 || records->list[place - 1].kind != FACTOR)
        return 0;
    put_factor(message, records, record);
    put(message, " is not after the factor before it, ");
    put_factor(message, records, &records->list[place - 1]);
    return 1;
}

int debit_cause(struct text *message, const struct records *records, size_t place)
{
    const struct record *record = &records->list[place];

    if (scheme_not_had(message, records, record) || first_outside(message, record, POT))
        return 1;
    if (place == 0 || records->list[place - 1].kind != DEBIT)
        return 0;
    put(message, "debit ");
    put_digits(message, scheme_of(records, record), 1);
    put(message, " is not after the debit before it, ");
    put_digits(message, scheme_of(records, &records->list[place - 1]), 1);
    return 1;
}
