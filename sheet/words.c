/* A case in words. Every kind of line has a form, a list of the places that make it; nothing is guessed or filled
 * in. */
#include "words.h"

#include <string.h>

/* A place is PLACED in its order, KEYED by a word and demanded in any order behind those, or OPTIONAL in the same
 * way. */
enum manner { PLACED, KEYED, OPTIONAL };

/* MOST_PLACES: no form has more. */
enum { MOST_PLACES = 8 };

/* A line that is being read: into which record, and into which words of its fields, NULL where nobody asks for them. */
struct reading {
    struct scanner *scanner;
    struct records *records;
    struct record *record;
    struct span *words;
};

/* A place: its keyword, or NULL; what reads behind it, into the record's fields from the first on, so many of them. */
struct place {
    const char *keyword;
    enum manner manner;
    void (*read)(struct reading reading, const struct place *place);
    size_t first;
    size_t count;
};

/* The form of a line: its first word; the scheme behind that, or NULL, and what is said of a word that is none. */
struct form {
    const char *word;
    const char *scheme;
    const char *no_scheme;
    enum frame kind;
    const struct place *places;
    size_t count;
};

static struct span span_of(const char *words)
{
    struct span span = {(const unsigned char *)words, strlen(words)};

    return span;
}

static void missing(struct scanner *scanner, const char *what)
{
    trouble_at(scanner, scanner->word.start, "missing: ", span_of(""), what);
}

/* The current word as a number of a kind; then on to the next word. */
static uint64_t take_number(struct scanner *scanner, enum number kind)
{
    uint64_t number = 0;
    const char *wrong;

    if (scanner->word.is_end) {
        missing(scanner, number_in_words(kind));
        return 0;
    }
    wrong = scanner->word.quoted ? "" : read_number(kind, scanner->word.bytes, &number);
    if (wrong == NULL) {
        next_word(scanner);
        return number;
    }
    if (wrong[0] == '\0') {
        trouble(scanner, " is not ");
        put(&scanner->message, number_in_words(kind));
    } else {
        trouble(scanner, " ");
        put(&scanner->message, wrong);
    }
    return 0;
}

/* So many numbers, each of the kind that its field has. */
static void take_numbers(struct reading reading, const struct place *place)
{
    const struct field *fields = NULL;

    (void)fields_of(reading.record->kind, &fields);
    for (size_t i = place->first; i < place->first + place->count && !reading.scanner->troubled; i++) {
        if (reading.words != NULL)
            reading.words[i] = reading.scanner->word.bytes;
        reading.record->number[i] = take_number(reading.scanner, fields[i].kind);
    }
}

/* A date, into the three fields of its year, month and day. */
static void take_date(struct reading reading, const struct place *place)
{
    struct span word = reading.scanner->word.bytes;
    uint64_t date = take_number(reading.scanner, DATE);

    if (reading.words != NULL)
        reading.words[place->first] = word;
    reading.record->number[place->first] = date / 10000;
    reading.record->number[place->first + 1] = date / 100 % 100;
    reading.record->number[place->first + 2] = date % 100;
}

/* The bit of the year that the current word is: 0 for year 3, 1 for year 2, 2 for year 1; 3 for another word. */
static unsigned control_bit(const struct scanner *scanner)
{
    static const char *const years[] = {"3", "2", "1"};
    unsigned bit = 0;

    while (bit < 3 && !is_word(scanner, years[bit]))
        bit++;
    return bit;
}

/* The years that are controlled, each once, or the word none. */
static void take_controls(struct reading reading, const struct place *place)
{
    struct scanner *scanner = reading.scanner;
    uint64_t controls = 0;

    if (is_word(scanner, "none")) {
        next_word(scanner);
        return;
    }
    for (unsigned bit = control_bit(scanner); bit < 3; bit = control_bit(scanner)) {
        if ((controls >> bit & 1) != 0)
            trouble(scanner, " is there twice");
        controls |= UINT64_C(1) << bit;
        next_word(scanner);
    }
    if (controls == 0 && scanner->word.is_end)
        missing(scanner, "none, or some of the years 3 2 1");
    else if (controls == 0)
        trouble(scanner, " is neither none nor one of the years 3 2 1");
    reading.record->number[place->first] = controls;
}

/* The bytes of a word, of two quotes one. */
static void put_single(struct text *text, struct span bytes)
{
    while (bytes.length > 0) {
        const unsigned char *quote = memchr(bytes.start, '"', bytes.length);
        size_t length = quote == NULL ? bytes.length : (size_t)(quote - bytes.start) + 1;
        size_t passed = quote == NULL ? length : length + 1;
        put_bytes(text, bytes.start, length);
        bytes.start += passed;
        bytes.length -= passed;
    }
}

/* A name: one word, or what stands in quotes, two quotes being one. */
static void take_name(struct reading reading, const struct place *place)
{
    struct scanner *scanner = reading.scanner;
    struct text *names = &reading.records->names;
    struct span bytes = scanner->word.bytes;

    (void)place;
    if (scanner->word.is_end)
        missing(scanner, "the name of the post");
    else if (bytes.length == 0)
        trouble(scanner, "an empty name");
    reading.record->name_start = names->length;
    put_single(names, bytes);
    reading.record->name_length = names->length - reading.record->name_start;
    next_word(scanner);
}

static const struct place member_places[] = {
    {"born", KEYED, take_date, BORN, 1},
    {"retires", KEYED, take_date, RETIRES, 1},
    {"age", KEYED, take_numbers, PENSION_AGE, 1},
};
static const struct place year_places[] = {
    {NULL, PLACED, take_numbers, APRIL_YEAR, 1},
    {"revaluation", KEYED, take_numbers, YEAR_REVALUATION, 1},
};
static const struct place post_places[] = {
    {NULL, PLACED, take_name, 0, 1},
    {NULL, PLACED, take_numbers, CONTRACT, 1},
    {"of", PLACED, take_numbers, WHOLE_TIME, 1},
    {NULL, PLACED, take_numbers, PAY, 1},
    {"supplement", OPTIONAL, take_numbers, SUPPLEMENT, 1},
};
static const struct place final_pay_places[] = {
    {"pays", KEYED, take_numbers, 0, 4},
    {"allowances", KEYED, take_numbers, ALLOWANCES, 3},
    {"controlled", KEYED, take_controls, CONTROLS, 1},
    {"days", KEYED, take_numbers, FINAL_PAY_DAYS, 1},
    {"factor", KEYED, take_numbers, CHARGE_FACTOR, 1},
};
static const struct place ten_pays_places[] = {
    {"pays", KEYED, take_numbers, 0, 10},
    {"days", KEYED, take_numbers, TEN_PAYS_DAYS, 1},
};
/* The last place is of the 1995 Section alone. */
static const struct place factor_places[] = {
    {NULL, PLACED, take_numbers, FACTOR_MONTHS, 1},
    {"months", PLACED, take_numbers, PENSION_FACTOR, 1},
    {"lump", KEYED, take_numbers, LUMP_FACTOR, 1},
};
static const struct place debit_places[] = {
    {"pot", KEYED, take_numbers, POT, 1},
    {"factor", KEYED, take_numbers, POT_FACTOR, 1},
};

#define NO_SECTION " is neither 1995 nor 2008"
#define NO_SCHEME " is not 2015, 1995 or 2008"

static const struct form forms[] = {
    {"member", NULL, NULL, MEMBER, member_places, 3},
    {"year", NULL, NULL, YEAR, year_places, 2},
    {"post", NULL, NULL, POST, post_places, 5},
    {"section", "1995", NO_SECTION, FINAL_PAY, final_pay_places, 5},
    {"section", "2008", NO_SECTION, TEN_PAYS, ten_pays_places, 2},
    {"factor", "2015", NO_SCHEME, FACTOR, factor_places, 2},
    {"factor", "1995", NO_SCHEME, FACTOR, factor_places, 3},
    {"factor", "2008", NO_SCHEME, FACTOR, factor_places, 2},
    {"debit", "2015", NO_SCHEME, DEBIT, debit_places, 2},
    {"debit", "1995", NO_SCHEME, DEBIT, debit_places, 2},
    {"debit", "2008", NO_SCHEME, DEBIT, debit_places, 2},
};

enum { FORMS = sizeof forms / sizeof forms[0] };

/* The form by the scheme behind the first word; the forms of a first word stand together. */
static const struct form *form_by_scheme(struct scanner *scanner, const struct form *form)
{
    const struct form *first = form;

    next_word(scanner);
    for (; form < forms + FORMS && strcmp(form->word, first->word) == 0; form++) {
        if (is_word(scanner, form->scheme))
            return form;
    }
    if (scanner->word.is_end)
        missing(scanner, "the scheme");
    else
        trouble(scanner, first->no_scheme);
    return NULL;
}

/* The form of the current line, with the scanner at the last of its words that say so. */
static const struct form *form_of(struct scanner *scanner)
{
    for (size_t i = 0; i < FORMS; i++) {
        if (is_word(scanner, forms[i].word))
            return forms[i].scheme == NULL ? &forms[i] : form_by_scheme(scanner, &forms[i]);
    }
    trouble(scanner, " begins no line of a case: member, year, post, section, factor or debit");
    return NULL;
}

/* The places that stand in their order; gives how many there are. */
static size_t take_placed(struct reading reading, const struct form *form)
{
    struct scanner *scanner = reading.scanner;
    size_t i;

    for (i = 0; i < form->count && form->places[i].manner == PLACED && !scanner->troubled; i++) {
        const struct place *place = &form->places[i];
        if (place->keyword != NULL && scanner->word.is_end) {
            missing(scanner, place->keyword);
        } else if (place->keyword != NULL && !is_word(scanner, place->keyword)) {
            trouble(scanner, " stands in the place of \"");
            put(&scanner->message, place->keyword);
            put(&scanner->message, "\"");
        }
        if (place->keyword != NULL)
            next_word(scanner);
        place->read(reading, place);
    }
    return i;
}

/* The place of the form with the current word, from a place on; or all of them. */
static size_t place_of(const struct scanner *scanner, const struct form *form, size_t from)
{
    while (from < form->count && !is_word(scanner, form->places[from].keyword))
        from++;
    return from;
}

/* The places with keywords, each at most once, in any order, until the line ends. */
static void take_keyed(struct reading reading, const struct form *form, size_t from)
{
    struct scanner *scanner = reading.scanner;
    int seen[MOST_PLACES] = {0};

    while (!scanner->word.is_end) {
        size_t i = place_of(scanner, form, from);
        if (i == form->count) {
            trouble(scanner, " is no field of this line");
            return;
        }
        if (seen[i]) {
            trouble(scanner, " is there twice");
            return;
        }
        seen[i] = 1;
        next_word(scanner);
        form->places[i].read(reading, &form->places[i]);
    }
    for (size_t i = from; i < form->count; i++) {
        if (form->places[i].manner == KEYED && !seen[i])
            missing(scanner, form->places[i].keyword);
    }
}

/* The current line, from its first word on. */
static void take_line(struct scanner *scanner, struct records *records, struct span *words)
{
    const struct form *form = form_of(scanner);
    struct reading reading = {scanner, records, NULL, words};

    if (form == NULL)
        return;
    reading.record = new_record(records, form->kind, scanner->number);
    if (reading.record == NULL)
        return;
    reading.record->words = scanner->line;
    if (form->scheme != NULL)
        (void)read_number(COUNT, span_of(form->scheme), &reading.record->scheme);
    next_word(scanner);
    take_keyed(reading, form, take_placed(reading, form));
}

/* The first section line says which section the member has. A factor or debit of the other one is of a scheme that the
 * engine does not know. */
static void settle_schemes(struct records *records)
{
    uint64_t section = 0;

    for (size_t i = 0; i < records->count && section == 0; i++) {
        if (records->list[i].kind == FINAL_PAY || records->list[i].kind == TEN_PAYS)
            section = records->list[i].scheme;
    }
    for (size_t i = 0; i < records->count; i++) {
        struct record *record = &records->list[i];
        if (record->kind == MEMBER && section != 0) {
            record->number[SECTION] = section == 1995 ? 1 : 2;
            record->number[SECTION_AGE] = section == 1995 ? 60 : 65;
        }
        if ((record->kind == FACTOR || record->kind == DEBIT) && record->scheme != 2015)
            record->number[FACTOR_SCHEME] = section == 0 || section == record->scheme ? 1 : 2;
    }
}

void read_words(struct records *records, struct scanner *scanner)
{
    while (!records->failed && next_line(scanner)) {
        if (!scanner->word.is_end)
            take_line(scanner, records, NULL);
    }
    settle_schemes(records);
}

struct span own_word(const struct record *record, size_t field)
{
    struct span words[MOST_FIELDS] = {{NULL, 0}};
    struct records records = {NULL, 0, 0, 0, {NULL, 0, 0, 0}};
    struct scanner scanner;

    if (record->words.length == 0)
        return words[field];
    start_scanner(&scanner, record->words);
    if (next_line(&scanner) && !scanner.word.is_end)
        take_line(&scanner, &records, words);
    free_text(&scanner.message);
    free_records(&records);
    return words[field];
}
