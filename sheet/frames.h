/* The frames of a case as records, each a list of numbers in the order of the frame's fields; and the hexadecimal
 * text of them, both ways. docs/FRAMES.md has the frames. */
#ifndef SHEET_FRAMES_H
#define SHEET_FRAMES_H

#include "numbers.h"

/* The kinds of frame. */
enum frame { MEMBER = 1, YEAR = 2, POST = 3, FINAL_PAY = 4, FACTOR = 5, DEBIT = 6, TEN_PAYS = 8 };

/* The fields of the frames, by their place behind the kind. The pays of a section begin at its first field. */
enum member_field { BORN = 0, RETIRES = 3, SECTION = 6, PENSION_AGE = 7, SECTION_AGE = 8 };
enum year_field { APRIL_YEAR = 0, YEAR_REVALUATION = 1 };
enum post_field { CONTRACT = 0, WHOLE_TIME = 1, PAY = 2, SUPPLEMENT = 3 };
enum final_pay_field { ALLOWANCES = 4, CONTROLS = 7, FINAL_PAY_DAYS = 8, CHARGE_FACTOR = 9 };
enum ten_pays_field { TEN_PAYS_DAYS = 10 };
enum factor_field { FACTOR_SCHEME = 0, FACTOR_MONTHS = 1, PENSION_FACTOR = 2, LUMP_FACTOR = 3 };
enum debit_field { DEBIT_SCHEME = 0, POT = 1, POT_FACTOR = 2 };

/* MOST_FIELDS: a frame of ten pays has the most. MOST_BYTES: and it is the longest, its kind included. */
enum { MOST_FIELDS = 11, MOST_BYTES = 43 };

/* A field: how a person calls it before the number and after its limit, its kind of number, its bytes, and the least
 * and the most that the engine takes. */
struct field {
    const char *label;
    const char *unit;
    enum number kind;
    unsigned width;
    uint64_t least;
    uint64_t most;
};

/* A line of the person's file that is a frame: its numbers, to 64 bits; the words that it was read from, lent by the
 * file, empty where it is from a text; of a post its name, in the case's names, empty where posts have none; of a
 * section, a factor and a debit the scheme as it was said, 2015, 1995 or 2008, or 0. */
struct record {
    enum frame kind;
    uint64_t line;
    uint64_t scheme;
    uint64_t number[MOST_FIELDS];
    struct span words;
    size_t name_start;
    size_t name_length;
};

/* The records of a case, in order. */
struct records {
    struct record *list;
    size_t count;
    size_t room;
    int failed;
    struct text names;
};

/* The fields of a kind of frame, and how many there are; 0 for a kind that is none. */
size_t fields_of(uint64_t kind, const struct field **fields);

/* A new record at the end, all noughts; NULL where there is no memory, which the records then say. */
struct record *new_record(struct records *records, enum frame kind, uint64_t line);

void free_records(struct records *records);

/* The largest number that a field of so many bytes can say. */
uint64_t largest_of(unsigned width);

/* Whether every number of a record can be said by its field. */
int fits(const struct record *record);

/* The bytes of a record's fields, behind its kind; a number too large for its field is the largest that it can say.
 * Gives how many there are; MOST_BYTES are room enough. */
size_t put_fields(const struct record *record, uint8_t *bytes);

/* The hexadecimal line of a record. */
void put_frame(struct text *text, const struct record *record);

/* The records of a text, up to the first line that is no frame. */
void read_frames(struct records *records, struct span text);

/* The first record of a kind from a place on, or NULL. */
const struct record *first_of(const struct records *records, enum frame kind, size_t from);

/* The section of the member, 1995 or 2008, or 0. */
uint64_t section_of(const struct records *records);

/* The scheme that a factor or a debit of the records is of: 2015, 1995 or 2008, or 0 for one that the member has
 * not. */
uint64_t scheme_of(const struct records *records, const struct record *record);

/* The date that begins at a field, as one number of its digits. */
uint64_t date_at(const struct record *record, size_t field);

/* How many fields of a factor or a debit a person says: only the 1995 Section has a lump factor. */
size_t fields_said(const struct records *records, const struct record *record);

/* The final pay or the ten pays of the case, or NULL; how many pays it has; the days of service beside them; and of a
 * year, year 1 being the last, its pay, its allowance and whether it is controlled. */
const struct record *pays_of(const struct records *records);
uint64_t years_of_pay(const struct record *pays);
uint64_t days_of(const struct record *pays);
uint64_t pay_of(const struct record *pays, uint64_t year);
uint64_t allowance_of(const struct record *pays, uint64_t year);
int is_controlled(const struct record *pays, uint64_t year);

#endif
