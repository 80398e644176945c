/* The kinds of number that a case and its sheet have: how each is read in words and how it is printed. One table has
 * them all. No number is ever a floating one. */
#ifndef SHEET_NUMBERS_H
#define SHEET_NUMBERS_H

#include "text.h"

/* MONEY is in pence, TIME in minutes, REVALUATION in ten-thousandths and ALLOWANCE in thousandths, both said in per
 * cent; HUNDREDTHS, THOUSANDTHS and TEN_THOUSANDTHS are factors. A RATE is money for an hour a week. A DATE is its
 * digits as one number, a PROPORTION only a fraction, a WORD no number at all. */
enum number {
    MONEY,
    RATE,
    TIME,
    REVALUATION,
    ALLOWANCE,
    HUNDREDTHS,
    THOUSANDTHS,
    TEN_THOUSANDTHS,
    DAYS,
    MONTHS,
    AGE,
    CALENDAR_YEAR,
    PAY_YEAR,
    COUNT,
    PROPORTION,
    DATE,
    WORD
};

/* A number of the sheet, exact: the whole one, below nought or not, and a reduced fraction of one more, which is none
 * where the numerator is 0. */
struct figure {
    enum number kind;
    int below;
    uint64_t whole;
    uint64_t numerator;
    uint64_t denominator;
    const char *word;
};

/* Reads a word as a number of a kind that words can say. What is above 64 bits is their largest number. Gives NULL, or
 * what is wrong with the word, to be put after it; that is empty where the word is no number of the kind at all. */
const char *read_number(enum number kind, struct span word, uint64_t *number);

/* What a word is not that cannot be read as a number of a kind: "an amount of money". */
const char *number_in_words(enum number kind);

/* A number as a person reads it: £24,000.00, 37h30, 1.50%, 20.20. */
void put_number(struct text *text, enum number kind, uint64_t number);

/* The same of a figure, with its sign and its fraction. */
void put_figure(struct text *text, struct figure figure);

/* A number as a spreadsheet reads it, a date and a word in quotes; a proportion has only its fraction. */
void put_plain(struct text *text, struct figure figure);

/* The unit of a plain number, empty for a word. */
const char *unit_of(enum number kind);

#endif
