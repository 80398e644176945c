/* Canyonsieve: calls of a proved pension case engine, for payroll code in C or C++.
 *
 * SPDX-License-Identifier: MIT
 * Copyright (c) 2026 Canyonsieve maintainers. The licence is in the file LICENSE.
 *
 * Amounts of money are in pence, contracts in minutes a week, spans in months. A pension, a pay, a supplement and an
 * abatement are amounts for a YEAR: what is paid every month is a share of them, which the caller works out. A lump sum
 * and a charge are paid ONCE. Only the two pays with each employer in canyonsieve_change_of_employer are for their
 * DAYS.
 *
 * Each call takes any numbers whatever: what the rules do not take is refused. Each gives a refusal, 0 for none, and
 * numbers beside it, all 0 when refused: look at the refusal first, since 0 is a legal amount. Results are returned by
 * value. No call allocates, keeps anything between calls or reads anything but its arguments, so all are reentrant, and
 * several threads may call at once.
 *
 * docs/FRAMES.md says how a text is written, byte by byte, and docs/RULES.md by which steps it is worked, with examples
 * and a glossary; both are installed under share/doc/canyonsieve. Link with libcanyonsieve.a, which is for x86-64
 * Linux, on a processor of level x86-64-v2.
 */
#ifndef CANYONSIEVE_H
#define CANYONSIEVE_H

#include <stddef.h>
#include <stdint.h>

#ifdef __cplusplus
extern "C" {
#endif

/* The version of this interface. It is raised by one when a function is added, when a struct or a frame changes, and
 * when a kind of frame is added. Code that was written for one version asks for it:
 *     #if CANYONSIEVE_VERSION != 7
 *     #error "another version of canyonsieve.h"
 *     #endif */
#define CANYONSIEVE_VERSION 7

/* The limits. */
#define CANYONSIEVE_MAX_POSTS 16         /* posts of a year */
#define CANYONSIEVE_MAX_YEARS 50         /* years of a case */
#define CANYONSIEVE_MAX_TEXT 32768       /* bytes of a text */
#define CANYONSIEVE_MAX_PAY 1000000000   /* pence of a pay, of a supplement, and of a Scheme Pays pot */
#define CANYONSIEVE_BYTES_OF_POST 12     /* bytes of a post in the posts call */

/* A result that is not looked at may be a refusal that is paid. */
#if defined(__GNUC__)
#define CANYONSIEVE_CHECKED __attribute__((warn_unused_result))
#else
#define CANYONSIEVE_CHECKED
#endif

/* The refusals. */
enum canyonsieve_refusal {
    CANYONSIEVE_ACCEPTED = 0,
    /* A text of more than 32,768 bytes. */
    CANYONSIEVE_TEXT_LENGTH = 1,
    /* An empty line, another character than 0-9 and A-F, an odd count of digits, or no line feed at the end. */
    CANYONSIEVE_LINE = 2,
    /* A frame of an unknown kind or of a wrong length. */
    CANYONSIEVE_FRAME = 3,
    /* A frame out of order, final pay or ten pays with another section than its own; a text without a member
     * frame. */
    CANYONSIEVE_ORDER = 4,
    /* A year outside 1900 to 2100, a month outside 1 to 12, a day that its month does not have, retirement
     * before birth, a section above 2, or the member's pension age outside 55 to 75. */
    CANYONSIEVE_DATES = 5,
    /* An April year outside 2015 to 2100 or not the next, a revaluation above 2,000, or a 51st year. */
    CANYONSIEVE_YEAR = 6,
    /* A post with no contracted minutes, more of them than whole-time minutes, more than 10,080 whole-time
     * minutes, a pay or a supplement above 1,000,000,000 pence, or in a case a 17th post of a year. */
    CANYONSIEVE_POST = 7,
    /* A second whole-time post. */
    CANYONSIEVE_SECOND_WHOLE_TIME = 8,
    /* A pay above 1,000,000,000 pence, an allowance above 1,000 thousandths, controls above 7, more than
     * 16,425 days, or a factor of 0 or above 10,000 hundredths; in a change of employer also a pay with an employer
     * or a price increase above the same limits. */
    CANYONSIEVE_FINAL_PAY = 9,
    /* A factor frame with a scheme that the member does not have (scheme 1 is the member's section), months outside 1
     * to 600, a factor above 1,000, a lump factor for the 2015 Scheme or the 2008 Section, or not after the previous
     * one. */
    CANYONSIEVE_FACTOR = 10,
    /* A debit frame with a scheme that the member does not have, a pot above 1,000,000,000 pence, factor 0, or not
     * after the previous one. */
    CANYONSIEVE_DEBIT = 11,
    /* A section without its frame of pays: final pay in the 1995 Section, ten pays in the 2008 Section. */
    CANYONSIEVE_NO_FINAL_PAY = 12,
    /* Retirement before pension age without the factor for exactly that many months. */
    CANYONSIEVE_NO_FACTOR = 13,
    /* A debit above what it is taken from. */
    CANYONSIEVE_DEBIT_ABOVE = 14,
    /* More than 16 posts. */
    CANYONSIEVE_POST_COUNT = 21,
    /* Fewer places lent for parts than there are posts. */
    CANYONSIEVE_PLACES = 22,
    /* A length of posts in bytes that is no multiple of 12. */
    CANYONSIEVE_POSTS_LENGTH = 23,
    /* An amount above 1,000,000,000,000 pence. */
    CANYONSIEVE_AMOUNT = 24,
    /* Earned pension above the pension. */
    CANYONSIEVE_EARNED = 25,
    /* A change of employer in year 2 in which an employer has no days, both together have more than 366, or final
     * pay is not that of year 1. */
    CANYONSIEVE_EMPLOYERS = 26,
    /* In a frame of ten pays a pay above 1,000,000,000 pence, or more than 16,425 days. */
    CANYONSIEVE_TEN_PAYS = 27,
    /* A member frame whose last byte is not the pension age of its section: 0 without a section, 60 in the 1995, 65 in
     * the 2008. Tried after the whole of 5. */
    CANYONSIEVE_SECTION_AGE = 28,
    /* The leaving of a position that holds no post. No call of this header gives it: it is there for code that keeps a
     * list of posts, as examples/year.c does. */
    CANYONSIEVE_POSITION = 29
};

/* A refusal in words, for a message to a person; for a number that is no refusal, words that say so. Never NULL, and
 * nothing to be freed. */
CANYONSIEVE_CHECKED static inline const char *canyonsieve_refusal_words(uint64_t refusal)
{
    switch (refusal) {
    case CANYONSIEVE_ACCEPTED:
        return "accepted";
    case CANYONSIEVE_TEXT_LENGTH:
        return "a text over 32,768 bytes";
    case CANYONSIEVE_LINE:
        return "a line that is empty, has another character than 0-9 and A-F or an odd count of digits, "
               "or lacks its line feed";
    case CANYONSIEVE_FRAME:
        return "an unknown kind of frame or a wrong length";
    case CANYONSIEVE_ORDER:
        return "a kind of frame out of order or not of the member's section, or no member frame";
    case CANYONSIEVE_DATES:
        return "a date, section or pension age out of range, or retirement before birth";
    case CANYONSIEVE_YEAR:
        return "an April year out of range or not the next, a revaluation above 2,000, or a 51st year";
    case CANYONSIEVE_POST:
        return "a post with minutes, pay or supplement out of range, or a 17th post";
    case CANYONSIEVE_SECOND_WHOLE_TIME:
        return "a second whole-time post";
    case CANYONSIEVE_FINAL_PAY:
        return "final pay out of range, or in a change of employer a pay or the price increase";
    case CANYONSIEVE_FACTOR:
        return "a factor out of range or not after the previous one, or of a scheme or lump sum that the member does "
               "not have";
    case CANYONSIEVE_DEBIT:
        return "a debit out of range or not after the previous one, or of a scheme that the member does not have";
    case CANYONSIEVE_NO_FINAL_PAY:
        return "a section without its final pay or ten pays";
    case CANYONSIEVE_NO_FACTOR:
        return "no factor for exactly the months early";
    case CANYONSIEVE_DEBIT_ABOVE:
        return "a debit above what it is taken from";
    case CANYONSIEVE_POST_COUNT:
        return "more than 16 posts";
    case CANYONSIEVE_PLACES:
        return "fewer places lent than posts";
    case CANYONSIEVE_POSTS_LENGTH:
        return "a length of posts that is no multiple of 12";
    case CANYONSIEVE_AMOUNT:
        return "an amount above 1,000,000,000,000 pence";
    case CANYONSIEVE_EARNED:
        return "an earned pension above the pension";
    case CANYONSIEVE_EMPLOYERS:
        return "an employer without days, more than 366 days of both, or a final pay that is not that of year 1";
    case CANYONSIEVE_TEN_PAYS:
        return "ten pays or their days out of range";
    case CANYONSIEVE_SECTION_AGE:
        return "a pension age that is not that of the member's section";
    case CANYONSIEVE_POSITION:
        return "a position that holds no post";
    default:
        return "no refusal of this version";
    }
}

/* A refusal, 0 for none, and the number beside it in pence, 0 when refused. */
struct canyonsieve_figure {
    uint64_t refusal;
    uint64_t number;
};

/* A refusal, 0 for none, and the months beside it, 0 when refused. */
struct canyonsieve_months {
    uint64_t refusal;
    int64_t months;
};

/* A refusal, 0 for none, and the charges of two employers in pence, both 0 when refused. */
struct canyonsieve_charges {
    uint64_t refusal;
    uint64_t old_charge; /* what the old employer pays, once */
    uint64_t new_charge; /* what the new employer pays, once */
};

/* A refusal, 0 for none, the line of the text that it is about, 0 for no line, four amounts in pence, and how many
 * amounts were rounded up on the way to them; amounts and count are 0 when refused. From version 6 on the struct has
 * its last field and is longer by it: code that was compiled for an earlier version has to be compiled anew. */
struct canyonsieve_outcome {
    uint64_t refusal;
    uint64_t line;
    uint64_t net_2015;     /* pension of the 2015 Scheme, for a year */
    uint64_t net_1995;     /* pension of the 1995 or the 2008 Section, for a year */
    uint64_t net_lump_sum; /* lump sum, once; only the 1995 Section has one */
    uint64_t charge;       /* the employer's final pay charge, once; not the member's; 0 in the 2008 Section */
    uint64_t rounded_up;   /* how many of the amounts on the way were rounded up; 0 when refused */
};

/* The pensionable pay of a year with several posts, in pence for that year: the aggregate of the posts, with hours past
 * the weighted week left out where the rate of pay is lowest.
 *
 * posts: length bytes, 12 for each post, big-endian: contracted minutes 2, whole-time minutes 2, yearly pay in pence 4,
 * yearly supplement in pence 4. A supplement is an allowance paid for hours worked, such as unsocial hours, and no part
 * of the pay: it is part of the rate, but is not grossed up to the whole-time week. A post without one has 0. A post
 * whose hours all count has its pay and its supplement in the aggregate, one that is cut the hours that count times its
 * rate.
 *
 * Code for version 6 sent 8 bytes a post and must send 12. A length that is no multiple of 12 is refused; but three
 * posts of 8 bytes have the length of two of 12, and are read as two.
 *
 * parts: this many places, lent by the caller. With H the contracted minutes of all posts together, a minute
 * has H parts: parts / H is whole minutes, and parts % H the part of a minute over H. Accepted, the first places get
 * the parts that count for each post, in the order of the posts, 0 included; places past the last post stay as they
 * are. Refused, no place is written.
 *
 * Both stay the caller's, and nothing of them is kept. They must not overlap. A pointer may be NULL only
 * where its length or its places are 0.
 *
 * Where posts start and stop in the year, call it after each change with the posts that remain, in their order: one
 * that joins at the end, later ones moved up where one has left. That gives the figures of the year that posts join and
 * leave inside the engine, which is proved (docs/PROVED.md). H is then that of the posts that remain. Positions are
 * counted from 1. examples/year.c keeps such a list.
 *
 * Refusals, tried in this order: 23, length is no multiple of 12; 21, more than 16 posts; 22, fewer places than
 * posts; then post by post 7, a post that is out of range, and 8, a second whole-time post. No posts: 0 pence. */
CANYONSIEVE_CHECKED struct canyonsieve_figure canyonsieve_posts(const uint8_t *posts, size_t length, uint64_t *parts,
                                                                size_t places);

/* The employer's final pay charge, in pence, paid once.
 *
 * pay4 to pay1: the pays of the last four years in pence, pay1 that of the last year. allowance3 to allowance1:
 * the rise that is allowed in years 3 to 1, in thousandths. controls: bits 0, 1 and 2 are 1 where years 3, 2
 * and 1 are controlled. days: days of service. factor: in hundredths.
 *
 * Refusal 9: one of the ten numbers is out of range. */
CANYONSIEVE_CHECKED struct canyonsieve_figure canyonsieve_charge(uint64_t pay4, uint64_t pay3, uint64_t pay2,
                                                                 uint64_t pay1, uint64_t allowance3,
                                                                 uint64_t allowance2, uint64_t allowance1,
                                                                 uint64_t controls, uint64_t days, uint64_t factor);

/* The final pay charges of both employers, in pence, each paid once, where the member changed employer once, in year 2,
 * the year before the last.
 *
 * pay4 to factor: the ten numbers of canyonsieve_charge. pay2 is the pay of the whole of year 2; it is not held against
 * the two pays that follow. old_pay, old_days: what the old employer paid in year 2, in pence, and for how many days;
 * new_pay, new_days: the same of the new employer. Each is the pay of those days alone, NOT of a year: the call itself
 * brings it to a year of 365 days. price_increase: the rise of prices in the final year, in thousandths, by which the
 * old employer's excess is raised.
 *
 * The old employer's charge is 0 where year 2 is not controlled, the new employer's where year 1 is not. What
 * canyonsieve_charge gives for the ten numbers is the bill of a single employer; these two are not parts of it.
 *
 * Refusals, tried in this order: 9, one of the ten numbers is out of range, a pay with an employer is above
 * 1,000,000,000 pence, or the price increase is above 1,000; 26, an employer has no days, both together have more than
 * 366, or final pay is not that of year 1: pay3 or pay2 is above pay1. */
CANYONSIEVE_CHECKED struct canyonsieve_charges canyonsieve_change_of_employer(
    uint64_t pay4, uint64_t pay3, uint64_t pay2, uint64_t pay1, uint64_t allowance3, uint64_t allowance2,
    uint64_t allowance1, uint64_t controls, uint64_t days, uint64_t factor, uint64_t old_pay, uint64_t old_days,
    uint64_t new_pay, uint64_t new_days, uint64_t price_increase);

/* A whole case: the net pension of the 2015 Scheme; the net pension of the 1995 or the 2008 Section, where the member
 * has one; in the 1995 Section also the net lump sum and the employer's final pay charge. The pensions are for a year,
 * the lump sum and the charge once. No other division of the hours of the posts, no other of the last three years as
 * final pay and no other three consecutive years of the ten pays would give a larger net pension of both together, or a
 * larger net lump sum; where a post has a supplement, the hours of the other division are valued at their rates.
 *
 * rounded_up is for those who hold the amounts against a ledger: how many of the amounts on the way were rounded up, a
 * half being up. What was exact or went down is not counted. The allowed pay of each controlled year is among them,
 * whichever year gives final pay. The count is at most 161. docs/RULES.md says where an amount is rounded.
 *
 * text: length bytes, lines of digits 0-9 and A-F, two to a byte, each line ended by a line feed and holding one frame;
 * docs/FRAMES.md has the frames. From version 5 on a member frame has 12 bytes, the last of them the pension age of the
 * section; one of 11 bytes, as before, is refused with 3. From version 7 on a post frame has 13 bytes, the last four of
 * them the supplement; one of 9 bytes, as before, is refused with 3. The text stays the caller's, and nothing of it is
 * kept. It may be NULL only where length is 0.
 *
 * Refusals: 1, the text is too long (line 0); then line by line, the first line being 1, and the first line that is
 * refused ends the reading: 2, 3, 4, then 5 to 11, 27 or 28 by the frame's own fields; at the end, line 0: 4, 12, 13,
 * 14.
 *
 * It needs under 6 kilobytes of stack, canyonsieve_posts under 4, the other calls under 1. In a program that binds the
 * functions of the C library at their first call, the first call of a process needs up to 4 kilobytes more. */
CANYONSIEVE_CHECKED struct canyonsieve_outcome canyonsieve_case(const uint8_t *text, size_t length);

/* Months early: from the age at retirement, in completed months, to pension age. Below 0 for months late.
 *
 * A month of age is completed on the birth day or, in a month too short for that day, on the month's last day: born on
 * 31 August, the month is completed on 30 June.
 *
 * Years, months and days are calendar numbers, January being 1. pension_age is in years.
 *
 * Refusal 5: a date or the pension age is out of range, or retirement is before birth. Retirement on the day
 * of birth is taken. */
CANYONSIEVE_CHECKED struct canyonsieve_months canyonsieve_months_early(uint64_t birth_year, uint64_t birth_month,
                                                                       uint64_t birth_day, uint64_t retirement_year,
                                                                       uint64_t retirement_month,
                                                                       uint64_t retirement_day, uint64_t pension_age);

/* The reduction of a pension for new pay, in pence for a year, at most the pension less the earned pension.
 *
 * All four amounts are in pence a year.
 *
 * Refusals, tried in this order: 24, an amount is above 1,000,000,000,000 pence; 25, the earned pension is
 * above the pension. */
CANYONSIEVE_CHECKED struct canyonsieve_figure canyonsieve_abatement(uint64_t pension, uint64_t earned,
                                                                    uint64_t previous_pay, uint64_t new_pay);

#ifdef __cplusplus
}
#endif

#endif
