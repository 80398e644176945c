/* The causes of refusals at the end of a case: what is missing, and a debit above what it is taken from. */
#include "causes.h"

#include <canyonsieve.h>

#include <string.h>

int no_pays_cause(struct text *message, const struct records *records)
{
    if (section_of(records) == 0)
        return 0;
    put(message, "the ");
    put_digits(message, section_of(records), 1);
    put(message, " Section has no pays");
    return 1;
}

/* A factor of a scheme for so many months; whether there is one. */
static int has_factor(const struct records *records, uint64_t scheme, uint64_t months)
{
    for (size_t i = 0; i < records->count; i++) {
        const struct record *record = &records->list[i];
        if (record->kind == FACTOR && scheme_of(records, record) == scheme && record->number[FACTOR_MONTHS] == months)
            return 1;
    }
    return 0;
}

/* Says that a scheme lacks its factor, if the member retires early by its pension age and it does. */
static int lacks_factor(struct text *message, const struct records *records, uint64_t scheme, uint64_t age)
{
    const uint64_t *number = first_of(records, MEMBER, 0)->number;
    struct canyonsieve_months early =
        canyonsieve_months_early(number[BORN], number[BORN + 1], number[BORN + 2], number[RETIRES], number[RETIRES + 1],
                                 number[RETIRES + 2], age);

    if (early.refusal != CANYONSIEVE_ACCEPTED || early.months <= 0 ||
        has_factor(records, scheme, (uint64_t)early.months))
        return 0;
    put(message, "no factor ");
    put_digits(message, scheme, 1);
    put(message, " for ");
    put_digits(message, (uint64_t)early.months, 1);
    put(message, " months");
    return 1;
}

int no_factor_cause(struct text *message, const struct records *records)
{
    const struct record *member = first_of(records, MEMBER, 0);

    if (member == NULL)
        return 0;
    if (lacks_factor(message, records, 2015, member->number[PENSION_AGE]))
        return 1;
    return section_of(records) != 0 && lacks_factor(message, records, section_of(records), member->number[SECTION_AGE]);
}

/* Whether the debit of a pot, some times over, is above an amount. The debit is the whole number next to pot ×
 * 100/factor, a half upward. It is above the whole part of amount/times where pot × 100/factor is at least a half above
 * that part. */
static int is_above(const struct record *debit, uint64_t times, uint64_t amount)
{
    /* worked here, exact: a comparison alone; a pot is under 2^30, a factor under 2^16, an amount under 2^45 */
    return 200 * debit->number[POT] >= (2 * (amount / times) + 1) * debit->number[POT_FACTOR];
}

/* The debit, and what it is more than. */
static int put_above(struct text *message, const struct records *records, const struct record *debit, uint64_t lump,
                     uint64_t amount)
{
    put(message, lump ? "three times the debit " : "debit ");
    put_digits(message, scheme_of(records, debit), 1);
    put(message, " of pot ");
    put_number(message, MONEY, debit->number[POT]);
    put(message, ", factor ");
    put_number(message, HUNDREDTHS, debit->number[POT_FACTOR]);
    put(message, lump ? ", is more than the lump sum of " : ", is more than the pension of ");
    put_number(message, MONEY, amount);
    put(message, " that it is taken from");
    return 1;
}

/* How many bytes of the text stand before its first debit; they are its last lines. */
static size_t before_debits(struct span text, const struct records *records)
{
    size_t length = 0;

    for (size_t i = 0; i < records->count && records->list[i].kind != DEBIT; i++) {
        const unsigned char *feed = memchr(text.start + length, '\n', text.length - length);
        if (feed == NULL)
            return length;
        length = (size_t)(feed - text.start) + 1;
    }
    return length;
}

int debit_above_cause(struct text *message, const struct records *records, struct span text)
{
    struct canyonsieve_sheet steps = canyonsieve_steps(text.start, before_debits(text, records));

    if (steps.refusal != CANYONSIEVE_ACCEPTED)
        return 0;
    for (size_t i = 0; i < records->count; i++) {
        const struct record *debit = &records->list[i];
        uint64_t scheme = debit->kind == DEBIT ? scheme_of(records, debit) : 0;
        uint64_t pension = scheme == 2015 ? steps.pension_2015.reduced.number : steps.pension_1995.reduced.number;
        if (scheme != 0 && is_above(debit, 1, pension))
            return put_above(message, records, debit, 0, pension);
        if (scheme == 1995 && is_above(debit, 3, steps.lump_sum.reduced.number))
            return put_above(message, records, debit, 1, steps.lump_sum.reduced.number);
    }
    return 0;
}
