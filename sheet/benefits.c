/* The lines of retirement, debits and the charge. Every amount is a field of a library answer. */
#include "building.h"

/* A benefit with its name, its steps, the months early that reduce it, and the debit of its scheme, or NULL. */
struct benefit {
    const char *name;
    const struct canyonsieve_benefit_steps *steps;
    int64_t months;
    const struct record *debit;
    int is_lump_sum;
};

/* MOST_BENEFITS: the 2015 pension, the section's, the lump sum. */
enum { MOST_BENEFITS = 3 };

static const struct record *debit_of(const struct records *records, uint64_t scheme)
{
    for (size_t i = 0; i < records->count; i++) {
        const struct record *record = &records->list[i];
        if (record->kind == DEBIT && scheme_of(records, record) == scheme)
            return record;
    }
    return NULL;
}

/* The benefits that the member has; gives how many. */
static size_t benefits_of(const struct worked_case *work, struct benefit benefits[MOST_BENEFITS])
{
    const struct canyonsieve_sheet *steps = &work->steps;
    const struct record *debit = work->section == 0 ? NULL : debit_of(work->records, work->section);
    struct benefit pension_2015 = {"2015 pension", &steps->pension_2015, steps->months_2015,
                                   debit_of(work->records, 2015), 0};
    struct benefit pension = {work->section == 1995 ? "1995 pension" : "2008 pension", &steps->pension_1995,
                              steps->months_1995, debit, 0};
    struct benefit lump_sum = {"lump sum", &steps->lump_sum, steps->months_1995, debit, 1};

    benefits[0] = pension_2015;
    benefits[1] = pension;
    benefits[2] = lump_sum;
    return work->section == 0 ? 1 : work->section == 1995 ? 3 : 2;
}

static void months_line(struct lines *lines, const struct record *member, const char *scheme, int64_t months,
                        uint64_t age)
{
    struct figure figure = whole(MONTHS, months < 0 ? 0 - (uint64_t)months : (uint64_t)months);

    figure.below = months < 0;
    (void)add(lines, MONTHS_EARLY, "months early, ", figure);
    about(lines, scheme, "");
    put(&lines->how, "born ");
    put_number(&lines->how, DATE, date_at(member, BORN));
    put(&lines->how, ", retires ");
    put_number(&lines->how, DATE, date_at(member, RETIRES));
    how(lines, ", pension age ", AGE, age, "");
}

/* The factor that a benefit is reduced by and what is left of it; both say so where nothing is reduced. */
static void reduction_lines(struct lines *lines, const struct benefit *benefit)
{
    const struct canyonsieve_benefit_steps *steps = benefit->steps;
    int early = benefit->months > 0;

    (void)add(lines, REDUCTION, "factor, ", early ? whole(THOUSANDTHS, steps->factor) : in_word("none"));
    about(lines, benefit->name, "");
    if (early)
        how(lines, "given for ", MONTHS, (uint64_t)benefit->months, " months");
    else
        because(lines, "not early: nothing is reduced");
    if (early)
        rounded(lines, REDUCTION, "", steps->reduced);
    else
        amount(lines, REDUCTION, "", steps->reduced.number);
    about(lines, benefit->name, " reduced");
    if (early)
        how_two(lines, steps->earned.number, " × ", THOUSANDTHS, steps->factor);
    else
        because(lines, "as before reduction");
}

void retirement_lines(struct lines *lines, const struct worked_case *work)
{
    struct benefit benefits[MOST_BENEFITS];
    size_t count = benefits_of(work, benefits);

    no_lines(lines);
    months_line(lines, work->member, "2015 Scheme", work->steps.months_2015, work->member->number[PENSION_AGE]);
    if (work->section != 0)
        months_line(lines, work->member, work->section == 1995 ? "1995 Section" : "2008 Section",
                    work->steps.months_1995, work->member->number[SECTION_AGE]);
    amount(lines, YEARS, "2015 pension before reduction", work->steps.pension_2015.earned.number);
    because(lines, work->years == 0 ? "no years" : "the pension carried forward from the last year");
    for (size_t i = 0; i < count; i++)
        reduction_lines(lines, &benefits[i]);
}

/* The debit of a benefit. That of the lump sum is three times the pension's, and no step rounds it. */
static void debit_line(struct lines *lines, const struct benefit *benefit, const struct benefit *pension)
{
    const struct record *debit = benefit->debit;

    if (debit == NULL || benefit->is_lump_sum)
        amount(lines, DEBITS, "debit of the ", benefit->steps->debit.number);
    else
        rounded(lines, DEBITS, "debit of the ", benefit->steps->debit);
    about(lines, benefit->name, "");
    if (debit == NULL)
        because(lines, "no debit");
    else if (benefit->is_lump_sum)
        how(lines, "3 × ", MONEY, pension->steps->debit.number, "");
    else
        how_two(lines, debit->number[POT], "/", HUNDREDTHS, debit->number[POT_FACTOR]);
}

void debit_lines(struct lines *lines, const struct worked_case *work)
{
    struct benefit benefits[MOST_BENEFITS];
    size_t count = benefits_of(work, benefits);

    no_lines(lines);
    for (size_t i = 0; i < count; i++) {
        const struct canyonsieve_benefit_steps *steps = benefits[i].steps;
        debit_line(lines, &benefits[i], &benefits[1]);
        amount(lines, DEBITS, "net ", steps->net);
        about(lines, benefits[i].name, benefits[i].is_lump_sum ? ", once" : ", a year");
        how_two(lines, steps->reduced.number, " − ", MONEY, steps->debit.number);
    }
}

/* The allowed pay of a year, 3 to 1: the pay of the year before raised, and from year 2 on the lower of that pay and
 * what was allowed for it. */
static void allowed_line(struct lines *lines, const char *what, const struct record *pays, uint64_t year,
                         const struct canyonsieve_rounded allowed[4])
{
    uint64_t growth = 1000 + allowance_of(pays, year);

    if (!is_controlled(pays, year)) {
        amount(lines, CHARGE, what, allowed[year].number);
        because(lines, "not controlled: its own pay");
        return;
    }
    rounded(lines, CHARGE, what, allowed[year]);
    if (year == 3) {
        how_two(lines, pay_of(pays, 4), " × ", THOUSANDTHS, growth);
        return;
    }
    put(&lines->how, "the lower of ");
    how_two(lines, pay_of(pays, year + 1), " and ", MONEY, allowed[year + 1].number);
    how(lines, ", × ", THOUSANDTHS, growth, "");
}

/* Final pay beside what is allowed in its year. */
static void excess_line(struct lines *lines, const struct canyonsieve_sheet *steps,
                        const struct canyonsieve_rounded allowed[4])
{
    uint64_t year = steps->pay_year;
    int above = steps->pay.number > allowed[year].number;

    amount(lines, CHARGE, "excess", steps->charge.excess);
    how_two(lines, steps->pay.number, above ? " − " : " is not above ", MONEY, allowed[year].number);
    how(lines, ", allowed in year ", PAY_YEAR, year, "");
}

void charge_lines(struct lines *lines, const struct worked_case *work)
{
    const struct record *pays = pays_of(work->records);
    const struct canyonsieve_charge_steps *steps = &work->steps.charge;
    const struct canyonsieve_rounded allowed[] = {{0, 0}, steps->allowed1, steps->allowed2, steps->allowed3};

    no_lines(lines);
    if (pays == NULL || pays->kind != FINAL_PAY)
        return;
    allowed_line(lines, "allowed pay of year 3", pays, 3, allowed);
    allowed_line(lines, "allowed pay of year 2", pays, 2, allowed);
    allowed_line(lines, "allowed pay of year 1", pays, 1, allowed);
    excess_line(lines, &work->steps, allowed);
    rounded(lines, CHARGE, "excess pension", steps->pension);
    how_by_days(lines, steps->excess, days_of(pays), DAYS_OF_80TH);
    rounded(lines, CHARGE, "excess pension × factor", steps->product);
    how_two(lines, steps->pension.number, " × ", HUNDREDTHS, pays->number[CHARGE_FACTOR]);
    amount(lines, CHARGE, "3 × excess pension", steps->lump_sum);
    how(lines, "3 × ", MONEY, steps->pension.number, "");
    amount(lines, CHARGE, "employer's charge, once", steps->charge);
    how_two(lines, steps->product.number, " + ", MONEY, steps->lump_sum);
}
