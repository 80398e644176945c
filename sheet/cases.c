/* What the program works out itself of a year's posts. All of it is exact: whole numbers of 64 bits and reduced
 * fractions. The limits are those of an accepted case: 1 to 10,080 minutes in a contract and its week, at most
 * 1,000,000,000 pence of pay and of supplement, at most 16 posts in a year. */
#include "cases.h"

#include <string.h>

static uint64_t common_divisor(uint64_t a, uint64_t b)
{
    while (b != 0) {
        uint64_t rest = a % b;
        a = b;
        b = rest;
    }
    return a;
}

struct figure whole(enum number kind, uint64_t number)
{
    struct figure figure = {kind, 0, number, 0, 1, ""};

    return figure;
}

struct figure in_word(const char *word)
{
    struct figure figure = {WORD, 0, 0, 0, 1, word};

    return figure;
}

struct figure divided(enum number kind, uint64_t numerator, uint64_t denominator)
{
    uint64_t rest = numerator % denominator;
    uint64_t divisor = common_divisor(rest, denominator);
    struct figure figure = {kind, 0, numerator / denominator, rest / divisor, denominator / divisor, ""};

    return figure;
}

/* worked here, exact: the proportion, h/w */
struct figure proportion(const struct case_year *year, size_t place)
{
    const uint64_t *post = year->posts[place].number;

    return divided(PROPORTION, post[CONTRACT], post[WHOLE_TIME]);
}

/* worked here, exact: comparable whole-time pay, p × w/h; the product is under 2^44 */
struct figure comparable_pay(const struct case_year *year, size_t place)
{
    const uint64_t *post = year->posts[place].number;

    return divided(MONEY, post[PAY] * post[WHOLE_TIME], post[CONTRACT]);
}

/* worked here, exact: the rate a year for an hour a week, 60 × (p × w + s × h)/(w × h); what is above the line is under
 * 2^51 */
struct figure rate_of(const struct case_year *year, size_t place)
{
    const uint64_t *post = year->posts[place].number;
    uint64_t h = post[CONTRACT];
    uint64_t w = post[WHOLE_TIME];

    return divided(RATE, 60 * (post[PAY] * w + post[SUPPLEMENT] * h), w * h);
}

/* worked here, exact: the parts of a post in full, h × H, under 2^31 */
static uint64_t parts_in_full(const struct case_year *year, size_t place)
{
    return year->posts[place].number[CONTRACT] * year->contracted;
}

/* worked here, exact: minutes from parts, H parts to a minute */
struct figure hours_counted(const struct case_year *year, size_t place)
{
    return divided(TIME, year->parts[place], year->contracted);
}

/* worked here, exact: minutes from the parts that a post lacks */
struct figure hours_left_out(const struct case_year *year, size_t place)
{
    return divided(TIME, parts_in_full(year, place) - year->parts[place], year->contracted);
}

enum extent extent_of(const struct case_year *year, size_t place)
{
    if (year->parts[place] == 0)
        return NONE;
    return year->parts[place] == parts_in_full(year, place) ? IN_FULL : CUT;
}

/* The pay counted of each post. A post in full counts p + s, one without parts nothing. At most one is cut, and it
 * counts what the others leave of the aggregate. Gives whether that comes out. */
static int share_aggregate(struct case_year *year)
{
    /* worked here, exact: pay counted, of the one post that is cut the aggregate less what the others count */
    uint64_t left = year->steps->aggregate.number;
    size_t cut = year->count;

    for (size_t i = 0; i < year->count; i++) {
        enum extent extent = extent_of(year, i);
        if (extent == CUT && cut != year->count)
            return 0;
        if (extent == CUT)
            cut = i;
        if (extent == IN_FULL)
            year->pay_counted[i] = year->posts[i].number[PAY] + year->posts[i].number[SUPPLEMENT];
        if (year->pay_counted[i] > left)
            return 0;
        left -= year->pay_counted[i];
    }
    if (cut == year->count)
        return left == 0;
    year->pay_counted[cut] = left;
    return 1;
}

/* The parts of a year's posts, from the library. Gives whether it takes them and has the year's aggregate. */
static int take_parts(struct case_year *year)
{
    uint8_t bytes[CANYONSIEVE_MAX_POSTS * CANYONSIEVE_BYTES_OF_POST];
    uint8_t fields[MOST_BYTES];
    struct canyonsieve_figure pay;

    for (size_t i = 0; i < year->count; i++) {
        (void)put_fields(&year->posts[i], fields);
        memcpy(bytes + i * CANYONSIEVE_BYTES_OF_POST, fields, CANYONSIEVE_BYTES_OF_POST);
    }
    pay = canyonsieve_posts(bytes, year->count * CANYONSIEVE_BYTES_OF_POST, year->parts, CANYONSIEVE_MAX_POSTS);
    return pay.refusal == CANYONSIEVE_ACCEPTED && pay.number == year->steps->aggregate.number;
}

/* The figures of a year that has its record, its posts and its steps. */
static int work_year(struct case_year *year)
{
    /* worked here, exact: H, the sum of h, and K, the sum of w × h, under 2^31 */
    for (size_t i = 0; i < year->count; i++) {
        const uint64_t *post = year->posts[i].number;
        year->contracted += post[CONTRACT];
        year->weighted += post[CONTRACT] * post[WHOLE_TIME];
        year->has_whole_time |= post[CONTRACT] == post[WHOLE_TIME];
    }
    if (!take_parts(year))
        return 0;
    for (size_t i = 0; i < year->count; i++) {
        if (year->parts[i] > parts_in_full(year, i))
            return 0;
    }
    return share_aggregate(year);
}

/* The next year of the records, from a place on; gives the place behind its posts. */
static size_t take_year(struct case_year *year, const struct records *records, size_t place)
{
    year->record = &records->list[place++];
    year->posts = records->list + place;
    while (place < records->count && records->list[place].kind == POST)
        place++;
    year->count = (size_t)(records->list + place - year->posts);
    return place;
}

/* Whether the year of the section's pay is one of those that it may be. */
static int has_pay_year(const struct worked_case *work)
{
    uint64_t latest = work->section == 1995 ? 3 : 8;

    return work->section == 0 ||
           (pays_of(work->records) != NULL && work->steps.pay_year >= 1 && work->steps.pay_year <= latest);
}

int work_case(struct worked_case *work, const struct records *records, const struct canyonsieve_sheet *steps)
{
    size_t place = 0;

    work->records = records;
    work->member = first_of(records, MEMBER, 0);
    work->section = section_of(records);
    work->steps = *steps;
    while (place < records->count) {
        struct case_year *year = &work->year[work->years];
        if (records->list[place].kind != YEAR) {
            place++;
            continue;
        }
        if (work->years == CANYONSIEVE_MAX_YEARS)
            return 0;
        place = take_year(year, records, place);
        year->steps = &work->steps.year[work->years];
        year->brought_forward = work->years == 0 ? 0 : year->steps[-1].pension;
        if (year->count > CANYONSIEVE_MAX_POSTS || !work_year(year))
            return 0;
        work->years++;
    }
    return work->member != NULL && work->years == work->steps.years && has_pay_year(work);
}
