/* A payroll program: the pensionable pay of posts with the hours that count and those left out, a final pay charge, the
 * charges of two employers, and whole cases. Pensions and pays are amounts for a year, but the pays with each of two
 * employers for their days; a lump sum and a charge are paid once. */
#include "posts.h"

/* The posts of a year, with their title. */
static int print_year(const char *title, const struct post *posts, size_t count)
{
    uint8_t bytes[CANYONSIEVE_MAX_POSTS * CANYONSIEVE_BYTES_OF_POST] = {0};
    uint8_t *end = bytes;

    if (count > CANYONSIEVE_MAX_POSTS)
        return refused(title, CANYONSIEVE_POST_COUNT, 0);
    for (size_t i = 0; i < count; i++)
        end = put_post(end, posts[i]);
    printf("%s\n", title);
    return print_posts(bytes, count);
}

/* The charges for a change of employer in year 2. */
static int print_change(const char *title, struct canyonsieve_charges charges)
{
    printf("%s\n", title);
    if (refused("change of employer", charges.refusal, 0))
        return 1;
    pounds("the old employer's charge", charges.old_charge, "once");
    pounds("the new employer's charge", charges.new_charge, "once");
    return 0;
}

/* A whole case. The pension of the member's section, the 1995 or the 2008, is in net_1995. The count is for those who
 * hold the amounts against a ledger. */
static int print_case(const char *title, const char *text, size_t length)
{
    struct canyonsieve_outcome outcome = canyonsieve_case((const uint8_t *)text, length);

    printf("%s\n", title);
    if (refused("case", outcome.refusal, outcome.line))
        return 1;
    pounds("pension of the 2015 Scheme", outcome.net_2015, "a year");
    pounds("pension of the member's section", outcome.net_1995, "a year");
    pounds("lump sum", outcome.net_lump_sum, "once");
    pounds("the employer's charge", outcome.charge, "once");
    printf("amounts rounded up on the way: %" PRIu64 "\n", outcome.rounded_up);
    return 0;
}

int main(void)
{
    static const struct post equal_weeks[] = {{1200, 2250, 1000000, 0}, {1200, 2250, 1200000, 0}};
    static const struct post differing_weeks[] = {{1200, 2250, 5300000, 0}, {1140, 2400, 4750000, 0}};
    static const struct post unsocial_hours[] = {{1500, 2250, 2600000, 200000}, {960, 2400, 3200000, 400000}};
    static const char printed[] =
        "0107B2040107F50401004300\n"
        "0207DF0000\n"
        "0305DC08CA0027AC4000000000\n"
        "03038408CA00124F8000000000\n";
    static const char ten_pays[] =
        "0107B2040107F50401024341\n"
        "08002DC6C0002F4D600030D400003D0900003E8FA000401640003B82600039FBC0003875200036EE801C84\n";
    static const char without_factor[] = "0107AF0B0107EE0A11004300\n";

    int failed = 0;

    failed |= print_year("20 hours at 10,000 pounds and 20 hours at 12,000 pounds, both of 37.5 hours", equal_weeks, 2);
    failed |= print_year("20 hours of 37.5 at 53,000 pounds and 19 hours of 40 at 47,500 pounds", differing_weeks, 2);
    failed |= print_year("25 hours of 37.5 at 26,000 pounds with a supplement of 2,000 pounds, "
                         "and 16 hours of 40 at 32,000 pounds with 4,000 pounds",
                         unsocial_hours, 2);

    struct canyonsieve_figure charge =
        canyonsieve_charge(3000000, 3100000, 3200000, 4000000, 65, 65, 65, 7, 7300, 2020);
    failed |= refused("final pay charge", charge.refusal, 0);
    if (charge.refusal == CANYONSIEVE_ACCEPTED)
        pounds("final pay charge", charge.number, "once");

    failed |= print_change("35,000 pounds in 181 days, then 45,000 pounds in 184 days with another employer",
                           canyonsieve_change_of_employer(5900000, 6000000, 8000000, 9750000, 65, 65, 65, 7, 11680,
                                                          2020, 3500000, 181, 4500000, 184, 20));

    failed |= print_case("25 hours at 26,000 pounds and 15 hours at 12,000 pounds, one year", printed,
                         sizeof printed - 1);
    failed |= print_case("the 2008 Section, 7,300 days, 41,000 pounds on average in the best three years", ten_pays,
                         sizeof ten_pays - 1);

    /* Refused, and meant to be: 49 months early, and no factor frame. */
    failed |= !print_case("49 months early without a factor", without_factor, sizeof without_factor - 1);
    return failed;
}
