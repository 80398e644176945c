/* Calls each function of canyonsieve.h as payroll code does, and holds what it gives and every lent place to the
 * figures of the paper. Prints how many checks there were; stops at the first that fails, with its line. */
#include "canyonsieve.h"

#if CANYONSIEVE_VERSION != 7
#error "another version of canyonsieve.h"
#endif

#include <inttypes.h>
#include <stdio.h>
#include <stdlib.h>
#include <string.h>

#define GUARD UINT64_C(0x5A5A5A5A5A5A5A5A)
#define UNTOUCHED UINT64_C(0xA5A5A5A5A5A5A5A5)
#define MOST_PLACES 18

static unsigned checks;

static void fail(int line, const char *what, uint64_t got, uint64_t expected)
{
    fprintf(stderr, "calls.c:%d: %s: got %" PRIu64 ", expected %" PRIu64 "\n", line, what, got, expected);
    exit(1);
}

static void same(int line, const char *what, uint64_t got, uint64_t expected)
{
    checks++;
    if (got != expected)
        fail(line, what, got, expected);
}

static void figure(int line, struct canyonsieve_figure got, uint64_t refusal, uint64_t number)
{
    same(line, "refusal", got.refusal, refusal);
    same(line, "number", got.number, number);
}

static void months(int line, struct canyonsieve_months got, uint64_t refusal, int64_t expected)
{
    same(line, "refusal", got.refusal, refusal);
    same(line, "months", (uint64_t)got.months, (uint64_t)expected);
}

static void both(int line, struct canyonsieve_charges got, uint64_t refusal, uint64_t old_charge, uint64_t new_charge)
{
    same(line, "refusal", got.refusal, refusal);
    same(line, "charge of the old employer", got.old_charge, old_charge);
    same(line, "charge of the new employer", got.new_charge, new_charge);
}

/* A post of the paper. */
struct post {
    unsigned h, w;
    uint32_t p, s;
};

/* Writes a number in so many bytes, big-endian. */
static void put(uint8_t *bytes, uint32_t number, unsigned width)
{
    for (unsigned i = 0; i < width; i++)
        bytes[i] = (uint8_t)(number >> (8 * (width - 1 - i)));
}

/* Writes posts as 12 bytes each. */
static void encode(const struct post *list, size_t count, uint8_t *bytes)
{
    for (size_t i = 0; i < count; i++) {
        uint8_t *b = bytes + 12 * i;
        put(b, list[i].h, 2);
        put(b + 2, list[i].w, 2);
        put(b + 4, list[i].p, 4);
        put(b + 8, list[i].s, 4);
    }
}

/* Calls posts on bytes with places between two guard words, and looks at every place, both guards and the bytes.
 * expected has the parts of the first count places; the others stay. */
static void posts_bytes(int line, const uint8_t *bytes, size_t length, size_t places, uint64_t refusal,
                        uint64_t number, const uint64_t *expected, size_t count)
{
    uint64_t lent[MOST_PLACES + 2];
    uint8_t before[12 * MOST_PLACES];

    lent[0] = GUARD;
    for (size_t i = 0; i < places; i++)
        lent[i + 1] = UNTOUCHED;
    lent[places + 1] = GUARD;
    if (length != 0)
        memcpy(before, bytes, length);
    figure(line, canyonsieve_posts(bytes, length, lent + 1, places), refusal, number);
    same(line, "word before the places", lent[0], GUARD);
    for (size_t i = 0; i < places; i++)
        same(line, "place", lent[i + 1], i < count ? expected[i] : UNTOUCHED);
    same(line, "word after the places", lent[places + 1], GUARD);
    same(line, "posts unchanged", length == 0 || memcmp(before, bytes, length) == 0, 1);
}

/* The same on posts of the paper. */
static void posts(int line, const struct post *list, size_t count, size_t places, uint64_t refusal,
                  uint64_t number, const uint64_t *expected)
{
    uint8_t bytes[12 * MOST_PLACES];

    encode(list, count, bytes);
    posts_bytes(line, bytes, 12 * count, places, refusal, number, expected, expected == NULL ? 0 : count);
}

#define COUNT(list) (sizeof(list) / sizeof((list)[0]))
#define ACCEPTED(list, places, number, ...) \
    posts(__LINE__, list, COUNT(list), places, 0, number, (const uint64_t[]){__VA_ARGS__})
#define REFUSED(list, places, refusal) posts(__LINE__, list, COUNT(list), places, refusal, 0, NULL)

static void posts_accepted(void)
{
    static const struct post two[] = {{1200, 2250, 1000000, 0}, {1200, 2250, 1200000, 0}};
    static const struct post uneven[] = {{1500, 2250, 2600000, 0}, {900, 2250, 1200000, 0}};
    static const struct post weeks[] = {{1200, 2250, 5300000, 0}, {1140, 2400, 4750000, 0}};
    static const struct post equal[] = {{1200, 2250, 1000000, 0}, {1200, 2250, 1000000, 0}};
    static const struct post whole[] = {{2250, 2250, 2000000, 0}, {300, 2250, 900000, 0}};
    static const struct post past[] = {{1000, 1200, 900000, 0}, {3000, 3000, 700000, 0}};
    static const struct post once[] = {{5, 6, 8, 0}, {2, 3, 4, 0}, {1, 2, 1, 0}};
    static const struct post one[] = {{600, 600, 5000, 0}};

    /* Starred figures. */
    posts_bytes(__LINE__, NULL, 0, 0, 0, 0, NULL, 0);
    ACCEPTED(two, 2, 2075000, 2520000, 2880000);
    ACCEPTED(uneven, 2, 3600000, 3600000, 1800000);
    ACCEPTED(weeks, 2, 9979487, 2808000, 2628000);
    ACCEPTED(equal, 2, 1875000, 2880000, 2520000);
    ACCEPTED(whole, 2, 2000000, 5737500, 0);

    ACCEPTED(past, 2, 700000, 0, 12000000);
    ACCEPTED(once, 3, 8, 22, 16, 0);
    ACCEPTED(one, 1, 5000, 360000);
    ACCEPTED(one, 4, 5000, 360000);
    ACCEPTED(equal, 5, 1875000, 2880000, 2520000);
    posts_bytes(__LINE__, NULL, 0, 3, 0, 0, NULL, 0);
}

static void posts_refused(void)
{
    static const struct post above[] = {{601, 600, 5000, 0}};
    static const struct post none[] = {{0, 600, 5000, 0}};
    static const struct post week[] = {{600, 10081, 5000, 0}};
    static const struct post pay[] = {{600, 2250, 1000000001, 0}};
    static const struct post whole[] = {{600, 600, 5000, 0}, {700, 700, 9000, 0}};
    static const struct post eighth[] = {{600, 600, 5000, 0}, {700, 700, 9000, 0}, {0, 1, 1, 0}};
    static const struct post seventh[] = {{0, 1, 1, 0}, {600, 600, 5000, 0}, {700, 700, 9000, 0}};
    static const struct post late[] = {{600, 2250, 5000, 0}, {601, 600, 5000, 0}};
    static const uint8_t zeros[12 * MOST_PLACES];

    REFUSED(above, 1, CANYONSIEVE_POST);
    REFUSED(none, 1, CANYONSIEVE_POST);
    REFUSED(week, 1, CANYONSIEVE_POST);
    REFUSED(pay, 1, CANYONSIEVE_POST);
    REFUSED(whole, 2, CANYONSIEVE_SECOND_WHOLE_TIME);
    REFUSED(eighth, 3, CANYONSIEVE_SECOND_WHOLE_TIME);
    REFUSED(seventh, 3, CANYONSIEVE_POST);
    REFUSED(late, 2, CANYONSIEVE_POST);
    REFUSED(whole, 1, CANYONSIEVE_PLACES);
    posts_bytes(__LINE__, zeros, 11, 1, CANYONSIEVE_POSTS_LENGTH, 0, NULL, 0);
    posts_bytes(__LINE__, zeros, 13, 2, CANYONSIEVE_POSTS_LENGTH, 0, NULL, 0);
    posts_bytes(__LINE__, zeros, 205, 17, CANYONSIEVE_POSTS_LENGTH, 0, NULL, 0);
    posts_bytes(__LINE__, zeros, 204, 17, CANYONSIEVE_POST_COUNT, 0, NULL, 0);
    posts_bytes(__LINE__, zeros, 204, 0, CANYONSIEVE_POST_COUNT, 0, NULL, 0);
    posts_bytes(__LINE__, zeros, 192, 15, CANYONSIEVE_PLACES, 0, NULL, 0);
    posts_bytes(__LINE__, zeros, 192, 16, CANYONSIEVE_POST, 0, NULL, 0);
    posts_bytes(__LINE__, zeros, 12, 1, CANYONSIEVE_POST, 0, NULL, 0);
    figure(__LINE__, canyonsieve_posts(zeros, 12, NULL, 0), CANYONSIEVE_PLACES, 0);
    figure(__LINE__, canyonsieve_posts(zeros, 1, NULL, 0), CANYONSIEVE_POSTS_LENGTH, 0);
    figure(__LINE__, canyonsieve_posts(NULL, 0, NULL, 0), CANYONSIEVE_ACCEPTED, 0);
}

static void sixteen_posts(void)
{
    struct post list[17];
    uint64_t expected[16] = {5760000, 5760000, 5760000, 4320000};

    for (size_t i = 0; i < COUNT(list); i++)
        list[i] = (struct post){600, 2250, 1000000, 0};
    posts(__LINE__, list, 16, 16, 0, 3750000, expected);
    posts(__LINE__, list, 16, 18, 0, 3750000, expected);
    posts(__LINE__, list, 17, 18, CANYONSIEVE_POST_COUNT, 0, NULL);
}

/* Posts of document 001's scenario E: the second in full, the first cut. */
static const struct post scenario_e[] = {{1500, 2250, 2600000, 200000}, {960, 2400, 3200000, 400000}};

/* Equal rates of 1,000 pence a minute, by 900 and 100, and by 800 and 200. */
static const struct post equal_rates[] = {{1200, 2250, 1080000, 225000}, {1500, 2400, 1200000, 480000}};
static const struct post equal_rates_turned[] = {{1500, 2400, 1200000, 480000}, {1200, 2250, 1080000, 225000}};

static const struct post whole_with_supplement[] = {{2250, 2250, 2000000, 50000}, {300, 2250, 900000, 700000}};

/* The figures of request 2.7. In full a post counts p + s, cut its minutes times its rate of (p * w/h + s)/w. */
static void supplements(void)
{
    static const struct post alone[] = {{3, 4, 30, 0}, {3, 4, 0, 36}};
    static const struct post last[] = {{6, 10, 60, 0}, {6, 10, 54, 10}};
    static const struct post higher[] = {{6, 10, 60, 0}, {6, 10, 54, 11}};
    static const struct post first[] = {{6, 10, 54, 10}, {6, 10, 60, 0}};
    static const struct post sevenths[] = {{7, 10, 10, 0}, {7, 10, 9, 2}};
    static const struct post third[] = {{3, 4, 1, 0}, {3, 4, 1, 1}};
    static const struct post whole_last[] = {{300, 2250, 900000, 700000}, {2250, 2250, 2000000, 50000}};
    static const struct post no_pay[] = {{1, 1, 0, 1000000000}};
    static const struct post none_in_full[] = {{10, 11, 1000, 220}, {5, 6, 100, 60}};
    /* By pay alone the second of these would go first. */
    static const struct post by_supplement[] = {{1200, 2250, 1000000, 300000}, {1200, 2250, 1100000, 0}};
    /* With the supplement grossed up the first of these would. */
    static const struct post not_grossed_up[] = {{1200, 2250, 1000000, 300000}, {1200, 2250, 1200000, 0}};

    ACCEPTED(alone, 2, 39, 18, 6);
    ACCEPTED(last, 2, 100, 72, 48);
    ACCEPTED(higher, 2, 105, 48, 72);
    ACCEPTED(first, 2, 104, 72, 48);
    ACCEPTED(scenario_e, 2, 6057333, 3317400, 2361600);
    ACCEPTED(scenario_e, 4, 6057333, 3317400, 2361600);
    ACCEPTED(sevenths, 2, 15, 42, 98);
    ACCEPTED(third, 2, 2, 6, 18);
    ACCEPTED(whole_with_supplement, 2, 2050000, 5737500, 0);
    ACCEPTED(whole_last, 3, 2050000, 0, 5737500);
    ACCEPTED(no_pay, 1, 1000000000, 1);
    ACCEPTED(none_in_full, 2, 1120, 140, 0);
    ACCEPTED(equal_rates, 2, 2438333, 3240000, 3060000);
    ACCEPTED(equal_rates_turned, 2, 2513333, 4050000, 2250000);
    ACCEPTED(by_supplement, 2, 2262500, 2880000, 2520000);
    ACCEPTED(not_grossed_up, 2, 2215000, 2520000, 2880000);
}

/* Rates whose products pass 64 bits, and the most that sixteen posts come to. */
static void large_supplements(void)
{
    static const struct post pay[] = {{10079, 10080, 1000000000, 1000000000}, {10079, 10080, 999999999, 1000000000}};
    /* Products of 71 bits, the first higher by 1; with a penny more the second is higher. */
    static const struct post by_one[] = {{10079, 10080, 999998148, 915106033}, {10067, 10069, 999991861, 912922865}};
    static const struct post turned[] = {{10067, 10069, 999991861, 912922865}, {10079, 10080, 999998148, 915106033}};
    static const struct post penny[] = {{10079, 10080, 999998148, 915106033}, {10067, 10069, 999991861, 912922866}};
    /* Higher by 1 again, from 0xFFFFFFFF to 0 in the lower 32 bits. */
    static const struct post carried[] = {{9001, 9007, 775639930, 766936842}, {5003, 8192, 673256411, 301064827}};
    static const struct post carried_last[] = {{5003, 8192, 673256411, 301064827}, {9001, 9007, 775639930, 766936842}};
    /* The product of the first is below 2^64, that of the second above it. */
    static const struct post past_64[] = {{2000, 2400, 750800000, 947500000}, {2200, 2250, 743300000, 988700000}};
    struct post list[CANYONSIEVE_MAX_POSTS];
    uint64_t expected[CANYONSIEVE_MAX_POSTS] = {1625379856, 161264};

    ACCEPTED(pay, 2, 2000198423, 203172482, 20158);
    ACCEPTED(by_one, 2, 1914159018, 202960943, 0);
    ACCEPTED(turned, 2, 1914159018, 0, 202960943);
    ACCEPTED(penny, 2, 1914340352, 151161, 202809782);
    ACCEPTED(carried, 2, 1493211312, 122056583, 0);
    ACCEPTED(carried_last, 2, 1493211312, 0, 122056583);
    ACCEPTED(past_64, 2, 1825523274, 510000, 9240000);
    for (size_t i = 0; i < COUNT(list); i++)
        list[i] = (struct post){10079, 10080, CANYONSIEVE_MAX_PAY, CANYONSIEVE_MAX_PAY};
    posts(__LINE__, list, COUNT(list), COUNT(list), 0, 2000198423, expected);
    /* 16 x 630 are 10,080: all in full. */
    for (size_t i = 0; i < COUNT(list); i++) {
        list[i].h = 630;
        expected[i] = 630 * 10080;
    }
    posts(__LINE__, list, COUNT(list), COUNT(list), 0, UINT64_C(32000000000), expected);
}

/* 7 by a supplement, after 22 and before 8; lengths of posts without one; the bytes of two posts as they stand. */
static void supplements_refused(void)
{
    static const struct post past[] = {{600, 2250, 5000, 1000000001}};
    static const struct post most[] = {{600, 2250, 5000, UINT32_MAX}};
    static const struct post pay[] = {{600, 2250, 1000000001, 1000000001}};
    static const struct post second[] = {{600, 2250, 5000, 1000000000}, {600, 2250, 5000, 1000000001}};
    static const struct post whole[] = {{600, 600, 5000, 0}, {700, 700, 9000, 1000000001}};
    static const struct post whole_stands[] = {{600, 600, 5000, 0}, {700, 700, 9000, 1000000000}};
    static const uint8_t earlier[] = {0x05, 0xDC, 0x08, 0xCA, 0x00, 0x27, 0xAC, 0x40, 0x03, 0x84, 0x08, 0xCA,
                                      0x00, 0x12, 0x4F, 0x80, 0x05, 0xDC, 0x08, 0xCA, 0x00, 0x27, 0xAC, 0x40};
    static const uint8_t two[] = {0x05, 0xDC, 0x08, 0xCA, 0x00, 0x27, 0xAC, 0x40, 0x00, 0x00, 0x01, 0x02,
                                  0x03, 0x84, 0x08, 0xCA, 0x00, 0x12, 0x4F, 0x80, 0x00, 0x00, 0x00, 0x00};
    static const uint64_t parts[] = {3600000, 1800000};

    REFUSED(past, 1, CANYONSIEVE_POST);
    REFUSED(most, 1, CANYONSIEVE_POST);
    REFUSED(pay, 1, CANYONSIEVE_POST);
    REFUSED(second, 2, CANYONSIEVE_POST);
    REFUSED(second, 1, CANYONSIEVE_PLACES);
    REFUSED(whole, 2, CANYONSIEVE_POST);
    REFUSED(whole_stands, 2, CANYONSIEVE_SECOND_WHOLE_TIME);
    posts_bytes(__LINE__, earlier, 8, 1, CANYONSIEVE_POSTS_LENGTH, 0, NULL, 0);
    posts_bytes(__LINE__, earlier, 16, 2, CANYONSIEVE_POSTS_LENGTH, 0, NULL, 0);
    /* Three posts of 8 bytes are read as two of 12: the second has 18 minutes of 20,352. */
    posts_bytes(__LINE__, earlier, 24, 3, CANYONSIEVE_POST, 0, NULL, 0);
    posts_bytes(__LINE__, two, 24, 2, 0, 3600258, parts, 2);
}

/* Request 2.8: the posts that remain after each change of a year, and the lists with a newcomer that is refused. 29 is
 * of a position, which this call is not given. */
static void posts_that_start_and_stop(void)
{
    static const struct post lower[] = {{1200, 2250, 1000000, 0}};
    static const struct post higher[] = {{1200, 2250, 1200000, 0}};
    static const struct post two[] = {{1200, 2250, 1000000, 0}, {1200, 2250, 1200000, 0}};
    static const struct post turned[] = {{1200, 2250, 1200000, 0}, {1200, 2250, 1000000, 0}};
    static const struct post whole[] = {{1200, 2250, 1200000, 0}, {2250, 2250, 2000000, 0}};
    static const struct post second_whole[] = {{1200, 2250, 1200000, 0}, {2250, 2250, 2000000, 0}, {2250, 2250, 1, 0}};
    static const struct post past_its_week[] = {{1200, 2250, 1200000, 0}, {2251, 2250, 1, 0}};
    static const struct post other_whole[] = {{1200, 2250, 1200000, 0}, {2250, 2250, 1, 0}};

    ACCEPTED(lower, 16, 1000000, 1440000);
    ACCEPTED(two, 16, 2075000, 2520000, 2880000);
    ACCEPTED(higher, 16, 1200000, 1440000);
    ACCEPTED(whole, 16, 2000000, 0, 7762500);
    REFUSED(second_whole, 16, CANYONSIEVE_SECOND_WHOLE_TIME);
    /* Without the whole-time post another one may join. */
    ACCEPTED(other_whole, 16, 1, 0, 7762500);
    REFUSED(past_its_week, 16, CANYONSIEVE_POST);
    ACCEPTED(turned, 16, 2075000, 2880000, 2520000);
    posts_bytes(__LINE__, NULL, 0, 16, 0, 0, NULL, 0);
}

/* Every number of a charge one after the other, replaced in numbers that stand. */
static void charge_with(int line, unsigned at, uint64_t n, uint64_t refusal, uint64_t number)
{
    uint64_t c[10] = {3000000, 3100000, 3200000, 4000000, 65, 65, 65, 7, 7300, 2020};

    c[at] = n;
    figure(line, canyonsieve_charge(c[0], c[1], c[2], c[3], c[4], c[5], c[6], c[7], c[8], c[9]), refusal, number);
}

static void charges(void)
{
    static const uint64_t most[10] = {1000000000, 1000000000, 1000000000, 1000000000, 1000,
                                      1000,       1000,       7,          16425,      10000};

    /* The starred figure. */
    charge_with(__LINE__, 0, 3000000, 0, 3433600);
    figure(__LINE__, canyonsieve_charge(2000000, 2800000, 3000000, 3200000, 65, 65, 65, 7, 11680, 2020), 0, 7276448);
    figure(__LINE__, canyonsieve_charge(0, 0, 0, 1000000000, 0, 0, 0, 7, 16425, 10000), 0, UINT64_C(57937500000));
    figure(__LINE__, canyonsieve_charge(200000, 280000, 320000, 300000, 65, 40, 25, 2, 11680, 2020), 0, 267264);
    figure(__LINE__, canyonsieve_charge(200000, 320000, 280000, 300000, 65, 40, 25, 1, 11680, 2020), 0, 992960);
    figure(__LINE__, canyonsieve_charge(500, 100002, 0, 0, 1, 0, 0, 1, 14600, 50), 0, 174129);

    for (unsigned i = 0; i < 10; i++) {
        charge_with(__LINE__, i, most[i] + 1, CANYONSIEVE_FINAL_PAY, 0);
        charge_with(__LINE__, i, UINT64_MAX, CANYONSIEVE_FINAL_PAY, 0);
        /* Numbers that would stand if they were cut to 8, 16 or 32 bits. */
        charge_with(__LINE__, i, (UINT64_C(1) << 40) + 1, CANYONSIEVE_FINAL_PAY, 0);
        charge_with(__LINE__, i, (UINT64_C(1) << 32) + 1, CANYONSIEVE_FINAL_PAY, 0);
    }
    charge_with(__LINE__, 7, UINT64_C(1) << 40, CANYONSIEVE_FINAL_PAY, 0);
    charge_with(__LINE__, 7, 256 + 7, CANYONSIEVE_FINAL_PAY, 0);
    charge_with(__LINE__, 8, 65536 + 7300, CANYONSIEVE_FINAL_PAY, 0);
    charge_with(__LINE__, 9, 65536 + 2020, CANYONSIEVE_FINAL_PAY, 0);
    charge_with(__LINE__, 9, 0, CANYONSIEVE_FINAL_PAY, 0);
}

enum { PAY4, PAY3, PAY2, PAY1, CONTROLS = 7, OLD_PAY = 10, OLD_DAYS, NEW_PAY, NEW_DAYS, PRICE_INCREASE, NUMBERS };

/* Source document 000, example 3. */
static const uint64_t example_3[NUMBERS] = {5900000, 6000000, 8000000, 9750000, 65,      65,  65, 7,
                                            11680,   2020,    3500000, 181,     4500000, 184, 20};

static struct canyonsieve_charges change(const uint64_t n[NUMBERS])
{
    return canyonsieve_change_of_employer(n[0], n[1], n[2], n[3], n[4], n[5], n[6], n[7], n[8], n[9], n[10], n[11],
                                          n[12], n[13], n[14]);
}

/* Example 3 with two of its numbers replaced. */
static struct canyonsieve_charges changed(unsigned at, uint64_t n, unsigned other, uint64_t m)
{
    uint64_t c[NUMBERS];

    memcpy(c, example_3, sizeof c);
    c[at] = n;
    c[other] = m;
    return change(c);
}

static struct canyonsieve_charges changed_one(unsigned at, uint64_t n)
{
    return changed(at, n, at, n);
}

/* Every number out of range, and 9 where 26 is due too. */
static void changes_out_of_range(void)
{
    static const uint64_t most[NUMBERS] = {1000000000, 1000000000, 1000000000, 1000000000, 1000,       1000, 1000, 7,
                                           16425,      10000,      1000000000, 366,        1000000000, 366,  1000};

    for (unsigned i = 0; i < NUMBERS; i++) {
        uint64_t refusal = i == OLD_DAYS || i == NEW_DAYS ? CANYONSIEVE_EMPLOYERS : CANYONSIEVE_FINAL_PAY;
        both(__LINE__, changed_one(i, most[i] + 1), refusal, 0, 0);
        both(__LINE__, changed_one(i, UINT64_MAX), refusal, 0, 0);
        /* Numbers that would stand if they were cut to 8, 16 or 32 bits. */
        both(__LINE__, changed_one(i, (UINT64_C(1) << 40) + 1), refusal, 0, 0);
        both(__LINE__, changed_one(i, (UINT64_C(1) << 32) + 1), refusal, 0, 0);
        if (refusal == CANYONSIEVE_FINAL_PAY)
            both(__LINE__, changed(i, most[i] + 1, NEW_DAYS, 0), refusal, 0, 0);
    }
    both(__LINE__, changed_one(9, 0), CANYONSIEVE_FINAL_PAY, 0, 0);
}

/* 26: no days, too many days together, final pay of another year. */
static void changes_refused(void)
{
    both(__LINE__, changed_one(OLD_DAYS, 0), CANYONSIEVE_EMPLOYERS, 0, 0);
    both(__LINE__, changed_one(NEW_DAYS, 0), CANYONSIEVE_EMPLOYERS, 0, 0);
    both(__LINE__, changed(OLD_DAYS, 182, NEW_DAYS, 185), CANYONSIEVE_EMPLOYERS, 0, 0);
    both(__LINE__, changed(OLD_DAYS, 366, NEW_DAYS, 1), CANYONSIEVE_EMPLOYERS, 0, 0);
    both(__LINE__, changed(OLD_DAYS, UINT64_MAX, NEW_DAYS, 2), CANYONSIEVE_EMPLOYERS, 0, 0);
    both(__LINE__, changed(OLD_DAYS, UINT64_C(1) << 63, NEW_DAYS, UINT64_C(1) << 63), CANYONSIEVE_EMPLOYERS, 0, 0);
    both(__LINE__, changed(OLD_DAYS, 367, OLD_PAY, 0), CANYONSIEVE_EMPLOYERS, 0, 0);
    both(__LINE__, changed_one(PAY2, 9750001), CANYONSIEVE_EMPLOYERS, 0, 0);
    both(__LINE__, changed_one(PAY3, 9750001), CANYONSIEVE_EMPLOYERS, 0, 0);
}

static void changes_of_employer(void)
{
    static const uint64_t largest[NUMBERS] = {0,     0,     0,          1000000000, 0, 0, 0,   7,
                                              16425, 10000, 1000000000, 1,          0, 1, 1000};

    both(__LINE__, change(example_3), 0, 6323114, 2256339);
    both(__LINE__, change(largest), 0, UINT64_C(42294375000000), UINT64_C(57937500000));
    /* Bit 1 is the old employer's, bit 2 the new one's. */
    for (uint64_t controls = 0; controls < 8; controls++)
        both(__LINE__, changed_one(CONTROLS, controls), 0, controls & 2 ? 6323114 : 0, controls & 4 ? 2256339 : 0);
    /* 365 days in a year of 366 too. */
    both(__LINE__, changed_one(NEW_DAYS, 185), 0, 6323114, 2733215);
    both(__LINE__, changed(OLD_PAY, 3000000, NEW_PAY, 9000000), 0, 0, 0);
    both(__LINE__, changed_one(PAY2, 9750000), 0, 6323114, 2256339);
    both(__LINE__, changed_one(PAY3, 9750000), 0, 3465198, 2256339);
    both(__LINE__, changed_one(PRICE_INCREASE, 0), 0, 6199133, 2256339);
    both(__LINE__, changed_one(PRICE_INCREASE, 1000), 0, 12398289, 2256339);
}

static void dates(void)
{
    /* Starred figures. */
    months(__LINE__, canyonsieve_months_early(1970, 4, 1, 2025, 11, 1, 60), 0, 53);
    months(__LINE__, canyonsieve_months_early(1967, 11, 1, 2030, 10, 17, 67), 0, 49);
    months(__LINE__, canyonsieve_months_early(1967, 11, 1, 2034, 11, 1, 67), 0, 0);
    months(__LINE__, canyonsieve_months_early(1967, 11, 1, 2034, 12, 1, 67), 0, -1);

    months(__LINE__, canyonsieve_months_early(1960, 5, 15, 1960, 5, 15, 75), 0, 900);
    months(__LINE__, canyonsieve_months_early(1900, 1, 1, 2100, 12, 31, 55), 0, -1751);
    months(__LINE__, canyonsieve_months_early(2000, 2, 29, 2060, 2, 28, 60), 0, 1);

    /* A month too short for the birth day is completed on its last day. */
    months(__LINE__, canyonsieve_months_early(1970, 8, 31, 2030, 6, 29, 60), 0, 3);
    months(__LINE__, canyonsieve_months_early(1970, 8, 31, 2030, 6, 30, 60), 0, 2);
    months(__LINE__, canyonsieve_months_early(1970, 8, 31, 2030, 7, 1, 60), 0, 2);
    months(__LINE__, canyonsieve_months_early(1970, 8, 31, 2030, 7, 30, 60), 0, 2);
    months(__LINE__, canyonsieve_months_early(1972, 2, 29, 2031, 2, 28, 60), 0, 12);
    months(__LINE__, canyonsieve_months_early(1972, 2, 29, 2032, 2, 28, 60), 0, 1);
    months(__LINE__, canyonsieve_months_early(1972, 2, 29, 2032, 2, 29, 60), 0, 0);
    months(__LINE__, canyonsieve_months_early(2000, 1, 31, 2100, 2, 27, 60), 0, -480);
    months(__LINE__, canyonsieve_months_early(2000, 1, 31, 2100, 2, 28, 60), 0, -481);

    months(__LINE__, canyonsieve_months_early(1960, 5, 15, 1960, 5, 14, 60), CANYONSIEVE_DATES, 0);
    months(__LINE__, canyonsieve_months_early(1899, 12, 31, 1960, 1, 1, 60), CANYONSIEVE_DATES, 0);
    months(__LINE__, canyonsieve_months_early(1900, 1, 1, 2101, 1, 1, 60), CANYONSIEVE_DATES, 0);
    months(__LINE__, canyonsieve_months_early(1900, 2, 29, 1960, 1, 1, 60), CANYONSIEVE_DATES, 0);
    months(__LINE__, canyonsieve_months_early(1900, 1, 1, 2100, 2, 29, 60), CANYONSIEVE_DATES, 0);
    months(__LINE__, canyonsieve_months_early(1960, 0, 1, 2020, 1, 1, 60), CANYONSIEVE_DATES, 0);
    months(__LINE__, canyonsieve_months_early(1960, 1, 1, 2020, 13, 1, 60), CANYONSIEVE_DATES, 0);
    months(__LINE__, canyonsieve_months_early(1960, 1, 0, 2020, 1, 1, 60), CANYONSIEVE_DATES, 0);
    months(__LINE__, canyonsieve_months_early(1960, 1, 1, 2020, 4, 31, 60), CANYONSIEVE_DATES, 0);
    months(__LINE__, canyonsieve_months_early(1960, 1, 1, 2020, 1, 1, 54), CANYONSIEVE_DATES, 0);
    months(__LINE__, canyonsieve_months_early(1960, 1, 1, 2020, 1, 1, 76), CANYONSIEVE_DATES, 0);
    /* Numbers that would stand if they were cut to 8, 16 or 32 bits. */
    months(__LINE__, canyonsieve_months_early(65536 + 1960, 1, 1, 65536 + 2020, 1, 1, 60), CANYONSIEVE_DATES, 0);
    months(__LINE__, canyonsieve_months_early(1960, 256 + 1, 1, 2020, 1, 1, 60), CANYONSIEVE_DATES, 0);
    months(__LINE__, canyonsieve_months_early(1960, 1, 256 + 1, 2020, 1, 1, 60), CANYONSIEVE_DATES, 0);
    months(__LINE__, canyonsieve_months_early(1960, 1, 1, 2020, 1, 1, (UINT64_C(1) << 32) + 60), CANYONSIEVE_DATES, 0);
    months(__LINE__, canyonsieve_months_early(1960, 1, 1, UINT64_MAX, 1, 1, 60), CANYONSIEVE_DATES, 0);
}

static void abatements(void)
{
    static const uint64_t most = UINT64_C(1000000000000);

    /* Starred figures. */
    figure(__LINE__, canyonsieve_abatement(1000000, 600000, 2000000, 1800000), 0, 200000);
    figure(__LINE__, canyonsieve_abatement(1000000, 600000, 2000000, 3000000), 0, 400000);
    figure(__LINE__, canyonsieve_abatement(1000000, 600000, 2000000, 1600000), 0, 0);

    figure(__LINE__, canyonsieve_abatement(1000000, 1000000, 2000000, 3000000), 0, 0);
    figure(__LINE__, canyonsieve_abatement(most, 0, 0, most), 0, most);
    figure(__LINE__, canyonsieve_abatement(most, most, most, most), 0, 0);
    figure(__LINE__, canyonsieve_abatement(most + 1, 0, 0, 0), CANYONSIEVE_AMOUNT, 0);
    figure(__LINE__, canyonsieve_abatement(most, most + 1, 0, 0), CANYONSIEVE_AMOUNT, 0);
    figure(__LINE__, canyonsieve_abatement(1000000, 600000, most + 1, 0), CANYONSIEVE_AMOUNT, 0);
    figure(__LINE__, canyonsieve_abatement(1000000, 600000, 0, most + 1), CANYONSIEVE_AMOUNT, 0);
    figure(__LINE__, canyonsieve_abatement(1000000, 600000, 2000000, UINT64_MAX), CANYONSIEVE_AMOUNT, 0);
    figure(__LINE__, canyonsieve_abatement(1000000, 1000001, 2000000, most + 1), CANYONSIEVE_AMOUNT, 0);
    figure(__LINE__, canyonsieve_abatement(1000000, 1000001, 2000000, 1800000), CANYONSIEVE_EARNED, 0);
}

/* The numbers of an outcome, expected in the order of its fields. */
enum { FIELDS = 7 };

static void outcome(int line, const char *text, size_t length, const uint64_t expected[FIELDS])
{
    struct canyonsieve_outcome got = canyonsieve_case((const uint8_t *)text, length);
    same(line, "refusal", got.refusal, expected[0]);
    same(line, "line", got.line, expected[1]);
    same(line, "net 2015", got.net_2015, expected[2]);
    same(line, "net 1995", got.net_1995, expected[3]);
    same(line, "net lump sum", got.net_lump_sum, expected[4]);
    same(line, "charge", got.charge, expected[5]);
    same(line, "rounded up", got.rounded_up, expected[6]);
}

static void worked(int line, const char *text, uint64_t net_2015, uint64_t net_1995, uint64_t net_lump_sum,
                   uint64_t charge, uint64_t rounded_up)
{
    const uint64_t expected[FIELDS] = {0, 0, net_2015, net_1995, net_lump_sum, charge, rounded_up};
    outcome(line, text, strlen(text), expected);
}

static void refused(int line, const char *text, uint64_t refusal, uint64_t at)
{
    const uint64_t expected[FIELDS] = {refusal, at, 0, 0, 0, 0, 0};
    outcome(line, text, strlen(text), expected);
}

#define MEMBER "0107B2040107F50401004300\n"
#define MONTH_EARLY "0107B2040107F50301004300\n"
#define YEAR "0207DF0000\n"
#define POSTS "0305DC08CA0027AC4000000000\n03038408CA00124F8000000000\n"

/* Members of the 1995 Section, born 1 April 1970: out at 67, and at 55, which is 144 months early in the 2015 Scheme,
 * 60 in the section, and 120 to the other section's age. The final pay is that of the starred charge. */
#define MEMBER_1995 "0107B2040107F5040101433C\n"
#define EARLY_1995 "0107B2040107E9040101433C\n"
#define FINAL_PAY "04002DC6C0002F4D600030D400003D0900004100410041071C8407E4\n"
#define FACTORS_1995 "0500009003840000\n0501003C03200384\n"
#define FACTORS_TO_65 "0500009003840000\n0501007803200384\n"

/* Born 31 August 1970, pension age 60: out on the last day of June 2030, and on the day before it. A post that earns a
 * pension of 500.00, and factors of 0.990 and 0.980. */
#define LAST_OF_JUNE "0107B2081F07EE061E003C00\n"
#define DAY_BEFORE_IT "0107B2081F07EE061D003C00\n"
#define POST_OF_500 "03070808CA002932E000000000\n"
#define TWO_MONTHS "0500000203DE0000\n"
#define THREE_MONTHS "0500000303D40000\n"

static void cases(void)
{
    static const uint64_t no_record[FIELDS] = {CANYONSIEVE_ORDER};

    /* 3,600,000/54 = 66,666.67 is the one amount that goes up. */
    worked(__LINE__, MEMBER YEAR POSTS, 66667, 0, 0, 0, 1);
    worked(__LINE__, MEMBER, 0, 0, 0, 0, 0);
    /* A member with a section: the final pay and the charge of the starred figure, all of them exact. */
    worked(__LINE__, MEMBER_1995 YEAR POSTS FINAL_PAY, 66667, 1000000, 3000000, 3433600, 1);

    /* The factor is that of the months that the last day completed. */
    worked(__LINE__, LAST_OF_JUNE YEAR POST_OF_500 TWO_MONTHS, 49500, 0, 0, 0, 0);
    refused(__LINE__, LAST_OF_JUNE YEAR POST_OF_500 THREE_MONTHS, CANYONSIEVE_NO_FACTOR, 0);
    worked(__LINE__, DAY_BEFORE_IT YEAR POST_OF_500 THREE_MONTHS, 49000, 0, 0, 0, 0);
    refused(__LINE__, DAY_BEFORE_IT YEAR POST_OF_500 TWO_MONTHS, CANYONSIEVE_NO_FACTOR, 0);

    outcome(__LINE__, NULL, 0, no_record);
    refused(__LINE__, "\n", CANYONSIEVE_LINE, 1);
    refused(__LINE__, MEMBER YEAR "0305DC08CA0027AC400000000g\n", CANYONSIEVE_LINE, 3);
    refused(__LINE__, MEMBER "0207df0000\n", CANYONSIEVE_LINE, 2);
    refused(__LINE__, MEMBER "0207DF0000", CANYONSIEVE_LINE, 2);
    refused(__LINE__, MEMBER "07\n", CANYONSIEVE_FRAME, 2);
    refused(__LINE__, YEAR, CANYONSIEVE_ORDER, 1);
    refused(__LINE__, MEMBER MEMBER, CANYONSIEVE_ORDER, 2);
    refused(__LINE__, "0107B2041F07F50401004300\n", CANYONSIEVE_DATES, 1);
    refused(__LINE__, MEMBER "0207DE0000\n", CANYONSIEVE_YEAR, 2);
    refused(__LINE__, MEMBER YEAR "0308CB08CA0027AC4000000000\n", CANYONSIEVE_POST, 3);
    refused(__LINE__, MEMBER_1995, CANYONSIEVE_NO_FINAL_PAY, 0);
    refused(__LINE__, MONTH_EARLY, CANYONSIEVE_NO_FACTOR, 0);
    refused(__LINE__, MEMBER YEAR POSTS "06000001046C0064\n", CANYONSIEVE_DEBIT_ABOVE, 0);
    worked(__LINE__, MEMBER YEAR POSTS "06000001046B0064\n", 0, 0, 0, 0, 1);
}

/* One line of noughts: too long a text, an odd count of digits, and a frame too long. */
static void long_texts(void)
{
    static const uint64_t too_long[FIELDS] = {CANYONSIEVE_TEXT_LENGTH};
    static const uint64_t odd_line[FIELDS] = {CANYONSIEVE_LINE, 1};
    static const uint64_t long_frame[FIELDS] = {CANYONSIEVE_FRAME, 1};
    static char text[32769];

    memset(text, '0', sizeof text);
    outcome(__LINE__, text, 32769, too_long);
    text[32767] = '\n';
    outcome(__LINE__, text, 32768, odd_line);
    text[32766] = '\n';
    text[32767] = '0';
    outcome(__LINE__, text, 32768, long_frame);
}

/* Members of the 2008 Section, born 1 April 1970: out at 67, and at 63, which is 48 months early in the 2015 Scheme and
 * 24 in the section. Ten pays whose best three years average 41,000.00, with 7,300 days: a pension of 13,666.67. */
#define MEMBER_2008 "0107B2040107F50401024341\n"
#define EARLY_2008 "0107B2040107F10401024341\n"
#define TEN_PAYS "08002DC6C0002F4D600030D400003D0900003E8FA000401640003B82600039FBC0003875200036EE801C84\n"
#define FACTOR_2015 "0500003003840000\n"
#define FACTOR_2008 "0501001803200000\n"

/* What a member with ten pays gets, in the 2008 Section and without it. */
static void ten_pays(int line, const char *member, const uint32_t pays[10], unsigned days, uint64_t refusal,
                     uint64_t net_1995, uint64_t rounded_up)
{
    const uint64_t expected[FIELDS] = {refusal, refusal == 0 ? 0 : 2, 0, net_1995, 0, 0, rounded_up};
    char text[128];
    size_t length = (size_t)sprintf(text, "%s08", member);

    for (size_t i = 0; i < 10; i++)
        length += (size_t)sprintf(text + length, "%08" PRIX32, pays[i]);
    length += (size_t)sprintf(text + length, "%04X\n", days);
    outcome(line, text, length, expected);
}

static void pensions_2008(void)
{
    static const uint32_t equal[10] = {3000000, 3000000, 3000000, 3000000, 3000000,
                                       3000000, 3000000, 3000000, 3000000, 3000000};
    static const uint32_t small[10] = {1, 1};
    uint32_t most[10];

    /* The average is exact, the pension of 1,366,666.67 goes up; beside it the 54th of the printed case. */
    worked(__LINE__, MEMBER_2008 TEN_PAYS, 0, 1366667, 0, 0, 1);
    worked(__LINE__, MEMBER_2008 YEAR POSTS TEN_PAYS, 66667, 1366667, 0, 0, 2);
    ten_pays(__LINE__, MEMBER_2008, equal, 7300, 0, 1000000, 0);
    /* The average of 2 pence in three years is 1, and so is the pension of 0.75; of no days it is exact. */
    ten_pays(__LINE__, MEMBER_2008, small, 16425, 0, 1, 2);
    ten_pays(__LINE__, MEMBER_2008, small, 0, 0, 0, 1);
    /* The best three years at each place. */
    for (size_t first = 0; first < 8; first++) {
        uint32_t pays[10] = {0};
        pays[first] = 4000000;
        pays[first + 1] = 4300000;
        pays[first + 2] = 4000000;
        ten_pays(__LINE__, MEMBER_2008, pays, 7300, 0, 1366667, 1);
    }
    /* Each limit, and past it. */
    for (size_t i = 0; i < 10; i++)
        most[i] = CANYONSIEVE_MAX_PAY;
    ten_pays(__LINE__, MEMBER_2008, most, 16425, 0, 750000000, 0);
    ten_pays(__LINE__, MEMBER_2008, most, 16426, CANYONSIEVE_TEN_PAYS, 0, 0);
    ten_pays(__LINE__, MEMBER, most, 16426, CANYONSIEVE_ORDER, 0, 0);
    ten_pays(__LINE__, MEMBER_1995, most, 16426, CANYONSIEVE_ORDER, 0, 0);
    for (size_t i = 0; i < 10; i++) {
        most[i]++;
        ten_pays(__LINE__, MEMBER_2008, most, 16425, CANYONSIEVE_TEN_PAYS, 0, 0);
        ten_pays(__LINE__, MEMBER, most, 16425, CANYONSIEVE_ORDER, 0, 0);
        most[i] = UINT32_MAX;
        ten_pays(__LINE__, MEMBER_2008, most, 0, CANYONSIEVE_TEN_PAYS, 0, 0);
        most[i] = CANYONSIEVE_MAX_PAY;
    }
}

/* Their factors and debits. */
static void cases_2008(void)
{
    /* Early by 65: 0.8 of 13,666.67 is 10,933.336, up as the pension itself. */
    worked(__LINE__, EARLY_2008 TEN_PAYS FACTOR_2015 FACTOR_2008, 0, 1093334, 0, 0, 2);
    refused(__LINE__, EARLY_2008 TEN_PAYS FACTOR_2015, CANYONSIEVE_NO_FACTOR, 0);
    refused(__LINE__, EARLY_2008 TEN_PAYS FACTOR_2008, CANYONSIEVE_NO_FACTOR, 0);
    refused(__LINE__, EARLY_2008 TEN_PAYS FACTOR_2015 "0501001803200001\n", CANYONSIEVE_FACTOR, 4);
    refused(__LINE__, MEMBER FACTOR_2008, CANYONSIEVE_FACTOR, 2);
    refused(__LINE__, MEMBER_2008 TEN_PAYS "0502001803200000\n", CANYONSIEVE_FACTOR, 3);
    /* Debits of 495.0495, which goes up, of all of it, and of a penny more. */
    worked(__LINE__, MEMBER_2008 TEN_PAYS "0601000F424007E4\n", 0, 1317162, 0, 0, 2);
    worked(__LINE__, MEMBER_2008 TEN_PAYS "06010014DA8B0064\n", 0, 0, 0, 0, 1);
    refused(__LINE__, MEMBER_2008 TEN_PAYS "06010014DA8C0064\n", CANYONSIEVE_DEBIT_ABOVE, 0);
    refused(__LINE__, MEMBER_2008 TEN_PAYS "06013B9ACA000001\n", CANYONSIEVE_DEBIT_ABOVE, 0);
    refused(__LINE__, MEMBER "0601000F424007E4\n", CANYONSIEVE_DEBIT, 2);
    refused(__LINE__, MEMBER_2008 TEN_PAYS "0602000F424007E4\n", CANYONSIEVE_DEBIT, 3);
}

/* Each section has its own frame of pays, one of it, in its place and of its length. */
static void frames_2008(void)
{
    refused(__LINE__, "0107B2040107F50401034300\n", CANYONSIEVE_DATES, 1);
    refused(__LINE__, MEMBER_2008, CANYONSIEVE_NO_FINAL_PAY, 0);
    refused(__LINE__, EARLY_2008, CANYONSIEVE_NO_FINAL_PAY, 0);
    refused(__LINE__, MEMBER_2008 FINAL_PAY, CANYONSIEVE_ORDER, 2);
    refused(__LINE__, MEMBER_1995 TEN_PAYS, CANYONSIEVE_ORDER, 2);
    refused(__LINE__, MEMBER TEN_PAYS, CANYONSIEVE_ORDER, 2);
    refused(__LINE__, TEN_PAYS, CANYONSIEVE_ORDER, 1);
    refused(__LINE__, MEMBER_2008 TEN_PAYS TEN_PAYS, CANYONSIEVE_ORDER, 3);
    refused(__LINE__, MEMBER_2008 TEN_PAYS FINAL_PAY, CANYONSIEVE_ORDER, 3);
    refused(__LINE__, MEMBER_1995 FINAL_PAY TEN_PAYS, CANYONSIEVE_ORDER, 3);
    refused(__LINE__, MEMBER_2008 TEN_PAYS YEAR, CANYONSIEVE_ORDER, 3);
    refused(__LINE__, MEMBER_2008 YEAR TEN_PAYS POSTS, CANYONSIEVE_ORDER, 4);
    refused(__LINE__, EARLY_2008 FACTOR_2015 TEN_PAYS, CANYONSIEVE_ORDER, 3);
    refused(__LINE__, MEMBER_2008 "0601000F424007E4\n" TEN_PAYS, CANYONSIEVE_ORDER, 3);
    /* 42 and 44 bytes, and the length of another kind. */
    refused(__LINE__,
            MEMBER_2008 "08002DC6C0002F4D600030D400003D0900003E8FA000401640003B82600039FBC0003875200036EE801C\n",
            CANYONSIEVE_FRAME, 2);
    refused(__LINE__,
            MEMBER_2008 "08002DC6C0002F4D600030D400003D0900003E8FA000401640003B82600039FBC0003875200036EE801C8400\n",
            CANYONSIEVE_FRAME, 2);
    refused(__LINE__, MEMBER_2008 "0801001803200000\n", CANYONSIEVE_FRAME, 2);
    refused(__LINE__, MEMBER "0801001803200000\n", CANYONSIEVE_FRAME, 2);
}

/* The pension age of the section, the last byte of a member frame: each section with every byte; the months early that
 * are counted to it; 3 for the frame of 11 and of 13 bytes, then 4, then 5, before 28. */
static void section_ages(void)
{
    static const unsigned own[] = {0, 60, 65};
    char text[32];

    for (unsigned section = 0; section < COUNT(own); section++)
        for (unsigned byte = 0; byte < 256; byte++) {
            uint64_t alone = section == 0 ? CANYONSIEVE_ACCEPTED : CANYONSIEVE_NO_FINAL_PAY;
            uint64_t refusal = byte == own[section] ? alone : CANYONSIEVE_SECTION_AGE;
            const uint64_t expected[FIELDS] = {refusal, refusal == CANYONSIEVE_SECTION_AGE};
            sprintf(text, "0107B2040107F50401%02X43%02X\n", section, byte);
            outcome(__LINE__, text, strlen(text), expected);
        }
    worked(__LINE__, EARLY_1995 FINAL_PAY FACTORS_1995, 0, 800000, 2700000, 3433600, 0);
    refused(__LINE__, EARLY_1995 FINAL_PAY FACTORS_TO_65, CANYONSIEVE_NO_FACTOR, 0);
    refused(__LINE__, "0107B2040107F504010043\n", CANYONSIEVE_FRAME, 1);
    refused(__LINE__, "0107B2040107F504010343\n", CANYONSIEVE_FRAME, 1);
    refused(__LINE__, "0107B2040107F5040100430000\n", CANYONSIEVE_FRAME, 1);
    refused(__LINE__, MEMBER "0107B2040107F5040100433C\n", CANYONSIEVE_ORDER, 2);
    refused(__LINE__, "0107B2040107F5040103433C\n", CANYONSIEVE_DATES, 1);
    refused(__LINE__, "0107B2040107F5040100363C\n", CANYONSIEVE_DATES, 1);
    refused(__LINE__, "0107B2041F07F50401014300\n", CANYONSIEVE_DATES, 1);
    refused(__LINE__, "0107B2040207B204010243FF\n", CANYONSIEVE_DATES, 1);
}

/* The struct as the library fills it: seven numbers, the count last. */
static void layout(void)
{
    same(__LINE__, "bytes of an outcome", sizeof(struct canyonsieve_outcome), FIELDS * sizeof(uint64_t));
    same(__LINE__, "place of the count", offsetof(struct canyonsieve_outcome, rounded_up), 6 * sizeof(uint64_t));
}

/* A year of one whole-time post, whose pay is the aggregate, and further lines. */
static void pay_of(int line, const char *member, unsigned pay, const char *more, uint64_t net_2015, uint64_t rounded_up)
{
    char text[128];

    sprintf(text, "%s" YEAR "0300010001%08X00000000\n%s", member, pay, more);
    worked(line, text, net_2015, 0, 0, 0, rounded_up);
}

/* Which way each step of the 2015 Scheme goes. A half goes up; what is exact or goes down is not counted. */
static void ways_2015(void)
{
    /* A 54th: 1, 0.48, a half, 0.52. */
    pay_of(__LINE__, MEMBER, 54, "", 1, 0);
    pay_of(__LINE__, MEMBER, 26, "", 0, 0);
    pay_of(__LINE__, MEMBER, 27, "", 1, 1);
    pay_of(__LINE__, MEMBER, 28, "", 1, 1);
    /* A pension of 5 in a second year: 5.5, 5.4995, 6. */
    pay_of(__LINE__, MEMBER, 270, "0207E003E8\n", 6, 1);
    pay_of(__LINE__, MEMBER, 270, "0207E003E7\n", 5, 0);
    pay_of(__LINE__, MEMBER, 270, "0207E007D0\n", 6, 0);
    /* A month early by 0.5, 0.499 and 1 of a pension of 1; on time that 05 is not used. */
    pay_of(__LINE__, MONTH_EARLY, 54, "0500000101F40000\n", 1, 1);
    pay_of(__LINE__, MONTH_EARLY, 54, "0500000101F30000\n", 0, 0);
    pay_of(__LINE__, MONTH_EARLY, 54, "0500000103E80000\n", 1, 0);
    pay_of(__LINE__, MEMBER, 54, "0500000101F40000\n", 1, 0);
    /* Debits of 100/199, 100/200, 100/201 and 100/100 from a pension of 100. */
    pay_of(__LINE__, MEMBER, 5400, "06000000000100C7\n", 99, 1);
    pay_of(__LINE__, MEMBER, 5400, "06000000000100C8\n", 99, 1);
    pay_of(__LINE__, MEMBER, 5400, "06000000000100C9\n", 100, 0);
    pay_of(__LINE__, MEMBER, 5400, "0600000000010064\n", 99, 0);
    /* Aggregates of 8.4, a half more than 1, and 3,618,418.60, whose 54th of 67,007.76 goes up as well. */
    worked(__LINE__,
           MEMBER YEAR "03000500060000000800000000\n03000200030000000400000000\n03000100020000000100000000\n", 0, 0, 0,
           0, 0);
    worked(__LINE__, MEMBER YEAR "03000200030000000100000000\n03000200030000000100000000\n", 0, 0, 0, 0, 1);
    worked(__LINE__,
           MEMBER YEAR "0303C008CA0015F90000000000\n0301E008CA000D2F0000000000\n0304740960001A17B000000000\n", 67008, 0,
           0, 0, 2);
}

/* A year of posts of the paper, and further lines. */
static void year_of(int line, const char *member, const struct post *list, size_t count, const char *more,
                    const uint64_t expected[FIELDS])
{
    char text[1024];
    size_t length = (size_t)sprintf(text, "%s" YEAR, member);

    for (size_t i = 0; i < count; i++)
        length += (size_t)sprintf(text + length, "03%04X%04X%08" PRIX32 "%08" PRIX32 "\n", list[i].h, list[i].w,
                                  list[i].p, list[i].s);
    length += (size_t)sprintf(text + length, "%s", more);
    outcome(line, text, length, expected);
}

/* The same without a section and without more. */
#define PENSION(list, net_2015, rounded_up) \
    year_of(__LINE__, MEMBER, list, COUNT(list), "", (const uint64_t[FIELDS]){0, 0, net_2015, 0, 0, 0, rounded_up})

/* Cases with supplements: the figures of the posts call, a 54th of them, and which way the aggregate went. */
static void cases_with_supplements(void)
{
    /* Of the second 7/8 of the pay and 7/15 of the supplement count. */
    static const struct post down[] = {{1200, 2250, 1200000, 0}, {1200, 2250, 1000000, 1}};
    static const struct post up[] = {{1200, 2250, 1200000, 0}, {1200, 2250, 1000000, 2}};
    static const struct post exact[] = {{1200, 2250, 1200000, 0}, {1200, 2250, 1000000, 15}};
    static const struct post half[] = {{1200, 2250, 1200000, 0}, {1200, 2250, 1000004, 15}};
    static const struct post past[] = {{1500, 2250, 2600000, 1000000001}};
    static const struct post whole[] = {{2250, 2250, 2000000, 0}, {2250, 2250, 2000000, 1000000001}};
    static const uint64_t refused_first[FIELDS] = {CANYONSIEVE_POST, 3};
    static const uint64_t refused_second[FIELDS] = {CANYONSIEVE_POST, 4};
    static const uint64_t of_1995[FIELDS] = {0, 0, 112173, 1000000, 3000000, 3433600, 1};
    static const uint64_t of_2008[FIELDS] = {0, 0, 112173, 1366667, 0, 0, 2};

    /* 60,573.3333 goes down, a 54th of it, 1,121.7284, up. */
    PENSION(scenario_e, 112173, 1);
    PENSION(equal_rates, 45154, 0);
    PENSION(equal_rates_turned, 46543, 0);
    PENSION(whole_with_supplement, 37963, 1);
    /* 2,075,000.47, .93, 2,075,007 and 2,075,010.5. A 54th of the first two goes up as well. */
    PENSION(down, 38426, 1);
    PENSION(up, 38426, 2);
    PENSION(exact, 38426, 0);
    PENSION(half, 38426, 1);
    year_of(__LINE__, MEMBER_1995, scenario_e, 2, FINAL_PAY, of_1995);
    year_of(__LINE__, MEMBER_2008, scenario_e, 2, TEN_PAYS, of_2008);
    year_of(__LINE__, MEMBER, past, 1, "", refused_first);
    year_of(__LINE__, MEMBER, whole, 2, "", refused_second);
    /* Posts of 9 bytes, as before, of 12 and of 14. */
    refused(__LINE__, MEMBER YEAR "0305DC08CA0027AC40\n03038408CA00124F80\n", CANYONSIEVE_FRAME, 3);
    refused(__LINE__, MEMBER YEAR "0305DC08CA0027AC40000000\n", CANYONSIEVE_FRAME, 3);
    refused(__LINE__, MEMBER YEAR "0305DC08CA0027AC400000000000\n", CANYONSIEVE_FRAME, 3);
}

/* 50 years of the highest aggregate, 32,000,000,000, each with the highest revaluation. */
static void largest_pension(void)
{
    static const uint64_t expected[FIELDS] = {0, 0, UINT64_C(26961298242272), 0, 0, 0, 69};
    static char text[CANYONSIEVE_MAX_TEXT];
    size_t length = (size_t)sprintf(text, MEMBER);

    for (unsigned i = 0; i < CANYONSIEVE_MAX_YEARS; i++) {
        length += (size_t)sprintf(text + length, "02%04X07D0\n", 2015 + i);
        for (unsigned j = 0; j < CANYONSIEVE_MAX_POSTS; j++)
            length += (size_t)sprintf(text + length, "03027627603B9ACA003B9ACA00\n");
    }
    outcome(__LINE__, text, length, expected);
}

/* A member of the 1995 Section on time, with allowances of a half. */
static void final_pay(int line, const uint32_t pays[4], unsigned controls, unsigned days, unsigned factor,
                      uint64_t net_1995, uint64_t charge, uint64_t rounded_up)
{
    char text[128];

    sprintf(text, MEMBER_1995 "04%08" PRIX32 "%08" PRIX32 "%08" PRIX32 "%08" PRIX32 "01F401F401F4%02X%04X%04X\n",
            pays[0], pays[1], pays[2], pays[3], controls, days, factor);
    worked(line, text, 0, net_1995, 3 * net_1995, charge, rounded_up);
}

/* Which way the steps of final pay and of the charge go. */
static void ways_of_final_pay(void)
{
    static const uint32_t pays[4] = {1, 3, 1, 1};
    static const uint32_t ones[4] = {1, 1, 1, 1};
    /* 14,600 days are a half. The pension of 1.5 goes up, and by the controls, bit 0 for year 3: allowed 3 is 1.5 up
     * to 2, else its pay of 3; allowed 2 is then 3, else 4.5 up to 5; allowed 1 is 1.5 up to 2. Only with year 3
     * controlled is there an excess, 1, whose pension of 0.5 goes up. An uncontrolled year rounds nothing. */
    static const uint64_t counts[8] = {1, 3, 2, 3, 2, 4, 3, 4};

    for (unsigned controls = 0; controls < 8; controls++) {
        unsigned years = (controls & 1) + (controls >> 1 & 1) + (controls >> 2);
        final_pay(__LINE__, pays, controls, 14600, 100, 2, controls & 1 ? 4 : 0, counts[controls]);
        /* Each controlled year goes from 1.5 to 2, though no excess comes of it; the pension of no days is exact. */
        final_pay(__LINE__, ones, controls, 0, 100, 0, 0, years);
    }
    /* A day fewer: 1.4999 and 0.49997 go down, allowed 3 and 1 up. The charge's product of 1.5, and of 1.49. */
    final_pay(__LINE__, pays, 7, 14599, 100, 1, 0, 2);
    final_pay(__LINE__, pays, 1, 14600, 150, 2, 5, 4);
    final_pay(__LINE__, pays, 1, 14600, 149, 2, 4, 3);
}

/* A final pay whose pension of 1.5 goes up to 2, uncontrolled; early in both schemes, the 2015 pension being 0. */
#define PENSION_OF_2 "04000000010000000300000001000000010000000000000039080064\n"
#define EARLY_OF_2 EARLY_1995 PENSION_OF_2 "0500009003840000\n"

/* Which way a section's reductions, debit and ten pays go. */
static void ways_of_sections(void)
{
    static const uint32_t two_thirds[10] = {0, 0, 0, 0, 0, 0, 0, 1, 1, 0};
    static const uint32_t whole[10] = {0, 0, 0, 0, 0, 0, 1, 1, 1, 0};
    static const uint32_t third[10] = {0, 0, 0, 0, 0, 0, 0, 0, 0, 1};
    static const uint32_t four_thirds[10] = {0, 0, 0, 0, 0, 0, 1, 2, 1, 0};
    static const uint32_t best_exact[10] = {0, 0, 0, 0, 0, 1, 2, 2, 2, 1};

    /* By 0.75 the pension is 1.5 and the lump sum 4.5; by 0.5 both are exact; 1.4 and 4.44 go down. */
    worked(__LINE__, EARLY_OF_2 "0501003C02EE02EE\n", 0, 2, 5, 0, 3);
    worked(__LINE__, EARLY_OF_2 "0501003C01F401F4\n", 0, 1, 3, 0, 1);
    worked(__LINE__, EARLY_OF_2 "0501003C02BC02E4\n", 0, 1, 4, 0, 1);
    /* The pension debit of 100/199 counts, the lump debit of three times it does not. */
    worked(__LINE__, MEMBER_1995 PENSION_OF_2 "06010000000100C7\n", 0, 1, 3, 0, 2);
    /* Pension and debit, 2.56 up to 3, went up; the case is refused, and the count is 0. */
    refused(__LINE__, MEMBER_1995 PENSION_OF_2 "0601000000010027\n", CANYONSIEVE_DEBIT_ABOVE, 0);
    /* 10,950 days are a half. Only the average taken counts: 2/3, 1, 1/3, 4/3. */
    ten_pays(__LINE__, MEMBER_2008, two_thirds, 10950, 0, 1, 2);
    ten_pays(__LINE__, MEMBER_2008, whole, 10950, 0, 1, 1);
    ten_pays(__LINE__, MEMBER_2008, third, 10950, 0, 0, 0);
    ten_pays(__LINE__, MEMBER_2008, four_thirds, 10950, 0, 1, 1);
    /* 6/3 is the best before rounding, though 5/3 before and after it are 2 as well, once rounded. */
    ten_pays(__LINE__, MEMBER_2008, best_exact, 10950, 0, 1, 0);
}

/* 50 years in which all goes up but the first revaluation, that of 0: 149. Two posts make a half more than a whole
 * number and a 54th of 29/54 more than one: 5,000 at first, then 1. Each revaluation adds 0.5 to 0.51, which is 1. In
 * the end the pension is 5,000 + 49 x 2 = 5,098. */
static void fifty_years(int line, const char *member, const char *rest, const uint64_t expected[FIELDS])
{
    static char text[4096];
    size_t length = (size_t)sprintf(text, "%s", member);

    for (unsigned i = 0; i < CANYONSIEVE_MAX_YEARS; i++) {
        unsigned pay = i == 0 ? 179983 : 19;
        length += (size_t)sprintf(text + length, "02%04X0001\n", 2015 + i);
        length += (size_t)sprintf(text + length, "0300020003%08X00000000\n0300020003%08X00000000\n", pay, pay);
    }
    length += (size_t)sprintf(text + length, "%s", rest);
    outcome(line, text, length, expected);
}

/* The highest counts: 149 of the years and all there are of the rest. */
static void most_rounded_up(void)
{
    static const uint64_t no_section[FIELDS] = {0, 0, 5098, 0, 0, 0, 149};
    static const uint64_t of_1995[FIELDS] = {0, 0, 3823, 1, 2, 5, 160};
    static const uint64_t of_2008[FIELDS] = {0, 0, 3823, 0, 0, 0, 155};

    fifty_years(__LINE__, MEMBER, "", no_section);
    /* Pension 1.5, allowed 1.5, 2.5 and 1.5, excess pension 0.5, product 1.5; reduced 3,823.5, 1.5 and 4.5; debits. */
    fifty_years(__LINE__, EARLY_1995,
                "040000000100000003000000010000000101F400FA01F40739080096\n"
                "0500009002EE0000\n0501003C02EE02EE\n06000000000100C7\n06010000000100C7\n",
                of_1995);
    /* Average 2/3, pension 0.5; reduced 3,823.5 and 0.5; debits. */
    fifty_years(__LINE__, EARLY_2008,
                "08000000000000000000000000000000000000000000000000000000000000000100000001000000002AC6\n"
                "0500003002EE0000\n0501001801F40000\n06000000000100C7\n06010000000100C7\n",
                of_2008);
}

/* Each refusal has words of its own, and any other number the same words. */
static void words(void)
{
    static const uint64_t others[] = {15, 20, 30, 255, (UINT64_C(1) << 32) + 7, UINT64_MAX};
    const char *none = canyonsieve_refusal_words(UINT64_C(1) << 40);

    same(__LINE__, "7 names the supplement", strstr(canyonsieve_refusal_words(7), "supplement") != NULL, 1);
    same(__LINE__, "23 names 12 bytes", strstr(canyonsieve_refusal_words(23), "multiple of 12") != NULL, 1);
    same(__LINE__, "refusal of ten pays", CANYONSIEVE_TEN_PAYS, 27);
    same(__LINE__, "refusal of a section's pension age", CANYONSIEVE_SECTION_AGE, 28);
    same(__LINE__, "refusal of a position", CANYONSIEVE_POSITION, 29);
    same(__LINE__, "29 names a position", strstr(canyonsieve_refusal_words(29), "position that holds") != NULL, 1);
    for (uint64_t n = 0; n <= CANYONSIEVE_POSITION; n++) {
        int is_refusal = n <= CANYONSIEVE_DEBIT_ABOVE || n >= CANYONSIEVE_POST_COUNT;
        same(__LINE__, "words of its own", strcmp(canyonsieve_refusal_words(n), none) != 0, (uint64_t)is_refusal);
        for (uint64_t m = 0; is_refusal && m < n; m++)
            same(__LINE__, "the same words",
                 strcmp(canyonsieve_refusal_words(n), canyonsieve_refusal_words(m)) == 0, 0);
    }
    for (size_t i = 0; i < COUNT(others); i++)
        same(__LINE__, "words for no refusal", strcmp(canyonsieve_refusal_words(others[i]), none) == 0, 1);
}

/* A text of a member, years from 2015 on and one post of a pay in the last. */
static void years(int line, unsigned count, uint64_t pay, uint64_t refusal, uint64_t at, uint64_t net_2015,
                  uint64_t rounded_up)
{
    static char text[2048];
    const uint64_t expected[FIELDS] = {refusal, at, net_2015, 0, 0, 0, rounded_up};
    size_t length = (size_t)sprintf(text, MEMBER);

    for (unsigned i = 0; i < count; i++)
        length += (size_t)sprintf(text + length, "02%04X0000\n", 2015 + i);
    length += (size_t)sprintf(text + length, "03000A0014%08" PRIX64 "00000000\n", pay);
    outcome(line, text, length, expected);
}

/* Each limit of the header passes, and the number past it is refused. */
static void limits(void)
{
    static const struct post most[] = {{10, 20, CANYONSIEVE_MAX_PAY, CANYONSIEVE_MAX_PAY}};
    static const struct post past[] = {{10, 20, CANYONSIEVE_MAX_PAY, CANYONSIEVE_MAX_PAY + UINT32_C(1)}};
    static const uint8_t zeros[CANYONSIEVE_BYTES_OF_POST * (CANYONSIEVE_MAX_POSTS + 1)];
    static uint8_t text[CANYONSIEVE_MAX_TEXT + 1];
    uint64_t parts[CANYONSIEVE_MAX_POSTS + 1];

    years(__LINE__, CANYONSIEVE_MAX_YEARS, 54, 0, 0, 1, 0);
    years(__LINE__, CANYONSIEVE_MAX_YEARS + 1, 54, CANYONSIEVE_YEAR, 1 + CANYONSIEVE_MAX_YEARS + 1, 0, 0);
    years(__LINE__, 1, CANYONSIEVE_MAX_PAY, 0, 0, 18518519, 1);
    years(__LINE__, 1, CANYONSIEVE_MAX_PAY + UINT64_C(1), CANYONSIEVE_POST, 3, 0, 0);
    same(__LINE__, "bytes of a post", CANYONSIEVE_BYTES_OF_POST, 12);
    ACCEPTED(most, 1, 2000000000, 100);
    REFUSED(past, 1, CANYONSIEVE_POST);
    /* Posts of noughts are refused one by one where their number passes, bytes of noughts as a line. */
    figure(__LINE__, canyonsieve_posts(zeros, sizeof zeros - CANYONSIEVE_BYTES_OF_POST, parts, COUNT(parts)),
           CANYONSIEVE_POST, 0);
    figure(__LINE__, canyonsieve_posts(zeros, sizeof zeros, parts, COUNT(parts)), CANYONSIEVE_POST_COUNT, 0);
    same(__LINE__, "refusal", canyonsieve_case(text, CANYONSIEVE_MAX_TEXT).refusal, CANYONSIEVE_LINE);
    same(__LINE__, "refusal", canyonsieve_case(text, CANYONSIEVE_MAX_TEXT + 1).refusal, CANYONSIEVE_TEXT_LENGTH);
}

int main(void)
{
    posts_accepted();
    posts_refused();
    sixteen_posts();
    supplements();
    large_supplements();
    supplements_refused();
    posts_that_start_and_stop();
    charges();
    changes_of_employer();
    changes_refused();
    changes_out_of_range();
    dates();
    abatements();
    cases();
    long_texts();
    pensions_2008();
    cases_2008();
    frames_2008();
    section_ages();
    layout();
    ways_2015();
    cases_with_supplements();
    largest_pension();
    ways_of_final_pay();
    ways_of_sections();
    most_rounded_up();
    words();
    limits();
    printf("%u checks passed\n", checks);
    return 0;
}
