/* A payroll screen for bank staff, who take up and drop posts all through the year. It keeps a list of posts, which
 * join at its end and leave by their position, and after each change it shows the pensionable pay of the posts that
 * remain, with the hours that count and those left out. These are the figures of the year that posts join and leave
 * inside the engine (docs/PROVED.md). A refused change leaves the list as it was. */
#include "posts.h"

#include <string.h>

/* The bytes of the posts, in their order, and how many posts there are. */
struct year {
    uint8_t posts[CANYONSIEVE_MAX_POSTS * CANYONSIEVE_BYTES_OF_POST];
    size_t count;
};

/* The bytes of a year from a place on, the first being 0. */
static uint8_t *place_of(struct year *year, size_t place)
{
    return year->posts + place * CANYONSIEVE_BYTES_OF_POST;
}

/* Puts a post at the end, if the call takes the list with it; gives the refusal. */
static uint64_t join(struct year *year, struct post newcomer)
{
    struct year tried = *year;
    uint64_t parts[CANYONSIEVE_MAX_POSTS];

    /* A 17th post is refused with 7, as in a case. The call cannot say so: to it 17 posts are a list that is too long,
     * which is 21. Nor is there room for one. */
    if (year->count == CANYONSIEVE_MAX_POSTS)
        return CANYONSIEVE_POST;
    put_post(place_of(&tried, tried.count), newcomer);
    tried.count++;
    struct canyonsieve_figure pay = canyonsieve_posts(tried.posts, tried.count * CANYONSIEVE_BYTES_OF_POST, parts,
                                                      CANYONSIEVE_MAX_POSTS);
    if (pay.refusal == CANYONSIEVE_ACCEPTED)
        *year = tried;
    return pay.refusal;
}

/* Takes out the post at a position, the first being 1, and moves later ones up; gives the refusal. The position may be
 * any number. */
static uint64_t leave(struct year *year, uint64_t position)
{
    if (position < 1 || position > year->count)
        return CANYONSIEVE_POSITION;
    size_t place = (size_t)position - 1;
    size_t later = year->count - 1 - place;
    memmove(place_of(year, place), place_of(year, place + 1), later * CANYONSIEVE_BYTES_OF_POST);
    year->count--;
    return CANYONSIEVE_ACCEPTED;
}

/* The screen after a change: what was asked for, why it was refused if it was, and the year as it now is. Gives whether
 * something went otherwise than is meant here. */
static int show(const struct year *year, const char *title, uint64_t refusal, uint64_t meant)
{
    printf("%s\n", title);
    refused("the change", refusal, 0);
    return print_posts(year->posts, year->count) || refusal != meant;
}

/* Two part-time posts, a whole-time post for a while, and changes that are refused. */
static int bank_staff(void)
{
    static const struct post lower = {1200, 2250, 1000000, 0};
    static const struct post higher = {1200, 2250, 1200000, 0};
    static const struct post whole_time = {2250, 2250, 2000000, 0};
    static const struct post second_whole_time = {2250, 2250, 1, 0};
    static const struct post past_its_week = {2251, 2250, 1, 0};
    struct year year = {{0}, 0};
    int failed = 0;

    printf("Bank staff\n");
    failed |= show(&year, "joins: 20 hours of 37.5 at 10,000 pounds", join(&year, lower), CANYONSIEVE_ACCEPTED);
    failed |= show(&year, "joins: 20 hours of 37.5 at 12,000 pounds", join(&year, higher), CANYONSIEVE_ACCEPTED);
    failed |= show(&year, "leaves: position 3 of two posts", leave(&year, 3), CANYONSIEVE_POSITION);
    failed |= show(&year, "leaves: position 0, where the first is 1", leave(&year, 0), CANYONSIEVE_POSITION);
    failed |= show(&year, "leaves: position 1; the other moves up", leave(&year, 1), CANYONSIEVE_ACCEPTED);
    failed |= show(&year, "joins: whole-time, 37.5 hours at 20,000 pounds", join(&year, whole_time),
                   CANYONSIEVE_ACCEPTED);
    failed |= show(&year, "joins: whole-time too", join(&year, second_whole_time), CANYONSIEVE_SECOND_WHOLE_TIME);
    failed |= show(&year, "leaves: position 2, the whole-time post", leave(&year, 2), CANYONSIEVE_ACCEPTED);
    failed |= show(&year, "joins: a minute more than its whole-time week", join(&year, past_its_week),
                   CANYONSIEVE_POST);
    failed |= show(&year, "joins: 20 hours of 37.5 at 10,000 pounds, last now", join(&year, lower),
                   CANYONSIEVE_ACCEPTED);
    failed |= show(&year, "leaves: position 1", leave(&year, 1), CANYONSIEVE_ACCEPTED);
    failed |= show(&year, "leaves: position 1, the only post", leave(&year, 1), CANYONSIEVE_ACCEPTED);
    failed |= show(&year, "leaves: position 1 of no posts", leave(&year, 1), CANYONSIEVE_POSITION);
    return failed;
}

/* Each newcomer has 10 hours and the highest rate so far: it counts in full with the two before it, and of the third
 * before it 7.5 hours count. */
static int seventeen_posts(void)
{
    struct year year = {{0}, 0};
    struct post newcomer = {600, 2250, 0, 0};
    char title[64];
    int failed = 0;

    printf("17 posts\n");
    for (uint32_t n = 1; n <= CANYONSIEVE_MAX_POSTS; n++) {
        newcomer.pay = n * 100000;
        snprintf(title, sizeof title, "joins: 10 hours of 37.5 at %" PRIu32 ",000 pounds", n);
        failed |= show(&year, title, join(&year, newcomer), CANYONSIEVE_ACCEPTED);
    }
    newcomer.pay = 1700000;
    failed |= show(&year, "joins: a 17th, at 17,000 pounds", join(&year, newcomer), CANYONSIEVE_POST);
    failed |= show(&year, "leaves: position 17 of 16 posts", leave(&year, 17), CANYONSIEVE_POSITION);
    failed |= show(&year, "leaves: position 14; the two after it move up", leave(&year, 14), CANYONSIEVE_ACCEPTED);
    failed |= show(&year, "joins: the one at 17,000 pounds, now that there is room", join(&year, newcomer),
                   CANYONSIEVE_ACCEPTED);
    return failed;
}

/* Two posts with the rate of 1,000 pence a minute. Of equal rates the earlier in the list goes first, also after moving
 * up; where a post has a supplement, that order tells in the pay too. */
static int equal_rates(void)
{
    static const struct post low_rate = {300, 2250, 200000, 0};
    static const struct post shorter_week = {1200, 2250, 1080000, 225000};
    static const struct post longer_week = {1500, 2400, 1200000, 480000};
    struct year year = {{0}, 0};
    int failed = 0;

    printf("Equal rates\n");
    failed |= show(&year, "joins: 5 hours of 37.5 at 2,000 pounds", join(&year, low_rate), CANYONSIEVE_ACCEPTED);
    failed |= show(&year, "joins: 20 hours of 37.5 at 10,800 pounds with a supplement of 2,250 pounds",
                   join(&year, shorter_week), CANYONSIEVE_ACCEPTED);
    failed |= show(&year, "joins: 25 hours of 40 at 12,000 pounds with 4,800 pounds, the same rate",
                   join(&year, longer_week), CANYONSIEVE_ACCEPTED);
    failed |= show(&year, "leaves: position 1; both of the same rate move up", leave(&year, 1), CANYONSIEVE_ACCEPTED);
    failed |= show(&year, "leaves: position 18446744073709551615", leave(&year, UINT64_MAX), CANYONSIEVE_POSITION);
    failed |= show(&year, "leaves: position 1, the 20 hours", leave(&year, 1), CANYONSIEVE_ACCEPTED);
    failed |= show(&year, "joins: the 20 hours again, behind the 25 of the same rate", join(&year, shorter_week),
                   CANYONSIEVE_ACCEPTED);
    return failed;
}

int main(void)
{
    int failed = 0;

    failed |= bank_staff();
    failed |= seventeen_posts();
    failed |= equal_rates();
    return failed;
}
