/* What the payroll programs share: a post and its bytes, and the printing of pounds, refusals, hours and pensionable
 * pay. */
#ifndef POSTS_H
#define POSTS_H

#include <canyonsieve.h>

#include <inttypes.h>
#include <stdio.h>

/* Contracted and whole-time minutes of a week, yearly pay and yearly supplement in pence. A supplement is an allowance
 * paid for hours worked, such as unsocial hours; it is not in the pay. */
struct post {
    uint16_t contracted;
    uint16_t whole_time;
    uint32_t pay;
    uint32_t supplement;
};

static inline void pounds(const char *what, uint64_t pence, const char *how_often)
{
    printf("%s: %" PRIu64 ".%02" PRIu64 " pounds, %s\n", what, pence / 100, pence % 100, how_often);
}

/* Says why a call was refused, with the line of the text where it has one, and whether it was. */
static inline int refused(const char *what, uint64_t refusal, uint64_t line)
{
    if (refusal == CANYONSIEVE_ACCEPTED)
        return 0;
    printf("%s: refusal %" PRIu64, what, refusal);
    if (line != 0)
        printf(" at line %" PRIu64, line);
    printf(": %s\n", canyonsieve_refusal_words(refusal));
    return 1;
}

/* Puts a number at the start of bytes, the highest byte first. */
static inline uint8_t *put(uint8_t *bytes, uint32_t number, int width)
{
    for (int i = width - 1; i >= 0; i--)
        *bytes++ = (uint8_t)(number >> (8 * i));
    return bytes;
}

/* The bytes of a post, put at their start; gives their end. */
static inline uint8_t *put_post(uint8_t *bytes, struct post post)
{
    bytes = put(bytes, post.contracted, 2);
    bytes = put(bytes, post.whole_time, 2);
    bytes = put(bytes, post.pay, 4);
    return put(bytes, post.supplement, 4);
}

/* The contracted minutes of the post at a place of a list, the first being 0. */
static inline uint64_t contracted_minutes(const uint8_t *posts, size_t place)
{
    const uint8_t *post = posts + place * CANYONSIEVE_BYTES_OF_POST;

    return post[0] * UINT64_C(256) + post[1];
}

static inline uint64_t common_divisor(uint64_t a, uint64_t b)
{
    while (b != 0) {
        uint64_t rest = a % b;
        a = b;
        b = rest;
    }
    return a;
}

/* Parts as hours, minutes and the exact fraction of a minute. A minute has as many parts as all posts of the year have
 * contracted minutes together, so the divisor differs from year to year, and with each post that joins or leaves. */
static inline void print_time(const char *what, uint64_t parts, uint64_t parts_of_minute)
{
    uint64_t minutes = parts / parts_of_minute;
    uint64_t rest = parts % parts_of_minute;
    uint64_t divisor = common_divisor(rest, parts_of_minute);

    printf("  %s %2" PRIu64 " h %2" PRIu64, what, minutes / 60, minutes % 60);
    if (rest != 0)
        printf(" %" PRIu64 "/%" PRIu64, rest / divisor, parts_of_minute / divisor);
    printf(" min");
}

/* For each post the hours that count and those left out. */
static inline void print_hours(const uint8_t *posts, size_t count, const uint64_t *parts)
{
    uint64_t together = 0;

    for (size_t i = 0; i < count; i++)
        together += contracted_minutes(posts, i);
    for (size_t i = 0; i < count; i++) {
        printf("post %zu:", i + 1);
        print_time("counted", parts[i], together);
        print_time("left out", contracted_minutes(posts, i) * together - parts[i], together);
        printf("\n");
    }
}

/* The posts of a year, given in bytes: each with its hours that count and those left out, then the pensionable pay.
 * Gives whether they were refused. */
static inline int print_posts(const uint8_t *posts, size_t count)
{
    uint64_t parts[CANYONSIEVE_MAX_POSTS];
    struct canyonsieve_figure pay =
        canyonsieve_posts(posts, count * CANYONSIEVE_BYTES_OF_POST, parts, CANYONSIEVE_MAX_POSTS);

    if (refused("pensionable pay", pay.refusal, 0))
        return 1;
    print_hours(posts, count, parts);
    pounds("pensionable pay", pay.number, "that year");
    return 0;
}

#endif
