/* A fuzzer's harness over the calls. The bytes are a text, a list of posts, and numbers; what is lent ends at, or
 * begins behind, a page that cannot be touched. What the contracts say of every input is looked at after each call. */
#include <canyonsieve.h>

#include <stdlib.h>
#include <string.h>
#include <sys/mman.h>
#include <unistd.h>

/* MOST_UP: a case has no more amounts to round than this. */
enum { ROOM = 65536, PLACES = 20, MOST_UP = 161 };

/* In pence: no year comes to more than 16 posts of the highest pay and supplement, and no pension of the 2015 Scheme to
 * more than 50 such years with the highest revaluation. */
#define MOST_PAY UINT64_C(32000000000)
#define MOST_PENSION UINT64_C(26961298242272)

/* Room between two pages that cannot be touched. */
static uint8_t *guarded(void)
{
    size_t page = (size_t)sysconf(_SC_PAGESIZE);
    uint8_t *start = mmap(NULL, ROOM + 2 * page, PROT_NONE, MAP_PRIVATE | MAP_ANONYMOUS, -1, 0);
    if (start == MAP_FAILED || mprotect(start + page, ROOM, PROT_READ | PROT_WRITE) != 0)
        abort();
    return start + page;
}

static void claim(int holds)
{
    if (!holds)
        abort();
}

static void figure(struct canyonsieve_figure f)
{
    claim(f.refusal == 0 || f.number == 0);
}

static void text(const uint8_t *bytes, size_t length)
{
    struct canyonsieve_outcome o = canyonsieve_case(bytes, length);
    struct canyonsieve_outcome again = canyonsieve_case(bytes, length);
    claim(memcmp(&o, &again, sizeof o) == 0);
    claim(o.refusal <= 14 || o.refusal == 27 || o.refusal == 28);
    if (o.refusal == 0)
        claim(o.line == 0 && o.rounded_up <= MOST_UP && o.net_2015 <= MOST_PENSION);
    else
        claim(o.net_2015 == 0 && o.net_1995 == 0 && o.net_lump_sum == 0 && o.charge == 0 && o.rounded_up == 0);
    if (o.refusal == 1 || (o.refusal >= 12 && o.refusal <= 14))
        claim(o.line == 0);
    else if (o.refusal != 0 && o.refusal != 4)
        claim(o.line != 0);
}

static void posts(const uint8_t *bytes, size_t length, uint64_t *places, size_t many)
{
    for (size_t i = 0; i < many; i++)
        places[i] = 7 * i + 1;
    struct canyonsieve_figure f = canyonsieve_posts(bytes, length, places, many);
    figure(f);
    claim(f.number <= MOST_PAY);
    claim(f.refusal == 0 || f.refusal == 7 || f.refusal == 8 || (f.refusal >= 21 && f.refusal <= 23));
    claim(length % CANYONSIEVE_BYTES_OF_POST == 0 || f.refusal == CANYONSIEVE_POSTS_LENGTH);
    for (size_t i = f.refusal == 0 ? length / CANYONSIEVE_BYTES_OF_POST : 0; i < many; i++)
        claim(places[i] == 7 * i + 1);
}

/* The number at a place, of 8 bytes as they come; nought behind the last byte. */
static uint64_t number(const uint8_t *data, size_t size, size_t at)
{
    uint64_t n = 0;
    if (8 * at + 8 <= size)
        memcpy(&n, data + 8 * at, 8);
    return n;
}

/* A change of employer. Neither charge is larger than the largest there is. */
static void change(const uint64_t n[15])
{
    struct canyonsieve_charges c =
        canyonsieve_change_of_employer(n[0], n[1], n[2], n[3], n[4], n[5], n[6], n[7], n[8], n[9], n[10], n[11], n[12],
                                       n[13], n[14]);
    claim(c.refusal == 0 || (c.old_charge == 0 && c.new_charge == 0));
    claim(c.refusal == 0 || c.refusal == 9 || c.refusal == 26);
    claim(c.old_charge <= UINT64_C(42294375000000) && c.new_charge <= UINT64_C(57937500000));
}

static void numbers(const uint8_t *data, size_t size)
{
    uint64_t n[15];
    for (size_t i = 0; i < 15; i++)
        n[i] = number(data, size, i);
    change(n);
    figure(canyonsieve_charge(n[0], n[1], n[2], n[3], n[4], n[5], n[6], n[7], n[8], n[9]));
    figure(canyonsieve_abatement(n[0], n[1], n[2], n[3]));
    struct canyonsieve_months m = canyonsieve_months_early(n[0], n[1], n[2], n[3], n[4], n[5], n[6]);
    claim(m.refusal == 0 || m.months == 0);
}

int LLVMFuzzerTestOneInput(const uint8_t *data, size_t size)
{
    static uint8_t *bytes;
    static uint8_t *lent;
    if (bytes == NULL) {
        bytes = guarded();
        lent = guarded();
    }
    if (size == 0 || size > ROOM)
        return 0;
    size_t many = data[0] % (PLACES + 1);
    data++;
    size--;
    for (int end = 0; end < 2; end++) {
        uint8_t *at = end ? bytes + ROOM - size : bytes;
        uint64_t *places = (uint64_t *)(end ? lent + ROOM - 8 * many : lent);
        memcpy(at, data, size);
        text(at, size);
        posts(at, size, places, many);
    }
    numbers(data, size);
    return 0;
}
