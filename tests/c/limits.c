#include "groups.h"
#include "inputs.h"

#define MOST 16777216u

const uint32_t edges[EDGES] = {0, 1, 2, MOST - 1, MOST, MOST + 1, 2147483648u, UINT32_MAX};

/* ---- Values */

enum { ALONE, BETWEEN, LAST, STANDS };

/* An element of these values: alone, between two others, or after them. */
static void make_element(int kind, const uint32_t *v, int stands)
{
    begin(LIMITS);
    if (stands != ALONE)
        every(65536, 5, 2048, 7);
    if (stands == LAST)
        once(5, 9, 2);
    if (kind == PERIODIC)
        every(v[0], v[1], v[2], v[3]);
    else
        once(v[1], v[2], v[3]);
    if (stands == BETWEEN)
        once(5, 9, 2);
}

/* One value at an edge, the others small or at their most. Left out is a period just below its most beside a cost at its
   most: the load is so little above one that the oracle would need 2^24 steps to show it. */
static void make_value_limits(int kind, int value, uint32_t edge)
{
    for (int stands = ALONE; stands < STANDS; stands++) {
        uint32_t with_small[4] = {65536, 3, 4096, 1}, with_most[4] = {MOST, MOST, MOST, MOST};
        with_small[value] = edge;
        with_most[value] = edge;
        make_element(kind, with_small, stands);
        if (edge != MOST && (value > 0 || edge != MOST - 1))
            make_element(kind, with_most, stands);
    }
}

static void make_all_at_their_most(void)
{
    static const uint32_t most[4] = {MOST, MOST, MOST, MOST};
    for (int stands = ALONE; stands < STANDS; stands++) {
        make_element(PERIODIC, most, stands);
        make_element(SINGLE, most, stands);
    }
}

/* ---- Counts */

enum last { LAST_IS_LEGAL, LAST_HAS_NO_KIND, LAST_IS_CUT, LAST_HAS_NO_COST, LASTS };

/* So many elements: all periodic, all single events, or in turn; the last one legal or not. */
static void make_count_limit(uint32_t count, int mix, enum last last)
{
    begin(LIMITS);
    for (uint32_t i = 0; i < count; i++) {
        uint32_t cost = last == LAST_HAS_NO_COST && i + 1 == count ? 0 : 1;
        if (last == LAST_HAS_NO_KIND && i + 1 == count)
            put_byte(0);
        else if (mix == 0 || (mix == 2 && i % 2 == 0))
            every(1000, i, 500 + i, cost);
        else
            once(i, 2000 - i, cost);
    }
    if (last == LAST_IS_CUT)
        cut_to(current()->size - 1);
}

/* So many equal elements of each of three; of the last 128 fill their length. */
static void make_copies(int count)
{
    begin(LIMITS);
    for (int i = 0; i < count; i++)
        every(1000, 0, 1000, 1);
    begin(LIMITS);
    for (int i = 0; i < count; i++)
        every(MOST, MOST, MOST, MOST);
    begin(LIMITS);
    for (int i = 0; i < count; i++)
        once(0, 128, 1);
}

/* ---- The hyperperiod */

/* Periods up to a 0. The first lists are S11's, in either order. */
static const uint32_t periods_near_the_limit[][12] = {
    {32767, 32768},
    {32768, 32767},
    {32768, 32769},
    {32769, 32768},
    {16777216, 63},
    {16777216, 64},
    {16777216, 65},
    {16777213, 64},
    {16777213, 65},
    {16777216, 3, 7, 9, 5},
    {16777213, 16777199, 16777183, 16777153, 16777141},
    {2, 3, 5, 7, 11, 13, 17, 19, 23},
    {2, 3, 5, 7, 11, 13, 17, 19, 23, 29},
};
enum { PERIOD_LISTS = sizeof periods_near_the_limit / sizeof periods_near_the_limit[0], S11_LISTS = 4 };

/* Two events ahead or more overrun at length 1, and the exact test ends there. */
static void make_hyperperiod_limit(const uint32_t *periods, int events_ahead, int bad_end)
{
    begin(LIMITS);
    for (int i = 0; i < events_ahead; i++)
        once(0, 1, 1);
    for (int i = 0; periods[i] != 0; i++)
        every(periods[i], 0, 30000, 1);
    if (bad_end)
        put_byte(3);
}

/* Between other elements, with F + H above the limit of H, and an event that comes once all the same. */
static void make_hyperperiod_between(const uint32_t *periods)
{
    begin(LIMITS);
    every(periods[0], 0, periods[0], 1);
    once(0, 5, 5);
    every(periods[1], 0, 100000, 1);
    every(periods[0], 0, periods[0], 1);
}

/* ---- Sums and lengths */

/* Q and D near their most; Q = 2^48 + 1; Q = H + 1, shown after a million H. */
static void make_large_loads(void)
{
    begin(LIMITS);
    every(32767, MOST, MOST, MOST);
    every(32768, MOST, MOST, MOST);
    for (int i = 2; i < 128; i++)
        every(1, MOST, MOST, MOST);
    begin(LIMITS);
    every(MOST, MOST, MOST, 1);
    every(1, MOST, MOST, MOST);
    begin(LIMITS);
    every(32767, 0, 1048576, 1);
    every(32768, 1048575, 1, 32767);
}

/* H near 2^30 and load one: an overrun near 2^30; none, but not shown with k = 255, near 2^32; a pass with every k. */
static void make_large_lengths(void)
{
    begin(LIMITS);
    every(16777216, 0, 16777216, 8388608);
    every(16515072, 0, 14863565, 8257536);
    begin(LIMITS);
    every(16777216, 0, 16777216, 8388608);
    every(16515072, 0, 16449536, 8257536);
    begin(LIMITS);
    every(16777216, 16777216, 16777216, 8388608);
    every(16515072, 16777216, 16777216, 8257536);
}

static void make_all_values(void)
{
    for (int value = 0; value < 4; value++)
        for (int edge = 0; edge < EDGES; edge++) {
            make_value_limits(PERIODIC, value, edges[edge]);
            if (value > 0)
                make_value_limits(SINGLE, value, edges[edge]);
        }
    make_all_at_their_most();
}

static void make_all_counts(void)
{
    for (uint32_t count = 127; count <= 130; count++)
        for (int mix = 0; mix < 3; mix++)
            for (int last = 0; last < LASTS; last++)
                make_count_limit(count, mix, (enum last)last);
    make_copies(1);
    make_copies(128);
    make_copies(129);
}

static void make_all_hyperperiods(void)
{
    for (int list = 0; list < PERIOD_LISTS; list++)
        for (int events = 2; events < 4; events++)
            for (int bad_end = 0; bad_end < 2; bad_end++)
                make_hyperperiod_limit(periods_near_the_limit[list], events, bad_end);
    for (int list = 0; list < S11_LISTS; list++) {
        make_hyperperiod_limit(periods_near_the_limit[list], 0, 0);
        make_hyperperiod_between(periods_near_the_limit[list]);
    }
}

void make_limits(void)
{
    make_all_values();
    make_all_counts();
    make_all_hyperperiods();
    make_large_loads();
    make_large_lengths();
}
