/* The sets, as bytes. But for the random ones they are legal and pass. */
#include "bench.h"

/* Divisors of 720,720, the least common multiple of the first three. */
static const uint32_t thousand[] = {1001, 990, 1040, 1008, 936, 1092, 910, 924, 1144, 880, 1155, 858, 1170, 840, 1232, 819};

/* Divisors of 735,134,400, the least common multiple of the first three. */
static const uint32_t million[] = {1021020, 982800, 1108800, 1029600, 960960,  1081080, 942480,  1113840,
                                   900900,  1178100, 928200, 1060800, 1009800, 1047200, 972400, 1093950};

#define DIFFERENT 16

/* Park and Miller's generator. */
static uint32_t draw(uint32_t *seed)
{
    *seed = (uint32_t)((uint64_t)*seed * 48271 % 2147483647);
    return *seed >> 3;
}

static void add_number(struct bytes *set, uint32_t x)
{
    for (int shift = 0; shift < 32; shift += 8)
        set->bytes[set->length++] = (uint8_t)(x >> shift);
}

static void add_once(struct bytes *set, uint32_t offset, uint32_t deadline, uint32_t cost)
{
    set->bytes[set->length++] = 2;
    add_number(set, offset);
    add_number(set, deadline);
    add_number(set, cost);
}

static void add_every(struct bytes *set, uint32_t period, uint32_t offset, uint32_t deadline, uint32_t cost)
{
    set->bytes[set->length++] = 1;
    add_number(set, period);
    add_number(set, offset);
    add_number(set, deadline);
    add_number(set, cost);
}

/* One of n elements that share a load of three quarters; its deadline is an eighth of the period around the period. */
static void add_share(struct bytes *set, uint32_t period, uint32_t n, uint32_t *seed)
{
    uint32_t offset = draw(seed) % period;
    uint32_t deadline = period - period / 8 + draw(seed) % (period / 4);
    add_every(set, period, offset, deadline, period * 3 / (n * 4));
}

static void add_shares(struct bytes *set, const uint32_t *periods, uint32_t shares, uint32_t n, uint32_t *seed)
{
    for (uint32_t i = 0; i < shares; i++)
        add_share(set, periods[i % DIFFERENT], n, seed);
}

/* H = 49,008,960 by the last period, 64 times 17. */
void thousand_set(struct bytes *set, uint32_t elements)
{
    uint32_t seed = 20041201;
    add_shares(set, thousand, elements - 1, elements, &seed);
    add_share(set, 1088, elements, &seed);
}

void million_set(struct bytes *set, uint32_t elements)
{
    uint32_t seed = 20041201;
    add_shares(set, million, elements, elements, &seed);
}

/* 64 elements, the same but for the last period, by which H grows. */
void growing_set(struct bytes *set, uint32_t last_period)
{
    uint32_t seed = 20041201;
    add_shares(set, thousand, 63, 64, &seed);
    add_share(set, last_period, 64, &seed);
}

/* Periods 2, 4, 8 and so on, whose dates are all different and leave few lengths out; H = n (n - 1) for n = 2^bits. */
void longest_set(struct bytes *set, uint32_t bits)
{
    uint32_t n = 1u << bits;
    for (uint32_t p = 2; p <= n / 4; p *= 2)
        add_every(set, p, p / 2, p, 1);
    add_every(set, n, n / 4, n, 1);
    add_every(set, n, n / 2, n, 1);
    add_every(set, n - 1, 0, n - 1, 1);
    add_once(set, MOST_VALUE, MOST_VALUE, 1);
}

/* A period of 1, and an event that makes the bound as long as can be. */
void tick_set(struct bytes *set, uint32_t period)
{
    add_every(set, period, 0, period + 1, 1);
    add_once(set, MOST_VALUE, MOST_VALUE, 1);
}

static void add_random(struct bytes *set, uint32_t n, uint32_t *seed)
{
    static const uint32_t periods[] = {6, 8, 10, 12, 20, 24, 30, 40};
    uint32_t period = periods[draw(seed) % 8];
    uint32_t offset = draw(seed) % 30;
    uint32_t deadline = 1 + draw(seed) % 20;
    uint32_t cost = 1 + draw(seed) % (period / n + 1);
    if (draw(seed) % 4 == 0)
        add_once(set, offset, deadline, cost);
    else
        add_every(set, period, offset, deadline, cost);
}

/* Two periods that bring H above its limit, and an element behind them. */
static void add_long(struct bytes *set, uint32_t *seed)
{
    add_every(set, 65537, 0, 9, 1);
    add_every(set, 65539, 0, 9, 1);
    add_random(set, 8, seed);
}

/* Up to eight elements; of six inputs one is cut, one has a byte changed, and one has too long an H. */
void random_input(struct bytes *set, uint32_t seed)
{
    uint32_t n = draw(&seed) % 9;
    for (uint32_t i = 0; i < n; i++)
        add_random(set, n, &seed);
    uint32_t damage = draw(&seed) % 6;
    if (damage == 0)
        set->length = draw(&seed) % (set->length + 1);
    if (damage == 1 && n > 0)
        set->bytes[draw(&seed) % set->length] = (uint8_t)(draw(&seed) % 4);
    if (damage == 2)
        add_long(set, &seed);
}
