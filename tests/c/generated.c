#include "groups.h"
#include "inputs.h"

#define PRIME 2147483647u
#define FIRST_SEED 20041201u

enum { GENERATED_INPUTS = 24000, MANY_EVERY = 2000 };

struct element {
    int kind;
    uint32_t period, offset, deadline, cost;
};

/* ---- The generator of Park and Miller. The seeds of inputs, of elements and of numbers each have a multiplier of their
   own. */

static uint64_t next_input(uint64_t x)
{
    return x * 16807 % PRIME;
}

static uint64_t next_element(uint64_t x)
{
    return x * 69621 % PRIME;
}

static uint64_t next_number(uint64_t x)
{
    return x * 48271 % PRIME;
}

/* A number below this one, and 0 below 0. */
static uint32_t below(uint64_t x, uint32_t end)
{
    return end == 0 ? 0 : (uint32_t)(x % end);
}

/* A number from 1 to this one, and 1 up to 0. */
static uint32_t up_to(uint64_t x, uint32_t most)
{
    return below(x, most) + 1;
}

/* Mostly in range, and in one of eight any up to 299. */
static uint32_t some_k(uint64_t x)
{
    uint64_t k = next_number(next_number(x));
    return k % 8 == 0 ? below(k / 8, 300) : up_to(k, 20);
}

/* ---- Elements */

static void put_element(struct element e)
{
    if (e.kind == PERIODIC)
        every(e.period, e.offset, e.deadline, e.cost);
    else
        once(e.offset, e.deadline, e.cost);
}

/* A legal element, a single event in one of four. Its period is one of 16 times scale, and they have 360 times scale as
   their least common multiple; its cost is at most so many parts of that period, and at least 1. */
static struct element element(uint64_t x, uint32_t scale, uint32_t parts)
{
    static const uint32_t periods[16] = {2, 3, 4, 5, 6, 8, 9, 10, 12, 15, 18, 20, 24, 30, 36, 40};
    uint64_t kind = next_number(x), a = next_number(kind), d = next_number(a), c = next_number(d);
    uint32_t p = periods[below(kind / 4, 16)] * scale;
    return (struct element){
        .kind = kind % 4 == 0 ? SINGLE : PERIODIC,
        .period = p,
        .offset = a % 2 == 0 ? 0 : below(a / 2, 2 * p),
        .deadline = up_to(d, 2 * p),
        .cost = up_to(c, parts == 0 ? p : p / parts),
    };
}

static void put_elements(uint64_t x, uint32_t count, uint32_t scale)
{
    uint32_t parts = below(next_number(x), count);
    uint64_t seed = x;
    for (uint32_t i = 0; i < count; i++) {
        seed = next_element(seed);
        put_element(element(seed, scale, parts));
    }
}

/* ---- Kinds of input. Each returns its k. */

/* Fewer than so many elements. */
static uint32_t put_few(uint64_t x, uint32_t end, uint32_t scale)
{
    uint64_t n = next_number(x);
    put_elements(n, below(n, end), scale);
    return some_k(n);
}

/* From 101 to 128 elements. */
static uint32_t put_many(uint64_t x)
{
    uint64_t n = next_number(x);
    put_elements(n, 101 + below(n, 28), 100);
    return up_to(n, 5);
}

/* A set that is cut anywhere. */
static uint32_t put_cut(uint64_t x)
{
    size_t at = below(next_number(x), 103);
    put_elements(x, 6, 1);
    if (at < current()->size)
        cut_to(at);
    return some_k(x);
}

/* The place of a byte in a record: its kind, or the first, second or last byte of one of its first three numbers. */
static size_t byte_of_record(uint64_t x)
{
    static const size_t byte[8] = {0, 1, 1, 1, 2, 2, 4, 4};
    return x % 8 == 0 ? 0 : byte[x % 8] + 4 * (x / 8 % 3);
}

/* A set of which a record has one byte changed, to any from 2 on. */
static uint32_t put_changed(uint64_t x)
{
    uint64_t a = next_number(x), b = next_number(a);
    put_elements(x, below(a, 5), 1);
    size_t record = current()->size;
    put_element(element(next_element(a), 1, 3));
    put_element(element(next_element(b), 1, 3));
    current_bytes()[record + byte_of_record(b)] = (uint8_t)(2 + below(next_number(b), 254));
    return some_k(b);
}

/* One of its values at the low edge of its range, or out of it. */
static struct element with_edge_value(struct element e, uint64_t x)
{
    static const uint32_t values[4] = {0, 1, 16777217, UINT32_MAX};
    uint32_t value = values[x / 4 % 4];
    switch (x % 4) {
    case 0:
        e.kind = PERIODIC;
        e.period = value;
        break;
    case 1:
        e.offset = value;
        break;
    case 2:
        e.deadline = value;
        break;
    default:
        e.cost = value;
    }
    return e;
}

/* A set with such an element ahead of its last. */
static uint32_t put_edge_value(uint64_t x)
{
    uint64_t n = next_number(x), m = next_number(n);
    put_elements(n, below(n, 5), 1);
    put_element(with_edge_value(element(next_element(m), 1, 4), m));
    put_element(element(next_element(n), 1, 4));
    return some_k(m);
}

/* 130 records. */
static uint32_t put_too_many(uint64_t x)
{
    struct element e = element(next_number(x), 1, 4);
    put_elements(x, 128, 1);
    put_element(e);
    put_element(e);
    return some_k(x);
}

/* Two long periods after others; H is mostly above its limit. */
static uint32_t put_long(uint64_t x)
{
    uint64_t a = next_number(x), b = next_number(a);
    put_elements(x, 2, 100);
    every(1000 + below(a, 16000000), 0, 1000, 1);
    every(1000 + below(b, 16000000), 0, 1000, 1);
    return some_k(b);
}

static uint32_t put_generated(uint64_t x)
{
    uint64_t kind = x / 8 % 32;
    if (kind < 16)
        return put_few(x, 8, 1);
    if (kind < 20)
        return put_few(x, 10, 10);
    if (kind < 21)
        return put_few(x, 6, 100);
    if (kind < 24)
        return put_cut(x);
    if (kind < 27)
        return put_changed(x);
    if (kind < 30)
        return put_edge_value(x);
    return kind == 30 ? put_too_many(x) : put_long(x);
}

void make_generated(void)
{
    uint64_t seed = FIRST_SEED;
    for (int i = 0; i < GENERATED_INPUTS; i++) {
        uint32_t k;
        seed = next_input(seed);
        begin(GENERATED);
        k = i % MANY_EVERY == 0 ? put_many(seed) : put_generated(seed);
        current()->k = k;
    }
}
