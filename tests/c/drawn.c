#include "groups.h"
#include "inputs.h"
#include "oracle.h"
#include "sys.h"

enum { LEGAL_INPUTS = 4000, DAMAGED_INPUTS = 6000, FULL_EVERY = 100 };

/* A number below the one given (xorshift with a fixed seed). */
static uint64_t draw(uint64_t below)
{
    static uint64_t state = 20261115;
    state ^= state << 13;
    state ^= state >> 7;
    state ^= state << 17;
    return (state >> 11) % below;
}

static uint32_t draw_from(uint64_t least, uint64_t most)
{
    return (uint32_t)(least + draw(most - least + 1));
}

/* All divide 360. */
static const uint32_t periods[] = {2, 3, 4, 5, 6, 8, 9, 10, 12, 15, 18, 20, 24, 30, 36, 40, 45, 60, 72, 90};
enum { PERIODS = sizeof periods / sizeof periods[0], COMMON_MULTIPLE = 360, MOST_SCALE = 16777216 / COMMON_MULTIPLE };

/* An element among so many, its period one of these times scale; full says how large its cost can be. Returns its part
   of Q where H is 360 scale. */
static uint64_t put_drawn(uint64_t count, uint64_t full, uint32_t scale)
{
    uint32_t period = periods[draw(PERIODS)] * scale;
    uint32_t offset = draw(2) == 0 ? 0 : draw_from(0, 2 * period);
    uint32_t deadline = draw(3) == 0 ? period : draw_from(1, 2 * period);
    uint32_t cost = draw_from(1, 1 + full * period / (2 * count));
    if (draw(4) == 0) {
        once(offset, deadline, cost);
        return 0;
    }
    every(period, offset, deadline, cost);
    return (uint64_t)cost * (COMMON_MULTIPLE * scale / period);
}

static void put_set(uint64_t count, uint32_t scale)
{
    uint64_t full = 1 + draw(4);
    for (uint64_t i = 0; i < count; i++)
        put_drawn(count, full, scale);
}

/* Load one, or just below or above: the last element's period is H, and its cost what Q leaves, or one less or more. */
static void put_set_near_load_one(uint64_t count, uint32_t scale)
{
    uint32_t H = COMMON_MULTIPLE * scale;
    uint64_t Q = 0;
    for (uint64_t i = 0; i < count; i++)
        Q += put_drawn(count, 1, scale);
    if (Q + 1 < H) {
        uint32_t offset = draw_from(0, 9);
        uint32_t deadline = draw(2) == 0 ? H : draw_from(1, H);
        uint32_t cost = draw_from(H - Q - 1, H - Q + 1);
        every(H, offset, deadline, cost);
    }
}

static void put_legal(size_t number)
{
    static const uint32_t scales[] = {1, 1, 1, 10, 1000, MOST_SCALE};
    uint32_t scale = scales[draw(6)];
    if (number % FULL_EVERY == 0)
        put_set(100 + draw(29), 1000);
    else if (number % 4 == 0)
        put_set_near_load_one(1 + draw(6), scale);
    else
        put_set(1 + draw(8), scale);
}

/* ---- Damage to the current input */

/* Where one of the first records begins. */
static size_t drawn_record(void)
{
    size_t at = 0, next = 0;
    for (uint64_t records = 1 + draw(8); records > 0 && next < current()->size; records--) {
        at = next;
        next += current_bytes()[at] == PERIODIC ? 17 : 13;
    }
    return at;
}

static void flip_bits(void)
{
    for (uint64_t i = 1 + draw(3); i > 0; i--) {
        size_t at = draw(current()->size);
        current_bytes()[at] ^= (uint8_t)(1u << draw(8));
    }
}

static void change_kind(void)
{
    static const uint8_t kinds[] = {0, 1, 2, 3, 14, 255};
    size_t at = drawn_record();
    current_bytes()[at] = kinds[draw(sizeof kinds)];
}

static void change_value(void)
{
    size_t record = drawn_record();
    size_t at = record + 1 + 4 * draw(current_bytes()[record] == PERIODIC ? 4 : 3);
    uint32_t edge = edges[draw(EDGES)];
    for (int i = 0; i < 4; i++, edge /= 256)
        current_bytes()[at + i] = (uint8_t)(edge % 256);
}

static void append_bytes(void)
{
    if (draw(2) == 0)
        put_byte((uint8_t)draw_from(PERIODIC, SINGLE));
    for (uint64_t i = 1 + draw(20); i > 0; i--)
        put_byte((uint8_t)(draw(2) == 0 ? 0 : draw(256)));
}

static void take_a_byte_out(void)
{
    size_t at = draw(current()->size), last = current()->size - 1;
    memmove(current_bytes() + at, current_bytes() + at + 1, last - at);
    cut_to(last);
}

static void damage(void)
{
    switch (draw(6)) {
    case 0:
        cut_to(draw(current()->size));
        break;
    case 1:
        flip_bits();
        break;
    case 2:
        change_kind();
        break;
    case 3:
        change_value();
        break;
    case 4:
        append_bytes();
        break;
    default:
        take_a_byte_out();
    }
}

/* Drawn again where the oracle would take long. */
static void make_drawn(enum group group, size_t number)
{
    begin(group);
    do {
        cut_to(0);
        put_legal(number);
        if (group == DAMAGED)
            damage();
    } while (oracle_is_slow(current()->bytes, current()->size));
}

void make_legal(void)
{
    for (size_t i = 0; i < LEGAL_INPUTS; i++)
        make_drawn(LEGAL, i);
}

void make_damaged(void)
{
    for (size_t i = 0; i < DAMAGED_INPUTS; i++)
        make_drawn(DAMAGED, i);
}
