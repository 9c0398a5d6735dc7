/* A set read from bytes and written to them. */
#include "bench.h"

static uint32_t number_at(const uint8_t *at)
{
    return at[0] | (uint32_t)at[1] << 8 | (uint32_t)at[2] << 16 | (uint32_t)at[3] << 24;
}

static uint8_t *put_number(uint8_t *at, uint32_t x)
{
    at[0] = (uint8_t)x;
    at[1] = (uint8_t)(x >> 8);
    at[2] = (uint8_t)(x >> 16);
    at[3] = (uint8_t)(x >> 24);
    return at + 4;
}

static int is_value(uint32_t x)
{
    return 1 <= x && x <= MOST_VALUE;
}

static uint32_t check_values(const struct element *e)
{
    if (e->offset > MOST_VALUE)
        return 5;
    if (!is_value(e->deadline))
        return 6;
    return is_value(e->cost) ? 0 : 7;
}

/* The record of this kind, which is there whole. */
static uint32_t read_element(uint8_t kind, const uint8_t *body, struct element *e)
{
    e->period = ONCE;
    if (kind == 1) {
        e->period = number_at(body);
        if (!is_value(e->period))
            return 4;
        body += 4;
    }
    e->offset = number_at(body);
    e->deadline = number_at(body + 4);
    e->cost = number_at(body + 8);
    return check_values(e);
}

uint32_t read_set(const uint8_t *bytes, size_t length, struct task_set *set, size_t *place)
{
    size_t count = 0;
    size_t at = 0;
    while (at < length) {
        uint8_t kind = bytes[at];
        size_t size = kind == 1 ? 17 : 13;
        *place = at;
        if (kind != 1 && kind != 2)
            return 1;
        if (length - at < size)
            return 2;
        if (count == PLACES)
            return 3;
        uint32_t refusal = read_element(kind, bytes + at + 1, &set->table[count]);
        if (refusal)
            return refusal;
        count++;
        at += size;
    }
    memset(set->table + count, 0, (PLACES - count) * sizeof(struct element));
    set->count = count;
    return 0;
}

static uint32_t check_set(const struct task_set *set, size_t *place)
{
    if (set->count > PLACES) {
        *place = PLACES;
        return 3;
    }
    for (size_t i = 0; i < set->count; i++) {
        const struct element *e = &set->table[i];
        uint32_t refusal = e->period == ONCE || is_value(e->period) ? check_values(e) : 4;
        if (refusal) {
            *place = i;
            return refusal;
        }
    }
    return 0;
}

static uint8_t *put_record(uint8_t *at, const struct element *e)
{
    if (e->period == ONCE) {
        *at++ = 2;
    } else {
        *at++ = 1;
        at = put_number(at, e->period);
    }
    at = put_number(at, e->offset);
    at = put_number(at, e->deadline);
    return put_number(at, e->cost);
}

uint32_t write_set(const struct task_set *set, uint8_t *out, size_t room, size_t *written)
{
    uint32_t refusal = check_set(set, written);
    if (refusal)
        return refusal;
    size_t needed = 0;
    for (size_t i = 0; i < set->count; i++)
        needed += set->table[i].period == ONCE ? 13 : 17;
    *written = needed;
    if (room < needed)
        return 10;
    for (size_t i = 0; i < set->count; i++)
        out = put_record(out, &set->table[i]);
    return 0;
}

uint32_t c_rewrite(const uint8_t *bytes, size_t length, uint8_t *out, size_t room, uint64_t *answer, size_t places)
{
    struct task_set set;
    size_t place;
    if (places < SIMAURKOI_PLACES)
        return 10;
    uint32_t refusal = read_set(bytes, length, &set, &place);
    if (!refusal)
        refusal = write_set(&set, out, room, &place);
    if (refusal)
        return put_refusal(answer, refusal, place);
    return put_verdict(answer, place, 0, 0, 0);
}
