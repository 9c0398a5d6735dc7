#include "oracle.h"
#include "sys.h"

#define MOST_VALUE 16777216u
#define MOST_H 1073741824u
#define NONE_LEFT UINT64_MAX
#define ALL_DATES UINT64_MAX
#define MANY_LENGTHS 20000u

enum { PERIODIC = 1, SINGLE = 2, PERIODIC_BODY = 16, SINGLE_BODY = 12 };
enum { PLACES = 128, SET_BYTES = PLACES * (1 + PERIODIC_BODY) };

/* Wide enough for every sum, whatever the limits: that 64 bits are enough is not taken over from the crates. */
__extension__ typedef unsigned __int128 wide;

struct element {
    uint8_t kind;
    uint32_t period, offset, deadline, cost;
    size_t kind_byte;
};

struct set {
    size_t count;
    struct element table[PLACES];
    uint64_t F, H;
    wide Q;
};

static struct answer refused(uint64_t number, uint64_t place)
{
    return (struct answer){number, place, 0, 0, 0, 0};
}

static struct answer given(uint64_t verdict, uint64_t interval, uint64_t demand, uint64_t count)
{
    return (struct answer){0, 0, verdict, interval, demand, count};
}

/* ---- The set as bytes */

static uint32_t number_at(const uint8_t *bytes)
{
    return bytes[0] + 256u * bytes[1] + 65536u * bytes[2] + 16777216u * bytes[3];
}

static void put_number_at(uint8_t *bytes, uint32_t number)
{
    for (int i = 0; i < 4; i++, number /= 256)
        bytes[i] = (uint8_t)(number % 256);
}

static size_t body_of(uint8_t kind)
{
    return kind == PERIODIC ? PERIODIC_BODY : SINGLE_BODY;
}

static struct element element_at(const uint8_t *bytes, size_t at)
{
    struct element e = {.kind = bytes[at], .kind_byte = at};
    const uint8_t *body = bytes + at + 1;
    if (e.kind == PERIODIC) {
        e.period = number_at(body);
        body += 4;
    }
    e.offset = number_at(body);
    e.deadline = number_at(body + 4);
    e.cost = number_at(body + 8);
    return e;
}

static int in_range(uint32_t value, uint32_t least)
{
    return value >= least && value <= MOST_VALUE;
}

/* The number of the refusal, 0 for none. */
static uint64_t bad_value(const struct element *e)
{
    if (e->kind == PERIODIC && !in_range(e->period, 1))
        return 4;
    if (!in_range(e->offset, 0))
        return 5;
    if (!in_range(e->deadline, 1))
        return 6;
    if (!in_range(e->cost, 1))
        return 7;
    return 0;
}

static struct answer read_set(const uint8_t *bytes, size_t size, struct set *set)
{
    set->count = 0;
    for (size_t at = 0; at < size; at += 1 + body_of(bytes[at])) {
        if (bytes[at] != PERIODIC && bytes[at] != SINGLE)
            return refused(1, at);
        if (size - at - 1 < body_of(bytes[at]))
            return refused(2, at);
        if (set->count == PLACES)
            return refused(3, at);
        struct element e = element_at(bytes, at);
        if (bad_value(&e) != 0)
            return refused(bad_value(&e), at);
        set->table[set->count++] = e;
    }
    return given(0, 0, 0, 0);
}

static size_t write_element(const struct element *e, uint8_t *out)
{
    uint8_t *body = out + 1;
    out[0] = e->kind;
    if (e->kind == PERIODIC) {
        put_number_at(body, e->period);
        body += 4;
    }
    put_number_at(body, e->offset);
    put_number_at(body + 4, e->deadline);
    put_number_at(body + 8, e->cost);
    return 1 + body_of(e->kind);
}

struct answer oracle_rewrite(const uint8_t *bytes, size_t size, uint8_t *out, size_t room)
{
    struct set set;
    uint8_t written[SET_BYTES];
    size_t needed = 0;
    struct answer check = read_set(bytes, size, &set);
    if (check.refusal != 0)
        return check;
    for (size_t i = 0; i < set.count; i++)
        needed += write_element(&set.table[i], written + needed);
    if (room < needed)
        return refused(10, needed);
    memcpy(out, written, needed);
    return given(needed, 0, 0, 0);
}

/* ---- Demand */

static uint64_t first_due(const struct element *e)
{
    return (uint64_t)e->offset + e->deadline;
}

static uint64_t common_divisor(uint64_t a, uint64_t b)
{
    while (b != 0) {
        uint64_t rest = a % b;
        a = b;
        b = rest;
    }
    return a;
}

/* Reads the set and finds F, H and Q; refuses by 1 to 8. */
static struct answer prepare(const uint8_t *bytes, size_t size, struct set *set)
{
    struct answer check = read_set(bytes, size, set);
    if (check.refusal != 0)
        return check;
    set->F = 0;
    set->H = 1;
    set->Q = 0;
    for (size_t i = 0; i < set->count; i++) {
        const struct element *e = &set->table[i];
        if (first_due(e) > set->F)
            set->F = first_due(e);
        if (e->kind == PERIODIC)
            set->H = set->H / common_divisor(set->H, e->period) * e->period;
        if (set->H > MOST_H)
            return refused(8, e->kind_byte);
    }
    for (size_t i = 0; i < set->count; i++)
        if (set->table[i].kind == PERIODIC)
            set->Q += (wide)set->table[i].cost * (set->H / set->table[i].period);
    return given(0, 0, 0, 0);
}

static wide demand_of(const struct element *e, uint64_t length)
{
    if (length < first_due(e))
        return 0;
    if (e->kind == SINGLE)
        return e->cost;
    return ((wide)((length - first_due(e)) / e->period) + 1) * e->cost;
}

static wide demand(const struct set *set, uint64_t length)
{
    wide sum = 0;
    for (size_t i = 0; i < set->count; i++)
        sum += demand_of(&set->table[i], length);
    return sum;
}

/* The element's least date above this length, of its first so many. */
static uint64_t next_date(const struct element *e, uint64_t length, uint64_t dates)
{
    uint64_t f = first_due(e);
    if (f > length)
        return f;
    if (e->kind == SINGLE)
        return NONE_LEFT;
    uint64_t j = (length - f) / e->period + 1;
    return j < dates ? f + j * e->period : NONE_LEFT;
}

static uint64_t next_length(const struct set *set, uint64_t length, uint64_t dates)
{
    uint64_t least = NONE_LEFT;
    for (size_t i = 0; i < set->count; i++) {
        uint64_t date = next_date(&set->table[i], length, dates);
        if (date < least)
            least = date;
    }
    return least;
}

/* ---- The tests */

static struct answer load_above_one(const struct set *set)
{
    for (uint64_t length = set->F;; length += set->H) {
        wide due = demand(set, length);
        if (due > length)
            return given(2, length, (uint64_t)due, 0);
    }
}

struct answer oracle_exact(const uint8_t *bytes, size_t size)
{
    struct set set;
    uint64_t count = 0, length = 0;
    struct answer check = prepare(bytes, size, &set);
    if (check.refusal != 0)
        return check;
    if (set.Q > set.H)
        return load_above_one(&set);
    while ((length = next_length(&set, length, ALL_DATES)) < set.F + set.H) {
        wide due = demand(&set, length);
        count++;
        if (due > length)
            return given(1, length, (uint64_t)due, count);
    }
    return given(0, 0, 0, count);
}

/* H times D'. */
static wide scaled_demand(const struct set *set, uint64_t length, uint64_t k)
{
    wide sum = 0;
    for (size_t i = 0; i < set->count; i++) {
        const struct element *e = &set->table[i];
        uint64_t m = first_due(e) + (k - 1) * e->period;
        if (e->kind == SINGLE || length <= m)
            sum += set->H * demand_of(e, length);
        else
            sum += (wide)set->H * k * e->cost + (wide)e->cost * (length - m) * (set->H / e->period);
    }
    return sum;
}

struct answer oracle_superposition(const uint8_t *bytes, size_t size, uint32_t k)
{
    struct set set;
    uint64_t count = 0, length = 0;
    if (k < 1 || k > 255)
        return refused(9, 0);
    struct answer check = prepare(bytes, size, &set);
    if (check.refusal != 0)
        return check;
    if (set.Q > set.H)
        return load_above_one(&set);
    while ((length = next_length(&set, length, k)) != NONE_LEFT) {
        wide scaled = scaled_demand(&set, length, k);
        count++;
        if (scaled > (wide)set.H * length)
            return given(3, length, (uint64_t)demand(&set, length), count);
    }
    return given(0, 0, 0, count);
}

int oracle_is_slow(const uint8_t *bytes, size_t size)
{
    struct set set;
    uint64_t lengths = 0;
    if (prepare(bytes, size, &set).refusal != 0)
        return 0;
    if (set.Q > set.H)
        return set.F / (uint64_t)(set.Q - set.H) > MANY_LENGTHS;
    for (size_t i = 0; i < set.count; i++)
        if (set.table[i].kind == PERIODIC)
            lengths += (set.F + set.H - first_due(&set.table[i])) / set.table[i].period;
    return lengths > MANY_LENGTHS;
}
