/* H, Q and F, D by division, and verdict 2. */
#include "bench.h"

uint64_t first_of(const struct element *e)
{
    return (uint64_t)e->offset + e->deadline;
}

static uint64_t gcd(uint64_t a, uint64_t b)
{
    while (b) {
        uint64_t rest = a % b;
        a = b;
        b = rest;
    }
    return a;
}

/* The count, or the first place that brings H above its limit. */
static size_t find_load(const struct task_set *set, struct load *load)
{
    uint64_t h = 1;
    for (size_t i = 0; i < set->count; i++) {
        uint64_t p = set->table[i].period;
        if (p == ONCE)
            continue;
        h *= p / gcd(p, h);
        if (h > MOST_HYPERPERIOD)
            return i;
    }
    *load = (struct load){h, 0, 0};
    for (size_t i = 0; i < set->count; i++) {
        const struct element *e = &set->table[i];
        if (first_of(e) > load->first)
            load->first = first_of(e);
        if (e->period != ONCE)
            load->load += e->cost * (h / e->period);
    }
    return set->count;
}

uint64_t demand_at(const struct task_set *set, uint64_t length)
{
    uint64_t demand = 0;
    for (size_t i = 0; i < set->count; i++) {
        const struct element *e = &set->table[i];
        uint64_t first = first_of(e);
        if (length < first)
            continue;
        uint64_t dates = e->period == ONCE ? 1 : (length - first) / e->period + 1;
        demand += dates * e->cost;
    }
    return demand;
}

static uint32_t put_overload(const struct task_set *set, const struct load *load, uint64_t *answer)
{
    uint64_t interval = load->first;
    uint64_t demand = demand_at(set, interval);
    if (demand <= interval) {
        uint64_t turns = (interval - demand) / (load->load - load->hyperperiod) + 1;
        interval += turns * load->hyperperiod;
        demand += turns * load->load;
    }
    return put_verdict(answer, 2, interval, demand, 0);
}

static size_t kind_byte(const struct task_set *set, size_t record)
{
    size_t at = 0;
    for (size_t i = 0; i < record; i++)
        at += set->table[i].period == ONCE ? 13 : 17;
    return at;
}

/* A single event's step leads past every bound. */
void lay_dates(const struct task_set *set, struct dates *dates)
{
    for (size_t i = 0; i < set->count; i++) {
        const struct element *e = &set->table[i];
        dates->next[i] = first_of(e);
        dates->step[i] = e->period == ONCE ? 2147483648u : e->period;
        dates->cost[i] = e->cost;
    }
}

/* Reads a set for a test. Where its answer is found already, that is put and 0 returned. */
int is_for_test(const uint8_t *bytes, size_t length, struct task_set *set, struct load *load, uint64_t *answer)
{
    size_t place;
    uint32_t refusal = read_set(bytes, length, set, &place);
    if (refusal) {
        put_refusal(answer, refusal, place);
        return 0;
    }
    size_t reached = find_load(set, load);
    if (reached < set->count) {
        put_refusal(answer, 8, kind_byte(set, reached));
        return 0;
    }
    if (load->load > load->hyperperiod) {
        put_overload(set, load, answer);
        return 0;
    }
    return 1;
}

uint32_t exact_by(comparison *compare, const uint8_t *bytes, size_t length, uint64_t *answer, size_t places)
{
    struct task_set set;
    struct load load;
    if (places < SIMAURKOI_PLACES)
        return 10;
    if (!is_for_test(bytes, length, &set, &load, answer))
        return (uint32_t)answer[0];
    return compare(&set, load.first + load.hyperperiod, answer);
}
