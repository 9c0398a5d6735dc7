/* Superposition: the walk of crates/superposition_test/src/walk.rt. */
#include "bench.h"

/* An element's next length, the step to the one after it, its cost, its last length, and what it adds to the slope past that. */
struct walker {
    uint64_t next, step, cost, last, rise;
};

/* The cost due at one length, what the slope rises by there, and the least next length after it. */
struct moved {
    uint64_t cost, rise, next;
};

static void lay_walkers(const struct task_set *set, uint32_t k, uint64_t h, struct walker *walkers)
{
    for (size_t i = 0; i < set->count; i++) {
        const struct element *e = &set->table[i];
        struct walker *w = &walkers[i];
        w->next = first_of(e);
        w->step = e->period;
        w->cost = e->cost;
        w->last = w->next;
        w->rise = 0;
        if (e->period != ONCE) {
            w->last += (uint64_t)(k - 1) * e->period;
            w->rise = e->cost * (h / e->period);
        }
    }
}

/* Moves on every one that has this length for its next. */
static struct moved move_on(struct walker *walkers, size_t n, uint64_t at)
{
    struct moved moved = {0, 0, LARGEST};
    for (struct walker *w = walkers; w < walkers + n; w++) {
        if (w->next == at) {
            moved.cost += w->cost;
            if (at < w->last) {
                w->next = at + w->step;
            } else {
                w->next = LARGEST;
                moved.rise += w->rise;
            }
        }
        if (w->next < moved.next)
            moved.next = w->next;
    }
    return moved;
}

static uint64_t least_next(const struct walker *walkers, size_t n)
{
    uint64_t best = LARGEST;
    for (size_t i = 0; i < n; i++) {
        if (walkers[i].next < best)
            best = walkers[i].next;
    }
    return best;
}

static uint32_t compare_lengths(const struct task_set *set, uint32_t k, uint64_t h, uint64_t *answer)
{
    struct walker walkers[PLACES];
    uint64_t before = 0, scaled = 0, slope = 0, count = 0;
    lay_walkers(set, k, h, walkers);
    uint64_t at = least_next(walkers, set->count);
    while (at != LARGEST) {
        struct moved moved = move_on(walkers, set->count, at);
        scaled += slope * (at - before) + moved.cost * h;
        count++;
        if (h * at < scaled)
            return put_verdict(answer, 3, at, demand_at(set, at), count);
        slope += moved.rise;
        before = at;
        at = moved.next;
    }
    return put_verdict(answer, 0, 0, 0, count);
}

uint32_t c_superposition(const uint8_t *bytes, size_t length, uint32_t k, uint64_t *answer, size_t places)
{
    struct task_set set;
    struct load load;
    if (places < SIMAURKOI_PLACES)
        return 10;
    if (k < 1 || k > MOST_K)
        return put_refusal(answer, 9, 0);
    if (!is_for_test(bytes, length, &set, &load, answer))
        return (uint32_t)answer[0];
    return compare_lengths(&set, k, load.hyperperiod, answer);
}
