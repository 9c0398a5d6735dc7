/* The exact test by a scan of the places, as it is usually written: a next length for each, and the least of them compared at each step. */
#include "bench.h"

/* Moves on every place that has this length for its next; returns the cost due there. */
static uint64_t move_on(struct dates *dates, size_t n, uint64_t at)
{
    uint64_t due = 0;
    for (size_t i = 0; i < n; i++) {
        if (dates->next[i] == at) {
            due += dates->cost[i];
            dates->next[i] += dates->step[i];
        }
    }
    return due;
}

static uint32_t compare_lengths(const struct task_set *set, uint64_t bound, uint64_t *answer)
{
    struct dates dates;
    uint64_t demand = 0;
    uint64_t count = 0;
    lay_dates(set, &dates);
    for (;;) {
        uint64_t at = least(dates.next, set->count);
        if (at >= bound)
            return put_verdict(answer, 0, 0, 0, count);
        demand += move_on(&dates, set->count, at);
        count++;
        if (at < demand)
            return put_verdict(answer, 1, at, demand, count);
    }
}

uint32_t c_scan(const uint8_t *bytes, size_t length, uint64_t *answer, size_t places)
{
    return exact_by(compare_lengths, bytes, length, answer, places);
}
