/* The exact test in segments: the method of crates/exact_test/src/segments.rt. The inner loops are entered with a date, so their test stands
   at the end. */
#include "bench.h"

#define TICKS 4096
#define WORDS 64

struct segment {
    uint64_t due[TICKS], marks[WORDS];
};

struct run {
    uint64_t interval, demand, count;
};

enum swept { CLEAN, LATE };

/* Adds the dates of the n places below base + length, and moves the places on; *low is the least next length. */
static uint64_t fill(struct segment *s, struct dates *dates, size_t n, uint64_t base, uint64_t length, uint64_t *low)
{
    uint64_t seen = 0;
    uint64_t least = LARGEST;
    for (size_t i = 0; i < n; i++) {
        uint64_t next = dates->next[i];
        if (next < base + length) {
            uint64_t j = next - base;
            uint64_t step = dates->step[i];
            uint64_t cost = dates->cost[i];
            do {
                s->due[j] += cost;
                s->marks[j / 64] |= (uint64_t)1 << (j % 64);
                seen |= (uint64_t)1 << (j / 64);
                j += step;
            } while (j < length);
            next = base + j;
            dates->next[i] = next;
        }
        if (next < least)
            least = next;
    }
    *low = least;
    return seen;
}

/* Takes the marked lengths in rising order. */
static enum swept sweep(struct segment *s, uint64_t seen, uint64_t base, struct run *run)
{
    uint64_t demand = run->demand;
    uint64_t count = run->count;
    while (seen) {
        uint64_t k = __builtin_ctzll(seen);
        seen &= seen - 1;
        uint64_t word = s->marks[k];
        s->marks[k] = 0;
        do {
            uint64_t j = k * 64 + __builtin_ctzll(word);
            demand += s->due[j];
            s->due[j] = 0;
            count++;
            if (base + j < demand) {
                *run = (struct run){base + j, demand, count};
                return LATE;
            }
            word &= word - 1;
        } while (word);
    }
    run->demand = demand;
    run->count = count;
    return CLEAN;
}

static uint32_t compare_lengths(const struct task_set *set, uint64_t bound, uint64_t *answer)
{
    struct dates dates;
    struct segment segment;
    struct run run = {0, 0, 0};
    lay_dates(set, &dates);
    memset(&segment, 0, sizeof segment);
    uint64_t base = 1;
    while (base < bound) {
        uint64_t low;
        uint64_t length = bound - base < TICKS ? bound - base : TICKS;
        uint64_t seen = fill(&segment, &dates, set->count, base, length, &low);
        if (sweep(&segment, seen, base, &run) == LATE)
            return put_verdict(answer, 1, run.interval, run.demand, run.count);
        base = low;
    }
    return put_verdict(answer, 0, 0, 0, run.count);
}

uint32_t c_segments(const uint8_t *bytes, size_t length, uint64_t *answer, size_t places)
{
    return exact_by(compare_lengths, bytes, length, answer, places);
}
