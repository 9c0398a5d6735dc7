/* The C versions that Rattle is measured against, in document 01's words, and the sets that both are given. */
#ifndef BENCH_H
#define BENCH_H

#include "simaurkoi.h"

int printf(const char *format, ...);
void *memset(void *at, int byte, size_t length);
int memcmp(const void *a, const void *b, size_t length);

#define PLACES 128
#define MOST_VALUE 16777216u
#define MOST_HYPERPERIOD 1073741824u
#define MOST_K 255
#define LARGEST (~(uint64_t)0)
#define ONCE 0

/* A checked record has no period of 0: ONCE stands for a single event. */
struct element {
    uint32_t period, offset, deadline, cost;
};

struct task_set {
    size_t count;
    struct element table[PLACES];
};

/* H, F and Q. */
struct load {
    uint64_t hyperperiod, first, load;
};

/* Each counted place's next length, the step from one date to the next, and its cost. */
struct dates {
    uint64_t next[PLACES], step[PLACES], cost[PLACES];
};

/* The least of n next lengths. */
static inline uint64_t least(const uint64_t *next, size_t n)
{
    uint64_t best = LARGEST;
    for (size_t i = 0; i < n; i++)
        if (next[i] < best)
            best = next[i];
    return best;
}

/* set.c: a refusal or 0. */
uint32_t read_set(const uint8_t *bytes, size_t length, struct task_set *set, size_t *place);
uint32_t write_set(const struct task_set *set, uint8_t *out, size_t room, size_t *written);

/* load.c */
uint64_t first_of(const struct element *e);
uint64_t demand_at(const struct task_set *set, uint64_t length);
void lay_dates(const struct task_set *set, struct dates *dates);
int is_for_test(const uint8_t *bytes, size_t length, struct task_set *set, struct load *load, uint64_t *answer);

/* The exact test of bytes, with this way of comparing the lengths below a bound. */
typedef uint32_t comparison(const struct task_set *set, uint64_t bound, uint64_t *answer);
uint32_t exact_by(comparison *compare, const uint8_t *bytes, size_t length, uint64_t *answer, size_t places);

/* answer.c: the six numbers; each returns the refusal. */
uint32_t put_refusal(uint64_t *answer, uint32_t refusal, size_t place);
uint32_t put_verdict(uint64_t *answer, uint64_t verdict, uint64_t interval, uint64_t demand, uint64_t count);

/* The tests, as the interface for C has them: a set as bytes, and six places for the answer. */
uint32_t c_segments(const uint8_t *set, size_t length, uint64_t *answer, size_t places);
uint32_t c_scan(const uint8_t *set, size_t length, uint64_t *answer, size_t places);
uint32_t c_superposition(const uint8_t *set, size_t length, uint32_t k, uint64_t *answer, size_t places);
uint32_t c_rewrite(const uint8_t *set, size_t length, uint8_t *out, size_t room, uint64_t *answer, size_t places);

/* sets.c */
struct bytes {
    uint8_t bytes[SIMAURKOI_SET_BYTES];
    size_t length;
};

typedef void maker(struct bytes *set, uint32_t number);
maker thousand_set, million_set, growing_set, longest_set, tick_set, random_input;

/* rows.c: a row is a set and the versions that are given it, Rattle's first. */
struct result {
    uint64_t returned, answer[SIMAURKOI_PLACES];
    uint8_t out[SIMAURKOI_SET_BYTES];
};

typedef void version(const struct bytes *set, uint32_t k, struct result *result);

#define VERSIONS 3

struct job {
    const char *name;
    version *versions[VERSIONS];
};

struct row {
    const struct job *job;
    const char *periods;
    maker *make;
    uint32_t number, k;
};

extern const struct job exact, longest, superposition, rewrite;
extern const struct row rows[];
extern const size_t row_count;

/* check.c and timing.c */
int check_all(void);
void time_rows(void);

#endif
