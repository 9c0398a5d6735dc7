/* The versions of a row run in turn, round after round. A line for each row: job, periods, elements, lengths, and the median nanoseconds
   of a call of each version. */
#include "bench.h"

#define CLOCK_MONOTONIC 1
#define ROUNDS 7
#define SAMPLE_NS 50000000

struct timespec {
    long tv_sec, tv_nsec;
};

int clock_gettime(int clock, struct timespec *time);
int fflush(void *file);

static long now(void)
{
    struct timespec t;
    clock_gettime(CLOCK_MONOTONIC, &t);
    return t.tv_sec * 1000000000 + t.tv_nsec;
}

static long sample(version *run, const struct bytes *set, uint32_t k, uint32_t calls, struct result *r)
{
    long start = now();
    for (uint32_t i = 0; i < calls; i++)
        run(set, k, r);
    return now() - start;
}

/* The fewer, the longer a sample takes. */
static int rounds_for(long taken)
{
    return taken > 2000000000 ? 2 : taken > 500000000 ? 3 : ROUNDS;
}

/* How many calls a sample needs; this warms up as well. */
static uint32_t calls_for(version *run, const struct bytes *set, uint32_t k, struct result *r)
{
    uint32_t calls = 1;
    while (sample(run, set, k, calls, r) < SAMPLE_NS)
        calls *= 2;
    return calls;
}

static double median(double *samples, int n)
{
    for (int i = 1; i < n; i++) {
        double x = samples[i];
        int j = i;
        for (; j > 0 && samples[j - 1] > x; j--)
            samples[j] = samples[j - 1];
        samples[j] = x;
    }
    return (samples[(n - 1) / 2] + samples[n / 2]) / 2;
}

static void time_row(const struct row *row)
{
    struct bytes set = {{0}, 0};
    struct task_set table;
    struct result r;
    size_t place;
    uint32_t calls[VERSIONS];
    double ns[VERSIONS][ROUNDS];
    int versions = row->job->versions[2] ? 3 : 2;
    int rounds = ROUNDS;
    row->make(&set, row->number);
    read_set(set.bytes, set.length, &table, &place);
    for (int i = 0; i < versions; i++)
        calls[i] = calls_for(row->job->versions[i], &set, row->k, &r);
    for (int round = 0; round < rounds; round++) {
        for (int i = 0; i < versions; i++) {
            long taken = sample(row->job->versions[i], &set, row->k, calls[i], &r);
            ns[i][round] = (double)taken / calls[i];
            if (rounds_for(taken) < rounds)
                rounds = rounds_for(taken);
        }
    }
    printf("%s %s %lu %lu", row->job->name, row->periods, table.count, r.answer[5]);
    for (int i = 0; i < versions; i++)
        printf(" %.1f", median(ns[i], rounds));
    printf("\n");
    fflush(0);
}

void time_rows(void)
{
    for (size_t i = 0; i < row_count; i++)
        time_row(&rows[i]);
}
