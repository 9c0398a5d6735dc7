/* All versions must give the same answer, and write the same bytes. */
#include "bench.h"

#define INPUTS 2000

/* How often each came, by Rattle's answer. */
struct tally {
    uint64_t verdicts[4], refusals, differ;
};

static int is_same(const struct job *job, const struct bytes *set, uint32_t k, struct result *first)
{
    int same = 1;
    memset(first, 0, sizeof *first);
    job->versions[0](set, k, first);
    for (size_t i = 1; i < VERSIONS && job->versions[i]; i++) {
        struct result other;
        memset(&other, 0, sizeof other);
        job->versions[i](set, k, &other);
        same = same && memcmp(first, &other, sizeof other) == 0;
    }
    return same;
}

static int check_row(const struct row *row)
{
    struct bytes set = {{0}, 0};
    struct result r;
    row->make(&set, row->number);
    if (!is_same(row->job, &set, row->k, &r)) {
        printf("%s, periods %s, %u: the answers differ\n", row->job->name, row->periods, row->number);
        return 0;
    }
    if (r.returned != 0 || (row->job != &rewrite && r.answer[2] != 0)) {
        printf("%s, periods %s, %u: the set does not pass\n", row->job->name, row->periods, row->number);
        return 0;
    }
    return 1;
}

static void check_input(const struct job *job, const struct bytes *set, uint32_t k, struct tally *tally)
{
    struct result r;
    if (!is_same(job, set, k, &r))
        tally->differ++;
    if (r.returned != 0)
        tally->refusals++;
    else if (job != &rewrite)
        tally->verdicts[r.answer[2]]++;
}

static uint64_t check_inputs(void)
{
    struct tally tally = {{0}, 0, 0};
    for (uint32_t seed = 1; seed <= INPUTS; seed++) {
        struct bytes set = {{0}, 0};
        random_input(&set, seed * 16807);
        check_input(&exact, &set, 0, &tally);
        check_input(&superposition, &set, seed % 16, &tally);
        check_input(&rewrite, &set, 0, &tally);
    }
    printf("%u random inputs, three calls each: verdict 0 %lu times, 1 %lu, 2 %lu, 3 %lu, refused %lu; %lu differ\n", INPUTS, tally.verdicts[0],
           tally.verdicts[1], tally.verdicts[2], tally.verdicts[3], tally.refusals, tally.differ);
    return tally.differ;
}

/* The scan of the longest run takes a minute: it is given a shorter one of the same kind. */
static const struct row shorter = {&exact, "2..256", longest_set, 8, 0};

int check_all(void)
{
    int same = check_inputs() == 0;
    same = check_row(&shorter) && same;
    for (size_t i = 0; i < row_count; i++)
        same = check_row(&rows[i]) && same;
    if (same)
        printf("%lu sets: all versions give the same answers\n", row_count + 1);
    return same;
}
