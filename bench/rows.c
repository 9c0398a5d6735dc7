#include "bench.h"

static void rattle_exact(const struct bytes *set, uint32_t k, struct result *r)
{
    (void)k;
    r->returned = simaurkoi_exact(set->bytes, set->length, r->answer, SIMAURKOI_PLACES);
}

static void exact_in_segments(const struct bytes *set, uint32_t k, struct result *r)
{
    (void)k;
    r->returned = c_segments(set->bytes, set->length, r->answer, SIMAURKOI_PLACES);
}

static void exact_by_scan(const struct bytes *set, uint32_t k, struct result *r)
{
    (void)k;
    r->returned = c_scan(set->bytes, set->length, r->answer, SIMAURKOI_PLACES);
}

static void rattle_superposition(const struct bytes *set, uint32_t k, struct result *r)
{
    r->returned = simaurkoi_superposition(set->bytes, set->length, k, r->answer, SIMAURKOI_PLACES);
}

static void superposition_in_c(const struct bytes *set, uint32_t k, struct result *r)
{
    r->returned = c_superposition(set->bytes, set->length, k, r->answer, SIMAURKOI_PLACES);
}

static void rattle_rewrite(const struct bytes *set, uint32_t k, struct result *r)
{
    (void)k;
    r->returned = simaurkoi_rewrite(set->bytes, set->length, r->out, SIMAURKOI_SET_BYTES, r->answer, SIMAURKOI_PLACES);
}

static void rewrite_in_c(const struct bytes *set, uint32_t k, struct result *r)
{
    (void)k;
    r->returned = c_rewrite(set->bytes, set->length, r->out, SIMAURKOI_SET_BYTES, r->answer, SIMAURKOI_PLACES);
}

const struct job exact = {"exact", {rattle_exact, exact_in_segments, exact_by_scan}};
const struct job longest = {"longest", {rattle_exact, exact_in_segments, 0}};
const struct job superposition = {"superposition", {rattle_superposition, superposition_in_c, 0}};
const struct job rewrite = {"rewrite", {rattle_rewrite, rewrite_in_c, 0}};
static const struct job growing = {"growing", {rattle_exact, exact_in_segments, 0}};

const struct row rows[] = {
    {&exact, "thousand", thousand_set, 4, 0},
    {&exact, "thousand", thousand_set, 16, 0},
    {&exact, "thousand", thousand_set, 64, 0},
    {&exact, "thousand", thousand_set, 128, 0},
    {&exact, "million", million_set, 4, 0},
    {&exact, "million", million_set, 16, 0},
    {&exact, "million", million_set, 64, 0},
    {&exact, "million", million_set, 128, 0},
    {&growing, "thousand", growing_set, 1008, 0},
    {&growing, "thousand", growing_set, 960, 0},
    {&growing, "thousand", growing_set, 1020, 0},
    {&growing, "thousand", growing_set, 1088, 0},
    {&growing, "thousand", growing_set, 969, 0},
    {&growing, "thousand", growing_set, 1147, 0},
    {&longest, "1", tick_set, 1, 0},
    {&longest, "2..32768", longest_set, 15, 0},
    {&superposition, "thousand", thousand_set, 4, 255},
    {&superposition, "thousand", thousand_set, 16, 255},
    {&superposition, "thousand", thousand_set, 128, 255},
    {&superposition, "million", million_set, 128, 255},
    {&rewrite, "thousand", thousand_set, 128, 0},
};

const size_t row_count = sizeof rows / sizeof rows[0];
