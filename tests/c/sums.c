#include "groups.h"
#include "inputs.h"

/* A record is its kind and its numbers; so many bytes are cut from the end. */
struct sum {
    const char *name;
    size_t count;
    uint32_t records[2][5];
    size_t cut;
    struct printed printed[MOST_PRINTED];
};

/* The event of S10 with a cost of 999 and of 1,000: D' at 2000 is 1,001 more than that cost, so the first is just taken
   and the second is not. */
static const struct sum sums[] = {
    {"S1", 0, {{0}}, 0, {
        {EXACT_TEST, 6, {0}}, {1, 6, {0}}, {100, 6, {0}}, {255, 6, {0}}}},
    {"S2", 1, {{1, 4, 0, 2, 2}}, 0, {
        {EXACT_TEST, 6, {0, 0, 0, 0, 0, 1}}, {1, 6, {0, 0, 0, 0, 0, 1}}}},
    {"S3", 1, {{1, 4, 0, 2, 3}}, 0, {
        {EXACT_TEST, 6, {0, 0, 1, 2, 3, 1}}, {1, 6, {0, 0, 3, 2, 3, 1}}}},
    {"S4", 2, {{1, 2, 0, 2, 1}, {1, 4, 0, 4, 2}}, 0, {
        {EXACT_TEST, 6, {0, 0, 0, 0, 0, 3}}, {1, 6, {0, 0, 0, 0, 0, 2}}}},
    {"S5", 2, {{1, 2, 0, 2, 1}, {1, 4, 0, 4, 3}}, 0, {
        {EXACT_TEST, 6, {0, 0, 2, 4, 5, 0}}, {1, 6, {0, 0, 2, 4, 5, 0}}}},
    {"S6", 1, {{1, 4, 0, 8, 5}}, 0, {
        {EXACT_TEST, 6, {0, 0, 2, 24, 25, 0}}}},
    {"S7", 2, {{1, 10, 0, 2, 2}, {2, 0, 11, 8}}, 0, {
        {EXACT_TEST, 6, {0, 0, 0, 0, 0, 3}}, {1, 6, {0, 0, 3, 11, 10, 2}},
        {2, 6, {0, 0, 0, 0, 0, 3}}, {100, 6, {0, 0, 0, 0, 0, 101}}}},
    {"S8", 2, {{1, 5, 0, 5, 1}, {1, 5, 0, 5, 1}}, 0, {
        {EXACT_TEST, 6, {0, 0, 0, 0, 0, 1}}}},
    {"S9", 1, {{1, 10, 3, 4, 5}}, 0, {
        {EXACT_TEST, 6, {0, 0, 0, 0, 0, 1}}}},
    {"S10", 2, {{1, 4, 0, 2, 2}, {2, 0, 2000, 900}}, 0, {
        {EXACT_TEST, 6, {0, 0, 0, 0, 0, 502}}, {100, 6, {0, 0, 0, 0, 0, 101}}}},
    {"S10 with 999", 2, {{1, 4, 0, 2, 2}, {2, 0, 2000, 999}}, 0, {
        {100, 6, {0, 0, 0, 0, 0, 101}}}},
    {"S10 with 1,000", 2, {{1, 4, 0, 2, 2}, {2, 0, 2000, 1000}}, 0, {
        {100, 6, {0, 0, 3, 2000, 2000, 101}}}},
    {"S11, taken", 2, {{1, 32767, 0, 32767, 1}, {1, 32768, 0, 32768, 1}}, 0, {
        {EXACT_TEST, 2, {0, 0}}, {1, 2, {0, 0}}}},
    {"S11, refused", 2, {{1, 32768, 0, 32768, 1}, {1, 32769, 0, 32769, 1}}, 0, {
        {EXACT_TEST, 6, {8, 17}}, {1, 6, {8, 17}}}},
    {"S12, period 0", 1, {{1, 0, 0, 1, 1}}, 0, {
        {EXACT_TEST, 6, {4, 0}}}},
    {"S12, period 16,777,217", 1, {{1, 16777217, 0, 1, 1}}, 0, {
        {EXACT_TEST, 6, {4, 0}}}},
    {"S12, period 16,777,216", 1, {{1, 16777216, 0, 1, 1}}, 0, {
        {EXACT_TEST, 6, {0, 0, 0, 0, 0, 1}}}},
    {"S12, 11 bytes", 1, {{2, 0, 1, 1}}, 1, {
        {EXACT_TEST, 6, {2, 0}}}},
    {"S12, kind 00", 1, {{0}}, 0, {
        {EXACT_TEST, 6, {1, 0}}}},
};

static void put_record(const uint32_t *record)
{
    static const size_t numbers_of[] = {0, 4, 3};
    put_byte((uint8_t)record[0]);
    for (size_t i = 1; i <= numbers_of[record[0]]; i++)
        put_value(record[i]);
}

void make_sums(void)
{
    for (size_t i = 0; i < sizeof sums / sizeof sums[0]; i++) {
        begin(SUMS);
        current()->name = sums[i].name;
        current()->printed = sums[i].printed;
        for (size_t j = 0; j < sums[i].count; j++)
            put_record(sums[i].records[j]);
        cut_to(current()->size - sums[i].cut);
    }
}
