#include "bench.h"

static void put(uint64_t *answer, uint64_t refusal, uint64_t place, uint64_t verdict, uint64_t interval, uint64_t demand, uint64_t count)
{
    answer[0] = refusal;
    answer[1] = place;
    answer[2] = verdict;
    answer[3] = interval;
    answer[4] = demand;
    answer[5] = count;
}

uint32_t put_refusal(uint64_t *answer, uint32_t refusal, size_t place)
{
    put(answer, refusal, place, 0, 0, 0, 0);
    return refusal;
}

uint32_t put_verdict(uint64_t *answer, uint64_t verdict, uint64_t interval, uint64_t demand, uint64_t count)
{
    put(answer, 0, 0, verdict, interval, demand, count);
    return 0;
}
