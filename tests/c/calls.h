/* One input given to the three functions in many ways. What is lent to a call stands between guards, and after the call
   every byte of all that is compared with what the oracle says. */
#ifndef CALLS_H
#define CALLS_H

#include "inputs.h"

/* The functions called: those of simaurkoi.h, or wrong ones. */
struct interface {
    uint32_t (*exact)(const uint8_t *set, size_t len, uint64_t *answer, size_t places);
    uint32_t (*superposition)(const uint8_t *set, size_t len, uint32_t k, uint64_t *answer, size_t places);
    uint32_t (*rewrite)(const uint8_t *set, size_t len, uint8_t *out, size_t room, uint64_t *answer, size_t places);
};

enum { REFUSALS = 11, VERDICTS = 4 };

/* What the calls came to. Unless it is quiet, the first few differences are printed. */
struct tally {
    int quiet;
    uint64_t calls, differ;
    uint64_t refusals[REFUSALS], verdicts[VERDICTS], written, few_places;
};

void check_input(const struct input *input, const struct interface *called, struct tally *tally);

#endif
