/* The answers of document 01, worked out from that paper alone and slowly: each next length by a look at every element,
   each demand by division at that length. Nothing but the count is carried from one length to the next. */
#ifndef ORACLE_H
#define ORACLE_H

#include <stddef.h>
#include <stdint.h>

/* Beside a refusal the last four are 0, beside a verdict the first two. */
struct answer {
    uint64_t refusal, place, verdict, interval, demand, count;
};

struct answer oracle_exact(const uint8_t *bytes, size_t size);
struct answer oracle_superposition(const uint8_t *bytes, size_t size, uint32_t k);

/* Reads the set and writes it into out, which has this much room. The verdict is the number of bytes written. */
struct answer oracle_rewrite(const uint8_t *bytes, size_t size, uint8_t *out, size_t room);

/* Whether the exact test of these bytes could take the oracle more than some ten thousand lengths. */
int oracle_is_slow(const uint8_t *bytes, size_t size);

#endif
