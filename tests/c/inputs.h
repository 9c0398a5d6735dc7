/* The inputs: bytes that are a set, or are none. The same ones on every run. */
#ifndef INPUTS_H
#define INPUTS_H

#include <stddef.h>
#include <stdint.h>

enum group { SUMS, LIMITS, LEGAL, DAMAGED, GENERATED, FLIGHT_CONTROL, OLYMPUS, EXAMPLES, ALL_PLACES, GROUPS };
enum { MOST_INPUT_BYTES = 4096 };
enum { PERIODIC = 1, SINGLE = 2 };

/* What a document prints of an answer: the first so many of its six numbers. k is EXACT_TEST for the exact test. */
struct printed {
    uint32_t k;
    size_t given;
    uint64_t numbers[6];
};
enum { EXACT_TEST = 0 };

/* The answers printed of an input: so many, or those ahead of the first of which nothing is given. */
enum { MOST_PRINTED = 4 };

struct input {
    enum group group;
    const uint8_t *bytes;
    size_t size;
    /* A generated input has a k drawn with it. */
    uint32_t k;
    /* An input of which answers are printed has them, and a name. */
    const char *name;
    const struct printed *printed;
};

/* The input with this number, counted from 0 in the order in which they were made. */
const struct input *input_at(size_t number);
size_t inputs_made(void);

/* ---- Putting an input together */

void begin(enum group group);
struct input *current(void);

void put_byte(uint8_t byte);
void put_value(uint32_t value);
void every(uint32_t period, uint32_t offset, uint32_t deadline, uint32_t cost);
void once(uint32_t offset, uint32_t deadline, uint32_t cost);

/* The bytes of the current input, to change. */
uint8_t *current_bytes(void);

/* Keeps its first so many bytes. */
void cut_to(size_t size);

/* The bytes of an input made before, once more. */
void put_again(size_t number, enum group group);

#endif
