#include "inputs.h"

enum { MOST_INPUTS = 1 << 16, ALL_BYTES = 1 << 23 };

static struct input inputs[MOST_INPUTS];
static size_t made;
static uint8_t all_bytes[ALL_BYTES];
static size_t used;

const struct input *input_at(size_t number)
{
    return &inputs[number];
}

size_t inputs_made(void)
{
    return made;
}

void begin(enum group group)
{
    inputs[made++] = (struct input){.group = group, .bytes = all_bytes + used};
}

struct input *current(void)
{
    return &inputs[made - 1];
}

void put_byte(uint8_t byte)
{
    all_bytes[used++] = byte;
    current()->size++;
}

void put_value(uint32_t value)
{
    for (int i = 0; i < 4; i++, value /= 256)
        put_byte((uint8_t)(value % 256));
}

void every(uint32_t period, uint32_t offset, uint32_t deadline, uint32_t cost)
{
    put_byte(PERIODIC);
    put_value(period);
    put_value(offset);
    put_value(deadline);
    put_value(cost);
}

void once(uint32_t offset, uint32_t deadline, uint32_t cost)
{
    put_byte(SINGLE);
    put_value(offset);
    put_value(deadline);
    put_value(cost);
}

uint8_t *current_bytes(void)
{
    return all_bytes + used - current()->size;
}

void cut_to(size_t size)
{
    used -= current()->size - size;
    current()->size = size;
}

void put_again(size_t number, enum group group)
{
    begin(group);
    current()->bytes = inputs[number].bytes;
    current()->size = inputs[number].size;
}
