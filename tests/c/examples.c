#include "groups.h"
#include "inputs.h"
#include "sys.h"

/* Documents 004 (section 3) and 000 (table 1) say of these sets that they pass; the counts of the exact test are those of
   docs/COMPARISON.md. */
static const struct known {
    enum group group;
    const char *name;
    struct printed printed[MOST_PRINTED];
} known[] = {
    {FLIGHT_CONTROL, "flight-control.set", {
        {EXACT_TEST, 6, {0, 0, 0, 0, 0, 79890}}, {1, 5, {0}}, {2, 5, {0}}, {100, 5, {0}}}},
    {OLYMPUS, "olympus.set", {
        {EXACT_TEST, 6, {0, 0, 0, 0, 0, 676328}}, {1, 5, {0}}, {2, 5, {0}}, {100, 5, {0}}}},
};

static size_t length_of(const char *text)
{
    size_t length = 0;
    while (text[length] != 0)
        length++;
    return length;
}

static int ends_with(const char *text, const char *end)
{
    size_t length = length_of(text), part = length_of(end);
    return length >= part && memcmp(text + length - part, end, part) == 0;
}

static void begin_named(const char *name)
{
    for (size_t i = 0; i < sizeof known / sizeof known[0]; i++)
        if (ends_with(name, known[i].name)) {
            begin(known[i].group);
            current()->name = known[i].name;
            current()->printed = known[i].printed;
            return;
        }
    begin(EXAMPLES);
}

int make_example(const char *name)
{
    uint8_t bytes[MOST_INPUT_BYTES + 1];
    size_t size = 0;
    long got;
    int file = open(name, READ_ONLY);
    if (file < 0)
        return 0;
    while ((got = read(file, bytes + size, sizeof bytes - size)) > 0)
        size += (size_t)got;
    close(file);
    if (got < 0 || size > MOST_INPUT_BYTES)
        return 0;
    begin_named(name);
    for (size_t i = 0; i < size; i++)
        put_byte(bytes[i]);
    return 1;
}
