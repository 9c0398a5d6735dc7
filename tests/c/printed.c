#include "printed.h"
#include "oracle.h"
#include "simaurkoi.h"
#include "sys.h"
#include "text.h"

static void ask_oracle(const struct input *input, uint32_t k, uint64_t *numbers)
{
    struct answer a = k == EXACT_TEST ? oracle_exact(input->bytes, input->size)
                                      : oracle_superposition(input->bytes, input->size, k);
    uint64_t six[SIMAURKOI_PLACES] = {a.refusal, a.place, a.verdict, a.interval, a.demand, a.count};
    memcpy(numbers, six, sizeof six);
}

static void ask(const struct interface *called, const struct input *input, uint32_t k, uint64_t *numbers)
{
    if (k == EXACT_TEST)
        called->exact(input->bytes, input->size, numbers, SIMAURKOI_PLACES);
    else
        called->superposition(input->bytes, input->size, k, numbers, SIMAURKOI_PLACES);
}

/* 1 where they differ. */
static size_t compare(const char *who, const uint64_t *numbers, const struct input *input, const struct printed *printed)
{
    if (memcmp(numbers, printed->numbers, printed->given * sizeof numbers[0]) == 0)
        return 0;
    put_text(who);
    put_text(" IS WRONG: ");
    put_text(input->name);
    if (printed->k != EXACT_TEST) {
        put_text(", k ");
        put_number(printed->k);
    }
    put_text("\n");
    return 1;
}

static void hold(const struct input *input, const struct interface *called, struct held *held)
{
    for (size_t i = 0; i < MOST_PRINTED && input->printed[i].given > 0; i++) {
        const struct printed *printed = &input->printed[i];
        uint64_t numbers[SIMAURKOI_PLACES];
        ask_oracle(input, printed->k, numbers);
        held->oracle_differs += compare("THE ORACLE", numbers, input, printed);
        ask(called, input, printed->k, numbers);
        held->called_differs += compare("THE ARCHIVE", numbers, input, printed);
        held->answers++;
    }
}

struct held hold_to_printed(const struct interface *called)
{
    struct held held = {0, 0, 0};
    for (size_t i = 0; i < inputs_made(); i++)
        if (input_at(i)->printed)
            hold(input_at(i), called, &held);
    return held;
}
