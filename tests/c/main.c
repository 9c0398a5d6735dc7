/* The C interface against the oracle, on the files named and on the inputs made here. */
#include "calls.h"
#include "faults.h"
#include "groups.h"
#include "printed.h"
#include "simaurkoi.h"
#include "stack.h"
#include "text.h"

static const struct interface archive = {simaurkoi_exact, simaurkoi_superposition, simaurkoi_rewrite};

/* Whether it has any input. */
static int check_group(enum group group, const char *name, struct tally *tally)
{
    uint64_t inputs = 0, calls = tally->calls, differ = tally->differ;
    for (size_t i = 0; i < inputs_made(); i++)
        if (input_at(i)->group == group) {
            check_input(input_at(i), &archive, tally);
            inputs++;
        }
    put_text(name);
    put_wide_number(inputs, 7);
    put_text(" inputs");
    put_wide_number(tally->calls - calls, 9);
    put_text(" calls");
    put_wide_number(tally->differ - differ, 9);
    put_text(" differ\n");
    return inputs > 0;
}

static void put_counts(const char *name, const uint64_t *counts, size_t from, size_t to)
{
    put_text(name);
    for (size_t i = from; i < to; i++) {
        put_text(i == from ? " " : ", ");
        put_number(i);
        put_text(": ");
        put_number(counts[i]);
    }
    put_text("\n");
}

static void put_tally(const struct tally *tally)
{
    put_counts("verdicts", tally->verdicts, 0, VERDICTS);
    put_counts("refusals", tally->refusals, 1, REFUSALS);
    put_text("sets written: ");
    put_number(tally->written);
    put_text("; calls with fewer than six places: ");
    put_number(tally->few_places);
    put_text("\n");
}

/* Every verdict and every refusal. */
static int all_reached(const struct tally *tally)
{
    int reached = 1;
    for (int i = 0; i < VERDICTS; i++)
        reached = reached && tally->verdicts[i] > 0;
    for (int i = 1; i < REFUSALS; i++)
        reached = reached && tally->refusals[i] > 0;
    if (!reached)
        put_text("NOT REACHED: some verdict or refusal never came up\n");
    return reached;
}

static int is_seen(size_t fault)
{
    struct tally tally = {.quiet = 1};
    const struct interface *called = with_fault(fault);
    for (size_t i = 0; i < inputs_made() && tally.differ == 0; i++)
        check_input(input_at(i), called, &tally);
    return tally.differ > 0;
}

static int faults_are_seen(void)
{
    size_t seen = 0;
    for (size_t fault = 0; fault < faults_count(); fault++) {
        if (is_seen(fault)) {
            seen++;
            continue;
        }
        put_text("NOT SEEN: ");
        put_text(fault_name(fault));
        put_text("\n");
    }
    put_number(faults_count());
    put_text(" faults planted, ");
    put_number(seen);
    put_text(" seen\n");
    return seen == faults_count();
}

static int make_examples(int count, char **names)
{
    for (int i = 0; i < count; i++)
        if (!make_example(names[i])) {
            put_text("NOT READ: ");
            put_text(names[i]);
            put_text("\n");
            return 0;
        }
    return 1;
}

/* The examples last, since the oracle takes longest for them. */
static int make_inputs(int count, char **names)
{
    make_sums();
    make_limits();
    make_legal();
    make_damaged();
    make_generated();
    make_all_places();
    return make_examples(count, names);
}

static int check_printed(void)
{
    struct held held = hold_to_printed(&archive);
    put_number(held.answers);
    put_text(" answers held to what is written: in ");
    put_number(held.oracle_differs);
    put_text(" the oracle differs, in ");
    put_number(held.called_differs);
    put_text(" the archive\n");
    return held.oracle_differs == 0 && held.called_differs == 0;
}

static void put_total(const struct tally *tally)
{
    put_number(inputs_made());
    put_text(" inputs, ");
    put_number(tally->calls);
    put_text(" calls: ");
    put_number(tally->differ);
    put_text(" differ\n");
}

int main(int count, char **words)
{
    static const char *const groups[GROUPS] = {
        [SUMS] = "sums          ",
        [LIMITS] = "limits        ",
        [LEGAL] = "legal         ",
        [DAMAGED] = "damaged       ",
        [GENERATED] = "generated     ",
        [FLIGHT_CONTROL] = "flight control",
        [OLYMPUS] = "Olympus       ",
        [EXAMPLES] = "examples      ",
        [ALL_PLACES] = "all places    ",
    };
    struct tally tally = {0};
    int fine;
    if (!make_inputs(count - 1, words + 1))
        return 1;
    fine = check_printed();
    for (int group = 0; group < GROUPS; group++)
        fine &= check_group((enum group)group, groups[group], &tally);
    put_tally(&tally);
    fine &= all_reached(&tally);
    fine &= faults_are_seen();
    fine &= stack_suffices(&archive);
    put_total(&tally);
    if (fine && tally.differ == 0)
        return 0;
    put_text("FAILED\n");
    return 1;
}
