#include "calls.h"
#include "oracle.h"
#include "simaurkoi.h"
#include "sys.h"
#include "text.h"

enum { GUARD = 32, MORE_ROOM = 9, MOST_PLACES = 8, MANY_BYTES = 300, FIRST_DIFFERENCES = 5 };
enum { MEMORY = 4 * GUARD + 8 + MOST_INPUT_BYTES + MOST_INPUT_BYTES + MORE_ROOM + 8 + 8 * MOST_PLACES };

enum which { EXACT, SUPERPOSITION, REWRITE };

struct call {
    enum which which;
    uint32_t k;
    size_t room, places;
    struct answer expected;
};

struct trial {
    const struct input *input;
    const struct interface *called;
    struct tally *tally;
};

/* What is lent to a call: guard, set, guard, out, guard, answer, guard. And the same as it should be after the call. */
static uint64_t lent_words[MEMORY / 8 + 1], wanted_words[MEMORY / 8 + 1];
static uint8_t *const lent = (uint8_t *)lent_words;
static uint8_t *const wanted = (uint8_t *)wanted_words;

/* Where each part begins, and where the last guard ends. */
struct layout {
    size_t set, out, answer, end;
};

/* What the oracle writes for the current input. */
static uint8_t written[MOST_INPUT_BYTES];

/* The set begins at any byte, the answer where a uint64_t may. */
static struct layout lay_out(const struct trial *trial, const struct call *call)
{
    struct layout at;
    at.set = GUARD + trial->tally->calls % 8;
    at.out = at.set + trial->input->size + GUARD;
    at.answer = (at.out + call->room + GUARD + 7) / 8 * 8;
    at.end = at.answer + 8 * call->places + GUARD;
    return at;
}

/* Other bytes at each call, so that a wrong store of any byte shows. */
static void fill(size_t end)
{
    static uint64_t word;
    for (size_t i = 0; 8 * i < end; i++) {
        word = word * 6364136223846793005u + 1442695040888963407u;
        lent_words[i] = word ^ (word >> 32);
    }
}

static void want_changes(const struct call *call, struct layout at)
{
    uint64_t numbers[SIMAURKOI_PLACES];
    if (call->places < SIMAURKOI_PLACES)
        return;
    numbers[SIMAURKOI_REFUSAL] = call->expected.refusal;
    numbers[SIMAURKOI_PLACE] = call->expected.place;
    numbers[SIMAURKOI_VERDICT] = call->expected.verdict;
    numbers[SIMAURKOI_INTERVAL] = call->expected.interval;
    numbers[SIMAURKOI_DEMAND] = call->expected.demand;
    numbers[SIMAURKOI_COUNT] = call->expected.count;
    memcpy(wanted + at.answer, numbers, sizeof numbers);
    if (call->which == REWRITE)
        memcpy(wanted + at.out, written, call->expected.verdict);
}

static uint32_t make_call(const struct trial *trial, const struct call *call, struct layout at)
{
    uint64_t *answer = lent_words + at.answer / 8;
    size_t size = trial->input->size;
    switch (call->which) {
    case EXACT:
        return trial->called->exact(lent + at.set, size, answer, call->places);
    case SUPERPOSITION:
        return trial->called->superposition(lent + at.set, size, call->k, answer, call->places);
    default:
        return trial->called->rewrite(lent + at.set, size, lent + at.out, call->room, answer, call->places);
    }
}

static void count_call(struct tally *tally, const struct call *call, struct layout at, uint32_t returned)
{
    uint64_t verdict = lent_words[at.answer / 8 + SIMAURKOI_VERDICT];
    tally->calls++;
    if (call->places < SIMAURKOI_PLACES)
        tally->few_places++;
    else if (returned != 0 && returned < REFUSALS)
        tally->refusals[returned]++;
    else if (returned == 0 && call->which == REWRITE)
        tally->written++;
    else if (returned == 0 && verdict < VERDICTS)
        tally->verdicts[verdict]++;
}

/* ---- A difference, printed */

static void put_call(const struct trial *trial, const struct call *call)
{
    static const char *const names[] = {"exact", "superposition", "rewrite"};
    put_text("DIFFERS: ");
    put_text(names[call->which]);
    if (call->which == SUPERPOSITION) {
        put_text(", k ");
        put_number(call->k);
    }
    if (call->which == REWRITE) {
        put_text(", room ");
        put_number(call->room);
    }
    put_text(", ");
    put_number(call->places);
    put_text(" places, set of ");
    put_number(trial->input->size);
    put_text(" bytes:\n");
    put_bytes(trial->input->bytes, trial->input->size);
}

static void put_outcome(const char *name, uint32_t returned, const uint64_t *places, size_t count)
{
    put_text(name);
    put_text(" returns ");
    put_number(returned);
    put_text("; the places:");
    for (size_t i = 0; i < count; i++) {
        put_text(" ");
        put_number(places[i]);
    }
    put_text("\n");
}

static void put_first_wrong_byte(const struct trial *trial, const struct call *call, struct layout at)
{
    const struct { const char *name; size_t from, to; } parts[] = {
        {"the set", at.set, at.set + trial->input->size},
        {"out", at.out, at.out + call->room},
        {"the answer", at.answer, at.answer + 8 * call->places},
    };
    size_t wrong = 0;
    while (wrong < at.end && lent[wrong] == wanted[wrong])
        wrong++;
    if (wrong == at.end)
        return;
    put_text("  the first wrong byte: ");
    for (int i = 2; i >= 0; i--)
        if (wrong >= parts[i].from) {
            put_number(wrong - parts[i].from);
            put_text(" of ");
            put_text(parts[i].name);
            put_text(wrong < parts[i].to ? "\n" : ", behind its end\n");
            return;
        }
    put_text("ahead of the set\n");
}

/* ---- Calls */

static void check_call(const struct trial *trial, const struct call *call)
{
    struct layout at = lay_out(trial, call);
    uint32_t returned, should_return = call->places < SIMAURKOI_PLACES ? 10 : (uint32_t)call->expected.refusal;
    fill(at.end);
    memcpy(lent + at.set, trial->input->bytes, trial->input->size);
    memcpy(wanted, lent, at.end);
    want_changes(call, at);
    returned = make_call(trial, call, at);
    count_call(trial->tally, call, at, returned);
    if (returned == should_return && memcmp(lent, wanted, at.end) == 0)
        return;
    trial->tally->differ++;
    if (trial->tally->quiet || trial->tally->differ > FIRST_DIFFERENCES)
        return;
    put_call(trial, call);
    put_outcome("  it      ", returned, lent_words + at.answer / 8, call->places);
    put_outcome("  expected", should_return, wanted_words + at.answer / 8, call->places);
    put_first_wrong_byte(trial, call, at);
}

/* With enough places, and now and then with too few; in the group for it with each number of places. */
static void check_places(const struct trial *trial, struct call call)
{
    static size_t turn;
    turn++;
    if (trial->input->group == ALL_PLACES) {
        for (call.places = 0; call.places <= MOST_PLACES; call.places++)
            check_call(trial, &call);
        return;
    }
    call.places = SIMAURKOI_PLACES + turn % 3;
    check_call(trial, &call);
    if (turn % 5 == 0) {
        call.places = turn / 5 % SIMAURKOI_PLACES;
        check_call(trial, &call);
    }
}

static void check_superposition(const struct trial *trial, uint32_t k)
{
    struct call call = {.which = SUPERPOSITION, .k = k};
    call.expected = oracle_superposition(trial->input->bytes, trial->input->size, k);
    check_places(trial, call);
}

/* A generated input brings one k; the others get many, the edges of k among them. */
static void check_superpositions(const struct trial *trial)
{
    static const uint32_t few_k[] = {0, 3, 256, UINT32_MAX}, more_k[] = {7, 100, 255};
    const struct input *input = trial->input;
    check_superposition(trial, 1);
    check_superposition(trial, 2);
    if (input->group == GENERATED) {
        check_superposition(trial, input->k);
        return;
    }
    for (size_t i = 0; i < sizeof few_k / sizeof few_k[0]; i++)
        check_superposition(trial, few_k[i]);
    for (size_t i = 0; i < sizeof more_k / sizeof more_k[0]; i++)
        if (input->size < MANY_BYTES || (input->group != LEGAL && input->group != DAMAGED))
            check_superposition(trial, more_k[i]);
}

static void check_rewrite(const struct trial *trial, size_t room)
{
    struct call call = {.which = REWRITE, .room = room};
    call.expected = oracle_rewrite(trial->input->bytes, trial->input->size, written, room);
    check_places(trial, call);
}

void check_input(const struct input *input, const struct interface *called, struct tally *tally)
{
    struct trial trial = {input, called, tally};
    struct call exact = {.which = EXACT, .expected = oracle_exact(input->bytes, input->size)};
    check_places(&trial, exact);
    check_superpositions(&trial);
    check_rewrite(&trial, input->size);
    check_rewrite(&trial, input->size + MORE_ROOM);
    check_rewrite(&trial, 0);
    if (input->size > 0)
        check_rewrite(&trial, input->size - 1);
}
