#include "faults.h"
#include "simaurkoi.h"

enum fault {
    RETURNS_NONE,
    PLACE_ONE_LESS,
    INTERVAL_FOR_DEMAND,
    COUNT_ONE_MORE,
    OVERLOADED_FOR_NOT_SHOWN,
    COUNT_BESIDE_REFUSAL,
    SEVENTH_PLACE,
    AHEAD_OF_ANSWER,
    BEHIND_ANSWER,
    FIVE_FOR_SIX,
    FEW_PLACES_CHANGED,
    SET_CHANGED,
    BEHIND_SET,
    LAST_BYTE_UNREAD,
    K_CUT_TO_A_BYTE,
    OUT_ON_REFUSAL,
    OUT_PAST_WRITTEN,
    ROOM_ONE_MORE,
    ROOM_FOR_WRITTEN,
    FAULTS
};

static const char *const names[FAULTS] = {
    [RETURNS_NONE] = "0 is returned beside a refusal",
    [PLACE_ONE_LESS] = "a refusal's place is one less",
    [INTERVAL_FOR_DEMAND] = "interval and demand are exchanged",
    [COUNT_ONE_MORE] = "the count is one more",
    [OVERLOADED_FOR_NOT_SHOWN] = "the verdict is 1 for 3",
    [COUNT_BESIDE_REFUSAL] = "a count stands beside a refusal",
    [SEVENTH_PLACE] = "the seventh place changes",
    [AHEAD_OF_ANSWER] = "a byte ahead of the answer changes",
    [BEHIND_ANSWER] = "a byte behind the answer changes",
    [FIVE_FOR_SIX] = "five places are taken for six",
    [FEW_PLACES_CHANGED] = "one of fewer than six places changes",
    [SET_CHANGED] = "a byte of the set changes",
    [BEHIND_SET] = "a byte behind the set changes",
    [LAST_BYTE_UNREAD] = "the last byte of the set is not read",
    [K_CUT_TO_A_BYTE] = "k is cut to a byte",
    [OUT_ON_REFUSAL] = "out changes beside a refusal",
    [OUT_PAST_WRITTEN] = "out changes past the bytes written",
    [ROOM_ONE_MORE] = "room is taken for one byte more",
    [ROOM_FOR_WRITTEN] = "the bytes written are said to be all the room",
};

static enum fault planted;

/* After an honest call: one promise broken. */
static void spoil_answer(uint64_t *answer, size_t places)
{
    uint64_t interval = answer[SIMAURKOI_INTERVAL];
    int refused = answer[SIMAURKOI_REFUSAL] != 0;
    if (planted == PLACE_ONE_LESS && answer[SIMAURKOI_PLACE] > 0)
        answer[SIMAURKOI_PLACE]--;
    if (planted == INTERVAL_FOR_DEMAND) {
        answer[SIMAURKOI_INTERVAL] = answer[SIMAURKOI_DEMAND];
        answer[SIMAURKOI_DEMAND] = interval;
    }
    if (planted == COUNT_ONE_MORE && !refused)
        answer[SIMAURKOI_COUNT]++;
    if (planted == OVERLOADED_FOR_NOT_SHOWN && answer[SIMAURKOI_VERDICT] == SIMAURKOI_NOT_SHOWN)
        answer[SIMAURKOI_VERDICT] = SIMAURKOI_OVERLOADED;
    if (planted == COUNT_BESIDE_REFUSAL && refused)
        answer[SIMAURKOI_COUNT] = 1;
    if (planted == SEVENTH_PLACE && places > SIMAURKOI_PLACES)
        answer[SIMAURKOI_PLACES] = 0;
}

static uint32_t spoil(uint32_t returned, const uint8_t *set, size_t len, uint64_t *answer, size_t places)
{
    uint8_t *changeable = (uint8_t *)set;
    if (places >= SIMAURKOI_PLACES)
        spoil_answer(answer, places);
    if (planted == AHEAD_OF_ANSWER)
        answer[-1] ^= 1;
    if (planted == BEHIND_ANSWER)
        answer[places] ^= 1;
    if (planted == FEW_PLACES_CHANGED && places > 0 && places < SIMAURKOI_PLACES)
        answer[0] = returned;
    if (planted == SET_CHANGED && len > 0)
        changeable[len - 1] ^= 1;
    if (planted == BEHIND_SET)
        changeable[len] ^= 1;
    return planted == RETURNS_NONE ? 0 : returned;
}

static size_t places_taken(size_t places)
{
    return planted == FIVE_FOR_SIX && places == SIMAURKOI_PLACES - 1 ? SIMAURKOI_PLACES : places;
}

static size_t bytes_read(size_t len)
{
    return planted == LAST_BYTE_UNREAD && len > 0 ? len - 1 : len;
}

static uint32_t exact(const uint8_t *set, size_t len, uint64_t *answer, size_t places)
{
    uint32_t returned = simaurkoi_exact(set, bytes_read(len), answer, places_taken(places));
    return spoil(returned, set, len, answer, places);
}

static uint32_t superposition(const uint8_t *set, size_t len, uint32_t k, uint64_t *answer, size_t places)
{
    uint32_t taken = planted == K_CUT_TO_A_BYTE ? k % 256 : k;
    uint32_t returned = simaurkoi_superposition(set, bytes_read(len), taken, answer, places_taken(places));
    return spoil(returned, set, len, answer, places);
}

static uint32_t rewrite(const uint8_t *set, size_t len, uint8_t *out, size_t room, uint64_t *answer, size_t places)
{
    size_t taken = planted == ROOM_ONE_MORE ? room + 1 : room;
    uint32_t returned = simaurkoi_rewrite(set, bytes_read(len), out, taken, answer, places_taken(places));
    if (planted == OUT_ON_REFUSAL && returned != 0 && room > 0)
        out[0] ^= 1;
    if (planted == OUT_PAST_WRITTEN && returned == 0 && answer[SIMAURKOI_WRITTEN] < room)
        out[answer[SIMAURKOI_WRITTEN]] ^= 1;
    if (planted == ROOM_FOR_WRITTEN && returned == 0)
        answer[SIMAURKOI_WRITTEN] = room;
    return spoil(returned, set, len, answer, places);
}

size_t faults_count(void)
{
    return FAULTS;
}

const char *fault_name(size_t number)
{
    return names[number];
}

const struct interface *with_fault(size_t number)
{
    static const struct interface spoilt = {exact, superposition, rewrite};
    planted = (enum fault)number;
    return &spoilt;
}
