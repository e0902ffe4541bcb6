/* Calls with faults in them. */
#include "faults.h"

#include "stills.h"

#include <stdlib.h>
#include <string.h>

Call call_sound(Random *random)
{
    Made made = made_sound(random);
    Plain plain = plain_of(made_still(&made), BY_PROGRAMME);
    Call call = {.blocks = made.blocks, .levels = made.levels, .levels_len = POSITIONS * made.blocks,
                 .steps_len = POSITIONS, .lengths_len = LENGTHS, .keep_len = made.blocks,
                 .corners = plain_stops(&plain)->count, .least = plain_stops(&plain)->corners[0].bits};
    call.a = any_size(random, GREATEST_A - 1) + 1;
    call.b = any_size(random, GREATEST_B);
    call.list_len = 3 * (call.corners + below(random, 3));
    call.budget = (uint32_t)(call.least + any_size(random, UINT32_MAX - call.least));
    plain_done(&plain);
    memset(call.steps, 1, sizeof call.steps);
    memcpy(call.steps, made.steps, sizeof made.steps);
    memcpy(call.lengths, made.lengths, sizeof made.lengths);
    for (size_t i = 0; i < call.levels_len; i++)
        if (i % POSITIONS != 0 && call.levels[i] != 0 && one_in(random, 2))
            call.keep[i / POSITIONS] |= UINT64_C(1) << i % POSITIONS;
    return call;
}

Still call_still(const Call *call)
{
    return (Still){call->levels, call->levels_len, call->steps, call->steps_len, call->lengths, call->lengths_len};
}

void call_done(Call *call)
{
    free(call->levels);
}

unsigned lowest(Faults faults)
{
    if (faults >> 11 & 1)
        return 11;
    for (unsigned number = 1; number <= 10; number++)
        if (faults >> number & 1)
            return number;
    return 0;
}

/* 1: a length that is no still's. */
static void spoil_count(Call *call, Random *random)
{
    static const size_t small[] = {0, 1, 2, 63, 65, 127, 129, 191, 255, 257};
    static const size_t large[] = {65535, 65537, 65600, 65664, 131072, 100001};
    size_t length = one_in(random, 8) ? large[below(random, 6)] : small[below(random, 10)];
    int16_t *levels = room_for(length > 1024 ? length : 1024, sizeof *levels);
    memcpy(levels, call->levels, POSITIONS * call->blocks * sizeof *levels);
    free(call->levels);
    call->levels = levels;
    call->levels_len = length;
}

/* 2 and 3: a wrong count, bad values, or both; the count is told first. */
static size_t spoil_slice(uint8_t *slice, size_t count, uint8_t least, uint8_t greatest, bool packed, Random *random)
{
    static const int off[] = {-1, 1, -2, 2, 16};
    uint64_t kind = packed ? 0 : below(random, 3);
    if (kind <= 1) {
        size_t ends[4] = {0, 1, count - 16, count - 1};
        for (uint64_t bad = between(random, 1, 3); bad > 0; bad--) {
            size_t place = one_in(random, 2) ? ends[below(random, 4)] : below(random, count);
            slice[place] = (uint8_t)between(random, least, greatest);
        }
    }
    if (kind == 0)
        return count;
    return one_in(random, 4) ? 0 : (size_t)((int64_t)count + off[below(random, 5)]);
}

/* 4: a, b, or both. */
static void spoil_price(Call *call, Random *random)
{
    static const uint64_t bad_a[] = {0, GREATEST_A + 1, UINT64_MAX, UINT64_C(1) << 32};
    static const uint64_t bad_b[] = {GREATEST_B + 1, UINT64_MAX, UINT64_C(1) << 63, 2 * GREATEST_B};
    uint64_t kind = below(random, 3);
    if (kind != 1)
        call->a = bad_a[below(random, 4)];
    if (kind != 0)
        call->b = bad_b[below(random, 4)];
}

/* 5: of the keep slice, and of the list. */
static void spoil_room(Call *call, Random *random)
{
    size_t n = call->blocks, wrong[] = {0, n - 1, n + 1, 2 * n, 8 * n, 3};
    call->keep_len = wrong[below(random, 6)];
    if (call->keep_len == n)
        call->keep_len = n + 5;
    call->list_len = 3 * below(random, call->corners + 3);
    call->list_len += (size_t)between(random, 1, 2);
}

/* 6: one to three levels out of range, and perhaps a DC beyond it, which is no fault. */
static void spoil_levels(Call *call, bool packed, Random *random)
{
    int64_t greatest = packed ? 2047 : 32767;
    for (uint64_t bad = between(random, 1, 3); bad > 0; bad--) {
        static const unsigned ends[3] = {1, 2, LAST};
        unsigned k = one_in(random, 2) ? ends[below(random, 3)] : (unsigned)between(random, 1, LAST);
        int64_t level = one_in(random, 2)   ? GREATEST_LEVEL + 1
                        : one_in(random, 2) ? greatest
                                            : between(random, GREATEST_LEVEL + 1, greatest);
        level = one_in(random, 2) ? level : level == greatest ? -level - 1 : -level;
        call->levels[POSITIONS * below(random, call->blocks) + k] = (int16_t)level;
    }
}

/* 7: no end of block, and a block that does not reach the last position. */
static void spoil_codes(Call *call, Random *random)
{
    call->lengths[END_OF_BLOCK] = 0;
    call->levels[POSITIONS * below(random, call->blocks) + LAST] = 0;
}

/* 10: bit 0, or the bit of a level that is 0. */
static void spoil_keep(Call *call, Random *random)
{
    for (uint64_t bad = between(random, 1, 3); bad > 0; bad--) {
        size_t block = below(random, call->blocks);
        unsigned k = one_in(random, 3) ? 0 : (unsigned)between(random, 1, LAST);
        if (k > 0)
            call->levels[POSITIONS * block + k] = 0;
        call->keep[block] |= UINT64_C(1) << k;
    }
}

/* From the highest number down, so that no fault mends one that comes before it. */
void call_spoil(Call *call, Faults faults, bool packed, Random *random)
{
    if (faults >> 10 & 1)
        spoil_keep(call, random);
    if (faults >> 9 & 1)
        call->budget = (uint32_t)(one_in(random, 2) ? call->least - 1 : below(random, call->least));
    if (faults >> 8 & 1)
        call->list_len = 3 * (one_in(random, 2) ? call->corners - 1 : below(random, call->corners));
    if (faults >> 7 & 1)
        spoil_codes(call, random);
    if (faults >> 6 & 1)
        spoil_levels(call, packed, random);
    if (faults >> 5 & 1)
        spoil_room(call, random);
    if (faults >> 4 & 1)
        spoil_price(call, random);
    if (faults >> 3 & 1)
        call->lengths_len = spoil_slice(call->lengths, LENGTHS, GREATEST_LENGTH + 1, packed ? 31 : 255, packed, random);
    if (faults >> 2 & 1)
        call->steps_len = spoil_slice(call->steps, POSITIONS, 0, 0, packed, random);
    if (faults >> 1 & 1)
        spoil_count(call, random);
}
