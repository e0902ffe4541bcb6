/* Stills to test with. */
#include "stills.h"

#include <stdlib.h>
#include <string.h>

const char *const large_names[LARGE_KINDS] = {"random",   "falling",   "ones", "greatest",  "longest", "equal",
                                              "parallel", "collinear", "gaps", "forced",    "photograph"};

Still made_still(const Made *made)
{
    return (Still){made->levels, POSITIONS * made->blocks, made->steps, POSITIONS, made->lengths, LENGTHS};
}

Made made_zero(size_t blocks, uint8_t step)
{
    Made made = {.blocks = blocks, .levels = room_for(POSITIONS * blocks, sizeof *made.levels)};
    memset(made.steps, step, sizeof made.steps);
    k5_lengths(made.lengths);
    return made;
}

void made_done(Made *made)
{
    free(made->levels);
}

/* ---- Small stills: few choices, and many ties among them. ---- */

static void small_lengths(Random *random, uint8_t *lengths)
{
    uint64_t kind = below(random, 6);
    if (kind == 0)
        return; /* Table K.5 stays */
    for (size_t entry = 0; entry < LENGTHS; entry++) {
        static const uint8_t least[6] = {0, 1, 1, 4, 0, 1}, greatest[6] = {0, 16, 2, 4, 16, 3};
        lengths[entry] = (uint8_t)between(random, least[kind], greatest[kind]);
        if (kind == 5 && one_in(random, 4))
            lengths[entry] = 0;
    }
    if (lengths[END_OF_BLOCK] == 0 && !one_in(random, 4))
        lengths[END_OF_BLOCK] = (uint8_t)between(random, 1, 16);
}

static void small_steps(Random *random, uint8_t *steps)
{
    static const uint8_t greatest[5] = {1, 3, 255, 255, 10};
    uint64_t kind = below(random, 5);
    for (size_t k = 0; k < POSITIONS; k++)
        steps[k] = (uint8_t)(kind >= 3 ? greatest[kind] : between(random, 1, greatest[kind]));
}

static int16_t signed_level(Random *random, int64_t level)
{
    return (int16_t)(one_in(random, 2) ? level : -level);
}

static int16_t small_level(Random *random, uint64_t kind)
{
    int64_t level = 1, less = between(random, 0, 1);
    if (kind == 1)
        level = between(random, 1, 3);
    else if (kind == 2)
        level = between(random, 1, GREATEST_LEVEL);
    else if (kind == 3) /* the ends of the sizes */
        level = (INT64_C(1) << between(random, 1, 10)) - less;
    else if (kind == 4)
        level = GREATEST_LEVEL;
    return signed_level(random, level > GREATEST_LEVEL ? GREATEST_LEVEL : level);
}

static unsigned small_position(Random *random, uint64_t kind, unsigned count)
{
    static const unsigned around_sixteen[12] = {1, 2, 15, 16, 17, 18, 32, 33, 34, 48, 49, 63};
    if (kind == 0)
        return count + 1;
    if (kind == 1)
        return around_sixteen[below(random, 12)];
    return (unsigned)between(random, 1, LAST);
}

static void small_block(Random *random, int16_t *levels, unsigned most, uint64_t level_kind)
{
    uint64_t position_kind = below(random, 3);
    unsigned count = (unsigned)below(random, most + 1);
    levels[0] = (int16_t)draw(random);
    for (unsigned i = 0; i < count; i++) {
        unsigned k = small_position(random, position_kind, i);
        levels[k] = small_level(random, level_kind);
    }
    if (count > 0 && one_in(random, 4)) {
        /* move one to the last position */
        unsigned k = LAST;
        while (levels[k] == 0)
            k--;
        levels[LAST] = levels[k];
        if (k != LAST)
            levels[k] = 0;
    }
}

Made made_small(Random *random)
{
    static const unsigned most[5] = {0, 12, 6, 4, 3};
    size_t blocks = (size_t)between(random, 1, 4);
    unsigned levels = most[blocks];
    uint64_t level_kind = below(random, 6);
    bool alike = one_in(random, 4);
    Made made = made_zero(blocks, 1);
    small_steps(random, made.steps);
    small_lengths(random, made.lengths);
    if (blocks == 1 && !one_in(random, 8))
        levels = 9; /* most of the time, since each level doubles the choices */
    for (size_t block = 0; block < blocks; block++) {
        int16_t *here = made.levels + POSITIONS * block;
        if (alike && block > 0)
            memcpy(here, made.levels, POSITIONS * sizeof *here);
        else
            small_block(random, here, levels, level_kind);
    }
    if (one_in(random, 8))
        made.lengths[SIXTEEN_ZEROS] = 0;
    if (one_in(random, 8)) {
        made.lengths[END_OF_BLOCK] = 0;
        for (size_t block = 0; block < blocks; block++)
            if (!one_in(random, 8))
                made.levels[POSITIONS * block + LAST] = small_level(random, level_kind);
    }
    return made;
}

bool sound(const Made *made)
{
    bool codable = true;
    for (size_t block = 0; block < made->blocks; block++) {
        Choice best;
        codable &= programme_best(block_of(made_still(made), block), 1, 0, &best);
    }
    return codable;
}

/* Whether a code that some level can use is missing. */
static bool has_gap(const uint8_t *lengths)
{
    bool gap = false;
    for (size_t entry = 0; entry < LENGTHS; entry++)
        gap |= lengths[entry] == 0 && entry % 16 >= 1 && entry % 16 <= 10;
    return gap;
}

void held_add(Held *held, const Made *made)
{
    uint8_t k5[LENGTHS];
    k5_lengths(k5);
    held->stills++;
    held->blocks[made->blocks]++;
    held->k5 += memcmp(made->lengths, k5, sizeof k5) == 0;
    held->gaps += has_gap(made->lengths);
    held->no_end += made->lengths[END_OF_BLOCK] == 0;
    held->no_zeros += made->lengths[SIXTEEN_ZEROS] == 0;
    held->uncodable += !sound(made);
}

Made made_sound(Random *random)
{
    for (;;) {
        Made made = made_small(random);
        if (sound(&made))
            return made;
        made_done(&made);
    }
}

/* ---- Large stills. ---- */

static int64_t large_step(Large kind, Random *random, unsigned k)
{
    if (kind == LARGE_RANDOM || kind == LARGE_GAPS)
        return between(random, 1, 255);
    if (kind == LARGE_FALLING || kind == LARGE_PHOTOGRAPH)
        return 10 + k;
    return kind == LARGE_GREATEST || kind == LARGE_LONGEST || kind == LARGE_FORCED ? 255 : 10;
}

static int64_t large_length(Large kind, Random *random, size_t entry, uint8_t k5)
{
    if (kind == LARGE_FORCED && entry % 16 == 10)
        return 0;
    if (kind == LARGE_COLLINEAR)
        return 4;
    if (kind == LARGE_LONGEST)
        return GREATEST_LENGTH;
    if (kind == LARGE_GAPS)
        return one_in(random, 5) ? 0 : between(random, 1, 16);
    return k5;
}

static int64_t large_level(Large kind, Random *random, unsigned k)
{
    switch (kind) {
    case LARGE_RANDOM:
    case LARGE_GAPS:
        return between(random, 1, GREATEST_LEVEL);
    case LARGE_EQUAL:
        return k <= 24 ? between(random, 1, GREATEST_LEVEL) : 0;
    case LARGE_FALLING:
        return 1 + (GREATEST_LEVEL - between(random, 1, 400)) / (int64_t)(k * k);
    case LARGE_GREATEST:
    case LARGE_LONGEST:
        return GREATEST_LEVEL;
    case LARGE_FORCED:
        return one_in(random, 4) ? between(random, 1, 20) : GREATEST_LEVEL;
    case LARGE_PHOTOGRAPH:
        return below(random, 63) < k * 4 ? 0 : (int64_t)any_size(random, 60) / k + 1;
    case LARGE_COLLINEAR:
        return k != LAST;
    default:
        return 1;
    }
}

/* For k from 1 to 3, a level of 1 at position k removes (k + 1)^2 of error and adds as many bits. */
static Made parallel(size_t blocks, Random *random)
{
    Made made = made_zero(blocks, 1);
    for (unsigned k = 1; k <= 3; k++) {
        made.steps[k] = (uint8_t)(k + 1);
        made.lengths[16 * (k - 1) + 1] = (uint8_t)((k + 1) * (k + 1) - 1);
    }
    for (size_t block = 0; block < blocks; block++)
        made.levels[POSITIONS * block + (size_t)between(random, 1, 3)] = 1;
    return made;
}

Made made_large(Large kind, size_t blocks, Random *random)
{
    if (kind == LARGE_PARALLEL)
        return parallel(blocks, random);
    Made made = made_zero(blocks, 1);
    for (unsigned k = 0; k < POSITIONS; k++)
        made.steps[k] = (uint8_t)large_step(kind, random, k);
    for (size_t entry = 0; entry < LENGTHS; entry++)
        made.lengths[entry] = (uint8_t)large_length(kind, random, entry, made.lengths[entry]);
    if (made.lengths[END_OF_BLOCK] == 0)
        made.lengths[END_OF_BLOCK] = 3;
    for (size_t i = 0; i < POSITIONS * blocks; i++) {
        unsigned k = (unsigned)(i % POSITIONS);
        if (k == 0)
            made.levels[i] = (int16_t)draw(random);
        else if (kind == LARGE_EQUAL && i >= POSITIONS)
            made.levels[i] = made.levels[k];
        else
            made.levels[i] = signed_level(random, large_level(kind, random, k));
    }
    return made;
}

/* ---- One bad place. ---- */

Made made_bad(Bad kind, unsigned place, Random *random)
{
    Made made = made_zero(4, 10);
    if (kind == BAD_LENGTH)
        made.lengths[place] = (uint8_t)between(random, GREATEST_LENGTH + 1, 31);
    else if (kind == BAD_STEP)
        made.steps[place % POSITIONS] = 0;
    else
        made.levels[place] = signed_level(random, between(random, GREATEST_LEVEL + 1, 2047));
    return made;
}

/* ---- Real stills. ---- */

size_t read_file(const char *folder, const char *name, uint8_t *room, size_t size)
{
    char path[1000];
    snprintf(path, sizeof path, "%s/%s", folder, name);
    FILE *file = fopen(path, "rb");
    if (file == NULL)
        return 0;
    size_t length = fread(room, 1, size, file);
    fclose(file);
    return length;
}

bool made_from_packet(const char *folder, const char *name, Made *made)
{
    static uint8_t packet[PACKET_ROOM];
    static Unpacked unpacked;
    size_t length = read_file(folder, name, packet, sizeof packet);
    if (unpack(packet, length, &unpacked).number != 0)
        return false;
    *made = made_zero(unpacked.blocks, 1);
    memcpy(made->steps, unpacked.steps, sizeof made->steps);
    memcpy(made->lengths, unpacked.lengths, sizeof made->lengths);
    memcpy(made->levels, unpacked.levels, POSITIONS * unpacked.blocks * sizeof *made->levels);
    return true;
}

/* The form of the raw samples is told in samples/README.md. */
bool made_from_raw(const char *folder, const char *name, Made *made)
{
    enum { HEAD = 8 + POSITIONS + LENGTHS };
    static uint8_t raw[HEAD + 2 * POSITIONS * MOST_BLOCKS];
    size_t length = read_file(folder, name, raw, sizeof raw);
    if (length < HEAD || memcmp(raw, "STL1", 4) != 0)
        return false;
    size_t blocks = raw[4] | (size_t)raw[5] << 8;
    if (length != HEAD + 2 * POSITIONS * blocks)
        return false;
    *made = made_zero(blocks, 1);
    memcpy(made->steps, raw + 8, POSITIONS);
    memcpy(made->lengths, raw + 8 + POSITIONS, LENGTHS);
    for (size_t i = 0; i < POSITIONS * blocks; i++) {
        int level = raw[HEAD + 2 * i] | raw[HEAD + 2 * i + 1] << 8;
        made->levels[i] = (int16_t)(level < 32768 ? level : level - 65536);
    }
    return true;
}
