/* The checks of document 01 in their fixed order, and the price, list, budget and thinning jobs. */
#include "plain.h"

#include <stdlib.h>
#include <string.h>

static const Answer fine = {0, 0, 0, 0};

static Answer refuse(uint64_t number, uint64_t first, uint64_t second)
{
    return (Answer){number, first, second, 0};
}

void *room_for(size_t count, size_t size)
{
    void *room = calloc(count ? count : 1, size);
    if (room == NULL) {
        fputs("plain: out of memory\n", stderr);
        exit(2);
    }
    return room;
}

Block block_of(Still still, size_t block)
{
    return (Block){still.levels + POSITIONS * block, still.steps, still.lengths};
}

/* The least s with |level| < 2^s. */
unsigned size_of(int level)
{
    unsigned size = 0;
    while (abs(level) >= 1 << size)
        size++;
    return size;
}

unsigned ones(uint64_t keep)
{
    unsigned count = 0;
    for (; keep != 0; keep &= keep - 1)
        count++;
    return count;
}

Cost cost_of(Pair pair, uint64_t a, uint64_t b)
{
    return (Cost)a * pair.error + (Cost)b * pair.bits;
}

bool before(Choice x, Choice y, uint64_t a, uint64_t b)
{
    Cost cost_x = cost_of(x.pair, a, b), cost_y = cost_of(y.pair, a, b);
    if (cost_x != cost_y)
        return cost_x < cost_y;
    if (x.pair.bits != y.pair.bits)
        return x.pair.bits < y.pair.bits;
    return x.keep < y.keep;
}

/* ---- The checks, by number. ---- */

static Answer check_count(size_t levels_len)
{
    size_t blocks = levels_len / POSITIONS;
    if (levels_len % POSITIONS != 0 || blocks < 1 || blocks > MOST_BLOCKS)
        return refuse(1, levels_len, 0);
    return fine;
}

static Answer check_steps(Still still)
{
    if (still.steps_len != POSITIONS)
        return refuse(2, POSITIONS, 0);
    for (size_t k = 0; k < POSITIONS; k++)
        if (still.steps[k] == 0)
            return refuse(2, k, 0);
    return fine;
}

static Answer check_lengths(Still still)
{
    if (still.lengths_len != LENGTHS)
        return refuse(3, LENGTHS, 0);
    for (size_t entry = 0; entry < LENGTHS; entry++)
        if (still.lengths[entry] > GREATEST_LENGTH)
            return refuse(3, entry, 0);
    return fine;
}

static Answer check_price(uint64_t a, uint64_t b)
{
    if (a < 1 || a > GREATEST_A)
        return refuse(4, 1, 0);
    if (b > GREATEST_B)
        return refuse(4, 2, 0);
    return fine;
}

static Answer check_room(bool right, size_t length)
{
    return right ? fine : refuse(5, length, 0);
}

static Answer check_levels(const int16_t *levels, size_t levels_len)
{
    for (size_t i = 0; i < levels_len; i++)
        if (i % POSITIONS != 0 && abs(levels[i]) > GREATEST_LEVEL)
            return refuse(6, i / POSITIONS, i % POSITIONS);
    return fine;
}

static bool has_codable_choice(Plain *plain, size_t block)
{
    Choice best;
    if (plain->way == BY_PROGRAMME)
        return programme_best(block_of(plain->still, block), 1, 0, &best);
    return plain->choices[block].count > 0;
}

/* Looks once, since every price of a still asks. */
static Answer check_codable(Plain *plain)
{
    size_t block = 0, blocks = plain->still.levels_len / POSITIONS;
    if (!plain->looked) {
        while (block < blocks && has_codable_choice(plain, block))
            block++;
        plain->codable = block < blocks ? refuse(7, block, 0) : fine;
    }
    plain->looked = true;
    return plain->codable;
}

static Answer check_keep(const int16_t *levels, size_t blocks, const uint64_t *keep)
{
    for (size_t block = 0; block < blocks; block++)
        for (size_t k = 0; k < POSITIONS; k++)
            if ((keep[block] >> k & 1) && (k == 0 || levels[POSITIONS * block + k] == 0))
                return refuse(10, block, k);
    return fine;
}

/* ---- The checks, in order. ---- */

/* Enumerates the choices of every block, once, when all is known to be in range. */
static void enumerate(Plain *plain)
{
    size_t blocks = plain->still.levels_len / POSITIONS;
    if (plain->way != BY_DEFINITION || plain->choices != NULL)
        return;
    plain->choices = room_for(blocks, sizeof *plain->choices);
    for (size_t block = 0; block < blocks; block++)
        plain->choices[block] = choices_of(block_of(plain->still, block));
}

/* 1 to 7; the caller says what it knows of 4 and 5. */
static Answer check_all(Plain *plain, Answer price, bool room_is_right, size_t room)
{
    Still still = plain->still;
    Answer told = check_count(still.levels_len);
    if (told.number == 0)
        told = check_steps(still);
    if (told.number == 0)
        told = check_lengths(still);
    if (told.number == 0)
        told = price;
    if (told.number == 0)
        told = check_room(room_is_right, room);
    if (told.number == 0)
        told = check_levels(still.levels, still.levels_len);
    if (told.number == 0) {
        enumerate(plain);
        told = check_codable(plain);
    }
    return told;
}

/* ---- The jobs. ---- */

Plain plain_of(Still still, Way way)
{
    return (Plain){.still = still, .way = way};
}

void plain_done(Plain *plain)
{
    if (plain->choices != NULL)
        for (size_t block = 0; block < plain->still.levels_len / POSITIONS; block++)
            free(plain->choices[block].at);
    free(plain->choices);
    plain->choices = NULL;
    stops_done(&plain->stops);
}

const Stops *plain_stops(Plain *plain)
{
    enumerate(plain);
    if (plain->stops.count == 0)
        plain->stops = plain->way == BY_DEFINITION
                           ? stops_by_definition(plain->choices, plain->still.levels_len / POSITIONS)
                           : stops_by_programme(plain->still);
    return &plain->stops;
}

static Choice best_of(Plain *plain, size_t block, uint64_t a, uint64_t b)
{
    Choice best = {{0, 0}, 0};
    if (plain->way == BY_DEFINITION)
        return choices_best(plain->choices[block], a, b);
    programme_best(block_of(plain->still, block), a, b, &best);
    return best;
}

Answer plain_price(Plain *plain, uint64_t a, uint64_t b, uint64_t *keep, size_t keep_len)
{
    size_t blocks = plain->still.levels_len / POSITIONS;
    Answer told = check_all(plain, check_price(a, b), keep_len == blocks, keep_len);
    if (told.number != 0)
        return told;
    for (size_t block = 0; block < blocks; block++) {
        Choice best = best_of(plain, block, a, b);
        keep[block] = best.keep;
        told.first += best.pair.bits;
        told.second += best.pair.error;
        told.third += ones(best.keep);
    }
    return told;
}

Answer plain_list(Plain *plain, uint64_t *list, size_t list_len)
{
    Answer told = check_all(plain, fine, list_len % 3 == 0, list_len);
    if (told.number != 0)
        return told;
    const Stops *stops = plain_stops(plain);
    if (list_len / 3 < stops->count)
        return refuse(8, stops->count, 0);
    for (size_t corner = 0; corner < stops->count; corner++) {
        list[3 * corner] = stops->corners[corner].bits;
        list[3 * corner + 1] = stops->corners[corner].error;
        list[3 * corner + 2] = stops->corners[corner].kept;
    }
    return (Answer){0, stops->count, 0, 0};
}

Answer plain_fit(Plain *plain, uint32_t budget, uint64_t *keep, size_t keep_len)
{
    size_t blocks = plain->still.levels_len / POSITIONS;
    Answer told = check_all(plain, fine, keep_len == blocks, keep_len);
    if (told.number != 0)
        return told;
    const Stops *stops = plain_stops(plain);
    if (stops->corners[0].bits > budget)
        return refuse(9, stops->corners[0].bits, 0);
    size_t chosen = 0;
    while (chosen + 1 < stops->count && stops->corners[chosen + 1].bits <= budget)
        chosen++;
    stops_keep(stops, chosen, keep);
    Point corner = stops->corners[chosen];
    return (Answer){0, corner.bits, corner.error, corner.kept};
}

Answer plain_thin(int16_t *levels, size_t levels_len, const uint64_t *keep, size_t keep_len)
{
    Answer told = check_count(levels_len);
    if (told.number == 0)
        told = check_room(keep_len == levels_len / POSITIONS, keep_len);
    if (told.number == 0)
        told = check_levels(levels, levels_len);
    if (told.number == 0)
        told = check_keep(levels, keep_len, keep);
    if (told.number != 0)
        return told;
    for (size_t block = 0; block < keep_len; block++) {
        told.first += ones(keep[block]);
        for (size_t k = 1; k < POSITIONS; k++)
            if (!(keep[block] >> k & 1))
                levels[POSITIONS * block + k] = 0;
    }
    return told;
}
