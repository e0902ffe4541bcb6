/* Document 01's definitions by enumeration: all choices of a block, all attainable pairs, the corners. */
#include "plain.h"

#include <stdlib.h>

/* Adds one code and the bits behind it; false when the code does not exist. */
static bool append(uint64_t *bits, uint8_t length, unsigned behind)
{
    *bits += length + behind;
    return length != 0;
}

/* Codes the choice as T.81, Figures F.2 and F.3, do: walk the positions, count the run of zeros. */
bool choice_bits(Block block, uint64_t keep, uint64_t *bits)
{
    unsigned run = 0;
    *bits = 0;
    for (unsigned k = 1; k <= LAST; k++) {
        if (!(keep >> k & 1)) {
            run++;
            continue;
        }
        for (; run > 15; run -= 16)
            if (!append(bits, block.lengths[SIXTEEN_ZEROS], 0))
                return false;
        unsigned size = size_of(block.levels[k]);
        if (!append(bits, block.lengths[16 * run + size], size))
            return false;
        run = 0;
    }
    return run == 0 || append(bits, block.lengths[END_OF_BLOCK], 0);
}

uint64_t choice_error(Block block, uint64_t keep)
{
    uint64_t error = 0;
    for (unsigned k = 1; k <= LAST; k++)
        if (!(keep >> k & 1)) {
            int64_t dropped = (int64_t)block.levels[k] * block.steps[k];
            error += (uint64_t)(dropped * dropped);
        }
    return error;
}

/* Every codable choice, in falling keep numbers. */
Choices choices_of(Block block)
{
    uint64_t nonzero = 0;
    for (unsigned k = 1; k <= LAST; k++)
        if (block.levels[k] != 0)
            nonzero |= UINT64_C(1) << k;
    Choices choices = {room_for((size_t)1 << ones(nonzero), sizeof *choices.at), 0};
    uint64_t keep = nonzero;
    for (;;) {
        Choice choice = {{0, choice_error(block, keep)}, keep};
        if (choice_bits(block, keep, &choice.pair.bits))
            choices.at[choices.count++] = choice;
        if (keep == 0)
            return choices;
        keep = (keep - 1) & nonzero;
    }
}

Choice choices_best(Choices choices, uint64_t a, uint64_t b)
{
    Choice best = choices.at[0];
    for (size_t i = 1; i < choices.count; i++)
        if (before(choices.at[i], best, a, b))
            best = choices.at[i];
    return best;
}

static int by_bits_then_error(const void *left, const void *right)
{
    const Pair *x = left, *y = right;
    if (x->bits != y->bits)
        return x->bits < y->bits ? -1 : 1;
    return (x->error > y->error) - (x->error < y->error);
}

/* Sorts, and keeps one of each. */
static void make_set(Pairs *pairs)
{
    size_t kept = 0;
    qsort(pairs->at, pairs->count, sizeof *pairs->at, by_bits_then_error);
    for (size_t i = 0; i < pairs->count; i++)
        if (kept == 0 || by_bits_then_error(&pairs->at[kept - 1], &pairs->at[i]) != 0)
            pairs->at[kept++] = pairs->at[i];
    pairs->count = kept;
}

/* The set of all sums of one codable choice for every block. */
Pairs attainable(const Choices *blocks, size_t count)
{
    Pairs sums = {room_for(1, sizeof *sums.at), 1};
    for (size_t block = 0; block < count; block++) {
        Choices choices = blocks[block];
        Pairs longer = {room_for(sums.count * choices.count, sizeof *longer.at), 0};
        for (size_t i = 0; i < sums.count; i++)
            for (size_t j = 0; j < choices.count; j++) {
                Pair sum = {sums.at[i].bits + choices.at[j].pair.bits, sums.at[i].error + choices.at[j].pair.error};
                longer.at[longer.count++] = sum;
            }
        free(sums.at);
        sums = longer;
        make_set(&sums);
    }
    return sums;
}

/* Whether the middle one lies strictly below the line from left to right. */
static bool below_line(Pair left, Pair middle, Pair right)
{
    Signed run = (Signed)right.bits - left.bits, fall = (Signed)left.error - right.error;
    Signed part = (Signed)middle.bits - left.bits, fallen = (Signed)left.error - middle.error;
    return fallen * run > fall * part;
}

/* The lower left hull of a set of pairs: strictly falling error, strictly flattening. */
Pairs corners_of(Pairs pairs)
{
    Pairs corners = {room_for(pairs.count, sizeof *corners.at), 0};
    for (size_t i = 0; i < pairs.count; i++) {
        Pair next = pairs.at[i];
        if (corners.count > 0 && next.error >= corners.at[corners.count - 1].error)
            continue;
        while (corners.count >= 2 &&
               !below_line(corners.at[corners.count - 2], corners.at[corners.count - 1], next))
            corners.count--;
        corners.at[corners.count++] = next;
    }
    return corners;
}

/* Two positive prices at which this corner is strictly cheaper than its neighbours: between their slopes. */
void corner_price(Pairs corners, size_t corner, uint64_t *a, uint64_t *b)
{
    Pair here = corners.at[corner];
    *a = *b = 0;
    if (corner > 0) {
        *a += here.bits - corners.at[corner - 1].bits;
        *b += corners.at[corner - 1].error - here.error;
    } else {
        *b += 1;
    }
    if (corner + 1 < corners.count) {
        *a += corners.at[corner + 1].bits - here.bits;
        *b += here.error - corners.at[corner + 1].error;
    } else {
        *a += 1;
    }
}

Stops stops_by_definition(const Choices *blocks, size_t count)
{
    Stops stops = {.count = 0};
    Pairs pairs = attainable(blocks, count);
    Pairs corners = corners_of(pairs);
    for (size_t corner = 0; corner < corners.count; corner++) {
        Point point = {corners.at[corner].bits, corners.at[corner].error, 0};
        uint64_t a, b;
        corner_price(corners, corner, &a, &b);
        for (size_t block = 0; block < count; block++) {
            Choice best = choices_best(blocks[block], a, b);
            stops_move(&stops, block, best.keep);
            point.kept += ones(best.keep);
        }
        stops_add(&stops, point);
    }
    free(pairs.at);
    free(corners.at);
    return stops;
}
