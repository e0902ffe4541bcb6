/* The straightforward way for large stills: a dynamic programme for a block, edges sorted by slope. */
#include "plain.h"

#include <stdlib.h>
#include <string.h>

/* A choice and what it costs so far. */
typedef struct {
    Cost cost;
    Choice choice;
    bool any; /* false: there is none */
} Weighed;

/* The best choice of a block that ends with each position (0 for DC: keeps nothing), what comes after it left out. */
typedef struct {
    Weighed ending[POSITIONS];
    uint64_t error[POSITIONS + 1]; /* of dropping every position below this one */
} Table;

/* The order of choices: cost, then bits, then keep number. */
static bool comes_first(Weighed x, const Weighed *y)
{
    if (!y->any || x.cost != y->cost)
        return !y->any || x.cost < y->cost;
    if (x.choice.pair.bits != y->choice.pair.bits)
        return x.choice.pair.bits < y->choice.pair.bits;
    return x.choice.keep < y->choice.keep;
}

static void add(Weighed *weighed, uint64_t bits, uint64_t error, uint64_t a, uint64_t b)
{
    weighed->choice.pair.bits += bits;
    weighed->choice.pair.error += error;
    weighed->cost += (Cost)a * error + (Cost)b * bits;
}

/* The best of all ways to keep position k, by the kept position before it. */
static Weighed best_ending(Block block, const Table *table, unsigned k, uint64_t a, uint64_t b)
{
    unsigned size = size_of(block.levels[k]), zeros = block.lengths[SIXTEEN_ZEROS];
    Weighed best = {.any = false};
    for (unsigned j = 0; j < k; j++) {
        unsigned run = k - j - 1, code = block.lengths[run % 16 * 16 + size];
        if (!table->ending[j].any || code == 0 || (run >= 16 && zeros == 0))
            continue;
        Weighed candidate = table->ending[j];
        add(&candidate, run / 16 * zeros + code + size, table->error[k] - table->error[j + 1], a, b);
        candidate.choice.keep |= UINT64_C(1) << k;
        if (comes_first(candidate, &best))
            best = candidate;
    }
    return best;
}

static void fill(Block block, Table *table, uint64_t a, uint64_t b)
{
    memset(table, 0, sizeof *table);
    table->ending[0].any = true;
    for (unsigned k = 1; k <= LAST; k++) {
        uint64_t dropped = (uint64_t)abs(block.levels[k] * block.steps[k]);
        table->error[k + 1] = table->error[k] + dropped * dropped;
        if (dropped != 0)
            table->ending[k] = best_ending(block, table, k, a, b);
    }
}

bool programme_best(Block block, uint64_t a, uint64_t b, Choice *choice)
{
    Table table;
    Weighed best = {.any = false};
    fill(block, &table, a, b);
    for (unsigned j = 0; j <= LAST; j++) {
        Weighed candidate = table.ending[j];
        uint8_t end = block.lengths[END_OF_BLOCK];
        if (!candidate.any || (j < LAST && end == 0))
            continue;
        add(&candidate, j < LAST ? end : 0, table.error[POSITIONS] - table.error[j + 1], a, b);
        if (comes_first(candidate, &best))
            best = candidate;
    }
    *choice = best.choice;
    return best.any;
}

/* The way of one block from a corner to its next. */
typedef struct {
    uint64_t run, fall; /* bits more, error less */
    size_t block, order;
    Choice to;
} Edge;

typedef struct {
    Edge *at;
    size_t count, room;
} Edges;

static void edges_add(Edges *edges, Choice from, Choice to, size_t block)
{
    if (edges->count == edges->room) {
        edges->room = edges->room ? 2 * edges->room : 64;
        Edge *longer = room_for(edges->room, sizeof *longer);
        if (edges->count > 0)
            memcpy(longer, edges->at, edges->count * sizeof *longer);
        free(edges->at);
        edges->at = longer;
    }
    edges->at[edges->count] = (Edge){to.pair.bits - from.pair.bits, from.pair.error - to.pair.error,
                                     block, edges->count, to};
    edges->count++;
}

/* At the price that makes both ends cost the same, either nothing is cheaper, or a corner lies between. */
static void divide(Edges *edges, Still still, size_t block, Choice left, Choice right)
{
    if (left.pair.bits == right.pair.bits)
        return;
    uint64_t a = right.pair.bits - left.pair.bits, b = left.pair.error - right.pair.error;
    Choice between;
    programme_best(block_of(still, block), a, b, &between);
    if (cost_of(between.pair, a, b) == cost_of(left.pair, a, b)) {
        edges_add(edges, left, right, block);
        return;
    }
    divide(edges, still, block, left, between);
    divide(edges, still, block, between, right);
}

/* Steeper edges first. */
static int by_slope(const void *left, const void *right)
{
    const Edge *x = left, *y = right;
    Cost fall_x = (Cost)x->fall * y->run, fall_y = (Cost)y->fall * x->run;
    if (fall_x != fall_y)
        return fall_x > fall_y ? -1 : 1;
    return (x->order > y->order) - (x->order < y->order);
}

static bool same_slope(Edge x, Edge y)
{
    return (Cost)x.fall * y.run == (Cost)y.fall * x.run;
}

/* Walks down the sorted edges; those of one slope lead to one corner. */
static void walk(Stops *stops, Edges edges, Point start, uint64_t *keep)
{
    Point here = start;
    for (size_t i = 0; i < edges.count; i++) {
        Edge edge = edges.at[i];
        if (i == 0 || !same_slope(edges.at[i - 1], edge))
            stops_add(stops, here);
        here.bits += edge.run;
        here.error -= edge.fall;
        here.kept = here.kept + ones(edge.to.keep) - ones(keep[edge.block]);
        keep[edge.block] = edge.to.keep;
        stops_move(stops, edge.block, edge.to.keep);
    }
    stops_add(stops, here);
}

Stops stops_by_programme(Still still)
{
    size_t blocks = still.levels_len / POSITIONS;
    uint64_t *keep = room_for(blocks, sizeof *keep);
    Edges edges = {.count = 0};
    Stops stops = {.count = 0};
    Point start = {0, 0, 0};
    for (size_t block = 0; block < blocks; block++) {
        Choice first, last;
        programme_best(block_of(still, block), 1, GREATEST_BLOCK_ERROR + 1, &first);
        programme_best(block_of(still, block), 1, 0, &last);
        keep[block] = first.keep;
        stops_move(&stops, block, first.keep);
        start.bits += first.pair.bits;
        start.error += first.pair.error;
        start.kept += ones(first.keep);
        divide(&edges, still, block, first, last);
    }
    if (edges.count > 0)
        qsort(edges.at, edges.count, sizeof *edges.at, by_slope);
    walk(&stops, edges, start, keep);
    free(edges.at);
    free(keep);
    return stops;
}
