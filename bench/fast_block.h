/* One block of the fast jobs: its levels gathered, the table of bits, and the search of its best choice. What pays:
   - levels that are not 0 are gathered from a mask, and the bits of every size and run are tabulated once a still;
   - one number, (a x error + b x bits) x 2048 + bits, orders choices by cost and then by bits; where it would not fit,
     cost and bits are compared one after the other;
   - a kept place that a later one beats whatever follows is forgotten, and so are the last levels while they can't pay
     for their cheapest code, so most searches are short. */
#ifndef FAST_BLOCK_H
#define FAST_BLOCK_H

#include "../tests/plain.h"

#include <stdlib.h>
#if defined __ARM_NEON
#include <arm_neon.h>
#elif defined __SSE2__
#include <emmintrin.h>
#endif

enum {
    SIZES = 11,
    ROW = 64,        /* runs in a row of the table of bits */
    NO_CODE = 4095,  /* the mark of a missing code in it */
    SCALE = 2048,    /* above the bits of any block */
    MOST_BITS = 1638 /* of a block */
};

#define FAR (UINT64_C(1) << 62)      /* above every cost and every key */
#define KEYS_FIT (UINT64_C(1) << 51) /* costs below it make keys below FAR */

/* ---- The levels of a block. ---- */

/* Bit k is set where level k is not 0; DC's bit is not. */
static inline uint64_t nonzero(const int16_t *levels)
{
    uint64_t mask = 0;
#if defined __ARM_NEON
    const uint8x16_t weights = {1, 2, 4, 8, 16, 32, 64, 128, 1, 2, 4, 8, 16, 32, 64, 128};
    uint8x16_t part[4];
    for (unsigned i = 0; i < 4; i++) {
        int16x8_t low = vld1q_s16(levels + 16 * i), high = vld1q_s16(levels + 16 * i + 8);
        uint8x16_t set = vuzp1q_u8(vreinterpretq_u8_u16(vtstq_s16(low, low)), vreinterpretq_u8_u16(vtstq_s16(high, high)));
        part[i] = vandq_u8(set, weights);
    }
    uint8x16_t sum = vpaddq_u8(vpaddq_u8(part[0], part[1]), vpaddq_u8(part[2], part[3]));
    mask = vgetq_lane_u64(vreinterpretq_u64_u8(vpaddq_u8(sum, sum)), 0);
#elif defined __SSE2__
    const __m128i zero = _mm_setzero_si128();
    for (unsigned i = 0; i < 4; i++) {
        __m128i low = _mm_cmpeq_epi16(_mm_loadu_si128((const __m128i *)(levels + 16 * i)), zero);
        __m128i high = _mm_cmpeq_epi16(_mm_loadu_si128((const __m128i *)(levels + 16 * i + 8)), zero);
        mask |= (uint64_t)(~_mm_movemask_epi8(_mm_packs_epi16(low, high)) & 0xffff) << 16 * i;
    }
#else
    for (unsigned k = 0; k < POSITIONS; k++)
        mask |= (uint64_t)(levels[k] != 0) << k;
#endif
    return mask & ~UINT64_C(1);
}

typedef struct {
    uint64_t drop; /* the error of dropping it */
    uint64_t code; /* size x 64 + place - 1: where the table of bits has its row, after a run from DC */
} Level;

static inline unsigned place_of(Level level)
{
    return (unsigned)(level.code + 1) % ROW;
}

static inline unsigned size_at(Level level)
{
    return (unsigned)level.code / ROW;
}

typedef struct {
    const Level *levels;
    unsigned count;
    uint64_t error; /* of dropping them all */
} Gathered;

static inline Gathered gather(const int16_t *levels, const uint8_t *steps, Level *room)
{
    uint64_t mask = nonzero(levels);
    Gathered gathered = {room, (unsigned)__builtin_popcountll(mask), 0};
    for (; mask != 0; mask &= mask - 1) {
        unsigned place = (unsigned)__builtin_ctzll(mask), level = (unsigned)abs(levels[place]);
        unsigned size = 32 - (unsigned)__builtin_clz(level);
        uint64_t product = (uint64_t)level * steps[place];
        *room++ = (Level){product * product, ROW * size + place - 1};
        gathered.error += product * product;
    }
    return gathered;
}

/* ---- The table of bits. ---- */

typedef struct {
    uint16_t bits[SIZES * ROW]; /* of a level of a size after a run */
    uint16_t end;               /* of the end of block */
    bool full;                  /* no code is missing; only then the rest is used */
    unsigned zeros;             /* bits of sixteen zeros */
    unsigned least[SIZES];      /* bits of a level of a size, of any size at 0 */
    unsigned gain;              /* bits that a longer run saves at most */
} Table;

static inline void tabulate(const uint8_t *lengths, Table *table)
{
    unsigned zeros = lengths[SIXTEEN_ZEROS], end = lengths[END_OF_BLOCK];
    *table = (Table){.end = (uint16_t)(end ? end : NO_CODE), .full = zeros != 0 && end != 0, .zeros = zeros,
                     .least[0] = NO_CODE};
    for (unsigned size = 1; size < SIZES; size++) {
        unsigned least = NO_CODE;
        for (unsigned run = LAST; run-- > 0;) {
            unsigned code = lengths[run % 16 * 16 + size], bits = run / 16 * zeros + code + size;
            bool missing = code == 0 || (run >= 16 && zeros == 0);
            table->full &= !missing;
            table->bits[ROW * size + run] = (uint16_t)(missing ? NO_CODE : bits);
            least = bits < least ? bits : least;
            table->gain = bits - least > table->gain ? bits - least : table->gain;
        }
        table->least[size] = least;
        table->least[0] = least < table->least[0] ? least : table->least[0];
    }
}

/* ---- The best choice of a block. ---- */

/* A price as keys have it. */
typedef struct {
    uint64_t a, b;
} Scaled;

static inline Scaled scaled(uint64_t a, uint64_t b)
{
    return (Scaled){a * SCALE, b * SCALE + 1};
}

static inline Choice choice_of(uint64_t key, uint64_t keep, uint64_t a, uint64_t b)
{
    uint64_t bits = key % SCALE;
    return (Choice){{bits, (key / SCALE - b * bits) / a}, keep};
}

/* The best choice that ends at a kept place, the end of block left out; DC's keeps nothing. */
typedef struct {
    uint64_t key, keep;
    unsigned place;
} Node;

/* The nodes that may still be gone on from, in rising place; a key of 0 stands before the first. */
typedef struct {
    uint64_t key[POSITIONS + 1], keep[POSITIONS + 1];
    unsigned place[POSITIONS + 1];
} Nodes;

/* Which of them those are: none if the last is before the first. */
typedef struct {
    unsigned first, last;
} Span;

/* The best node that ends at a level: of equal keys the earliest place, which has the smallest keep number. */
static inline Node go_on(const Nodes *nodes, Span span, Node recent, Level level, const uint16_t *row, Scaled price)
{
    uint64_t found = FAR;
    unsigned at = 0;
    for (unsigned j = span.first; j <= span.last; j++) {
        uint64_t key = nodes->key[j] + price.b * row[-(ptrdiff_t)nodes->place[j]];
        at = key < found ? j : at;
        found = key < found ? key : found;
    }
    uint64_t key = recent.key + price.b * row[-(ptrdiff_t)recent.place], keep = nodes->keep[at];
    keep = key < found ? recent.keep : keep;
    found = key < found ? key : found;
    return (Node){found - price.a * level.drop, keep | UINT64_C(1) << place_of(level), place_of(level)};
}

/* Forgets nodes that the new one beats whatever follows: a longer run saves `slack` at most, and one that is longer by
   16 or more costs sixteen zeros besides. */
static inline Span forget(Nodes *nodes, Span span, Node recent, Node node, uint64_t slack, uint64_t zeros)
{
    uint64_t bound = node.key + slack;
    if (recent.key <= bound) {
        span.last++;
        nodes->key[span.last] = recent.key;
        nodes->keep[span.last] = recent.keep;
        nodes->place[span.last] = recent.place;
    } else {
        while (nodes->key[span.last] > bound)
            span.last--;
    }
    if (span.last > span.first + 7)
        while (span.first < span.last &&
               nodes->key[span.first] + zeros * ((node.place - nodes->place[span.first]) / 16) > bound)
            nodes->key[span.first++] = 0;
    return span;
}

/* How many levels are left when the last ones that can't pay for their cheapest code are dropped. */
static inline unsigned paying(const Table *table, Gathered block, Scaled price)
{
    unsigned count = block.count;
    while (count > 0 && place_of(block.levels[count - 1]) != LAST &&
           price.a * block.levels[count - 1].drop < price.b * table->least[size_at(block.levels[count - 1])])
        count--;
    return count;
}

/* By keys, where no code is missing. */
static inline Choice search_full(const Table *table, Gathered block, uint64_t a, uint64_t b)
{
    Scaled price = scaled(a, b);
    uint64_t end = price.b * table->end, slack = price.b * table->gain, zeros = price.b * table->zeros;
    unsigned count = paying(table, block, price);
    Node recent = {price.a * block.error, 0, 0};
    uint64_t least = recent.key + end, keep = 0;
    Nodes nodes;
    Span span = {1, 0};
    nodes.key[0] = nodes.keep[0] = 0;
    for (unsigned i = 0; i < count; i++) {
        Level level = block.levels[i];
        Node node = go_on(&nodes, span, recent, level, table->bits + level.code, price);
        uint64_t whole = node.key + (node.place == LAST ? 0 : end);
        keep = whole < least ? node.keep : keep;
        least = whole < least ? whole : least;
        span = forget(&nodes, span, recent, node, slack, zeros);
        recent = node;
    }
    return choice_of(least, keep, a, b);
}

/* By keys, where codes are missing; false: no choice is codable. */
static inline bool search_gaps(const Table *table, Gathered block, uint64_t a, uint64_t b, Choice *best)
{
    Scaled price = scaled(a, b);
    Node nodes[POSITIONS] = {{price.a * block.error, 0, 0}};
    unsigned count = 1;
    uint64_t end = table->end == NO_CODE ? FAR : price.b * table->end, least = nodes[0].key + end, keep = 0;
    for (unsigned i = 0; i < block.count; i++) {
        Level level = block.levels[i];
        const uint16_t *row = table->bits + level.code;
        uint64_t found = FAR;
        unsigned at = 0;
        for (unsigned j = 0; j < count; j++) {
            unsigned bits = row[-(ptrdiff_t)nodes[j].place];
            uint64_t key = bits == NO_CODE ? FAR : nodes[j].key + price.b * bits;
            at = key < found ? j : at;
            found = key < found ? key : found;
        }
        if (found == FAR)
            continue;
        unsigned place = place_of(level);
        nodes[count] = (Node){found - price.a * level.drop, nodes[at].keep | UINT64_C(1) << place, place};
        uint64_t whole = nodes[count].key + (place == LAST ? 0 : end);
        keep = whole < least ? nodes[count].keep : keep;
        least = whole < least ? whole : least;
        count++;
    }
    *best = choice_of(least, keep, a, b);
    return least < FAR;
}

typedef struct {
    uint64_t cost, bits, keep;
    unsigned place;
} Wide;

/* The first of the nodes to go on from, by cost, bits and place; the cost is FAR if there is none. */
static inline Wide first_wide(const Wide *nodes, unsigned count, const uint16_t *row, uint64_t b)
{
    Wide first = {FAR, 0, 0, 0};
    for (unsigned j = 0; j < count; j++) {
        unsigned more = row[-(ptrdiff_t)nodes[j].place];
        uint64_t cost = more == NO_CODE ? FAR : nodes[j].cost + b * more, bits = nodes[j].bits + more;
        if (cost < first.cost || (cost == first.cost && cost < FAR && bits < first.bits))
            first = (Wide){cost, bits, nodes[j].keep, nodes[j].place};
    }
    return first;
}

/* By cost and bits, where keys don't fit. */
static inline bool search_wide(const Table *table, Gathered block, uint64_t a, uint64_t b, Choice *best)
{
    Wide nodes[POSITIONS] = {{a * block.error, 0, 0, 0}};
    unsigned count = 1;
    uint16_t ends[POSITIONS]; /* a row for the end of block: place 63 needs none */
    for (unsigned i = 0; i < POSITIONS; i++)
        ends[i] = i == 0 ? 0 : table->end;
    for (unsigned i = 0; i < block.count; i++) {
        Level level = block.levels[i];
        Wide node = first_wide(nodes, count, table->bits + level.code, b);
        if (node.cost == FAR)
            continue;
        node.place = place_of(level);
        node.keep |= UINT64_C(1) << node.place;
        node.cost -= a * level.drop;
        nodes[count++] = node;
    }
    Wide whole = first_wide(nodes, count, ends + LAST, b);
    *best = (Choice){{whole.bits, (whole.cost - b * whole.bits) / a}, whole.keep};
    return whole.cost < FAR;
}

/* False: no choice is codable. Beyond a x error one bit more is dearer than all error, so b changes nothing there. */
static inline bool search(const Table *table, Gathered block, uint64_t a, uint64_t b, Choice *best)
{
    uint64_t all = a * block.error;
    b = b <= all ? b : all + 1;
    if (all + b * MOST_BITS >= KEYS_FIT)
        return search_wide(table, block, a, b, best);
    if (!table->full)
        return search_gaps(table, block, a, b, best);
    *best = search_full(table, block, a, b);
    return true;
}

#endif
