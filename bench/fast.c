/* The four jobs without proofs, as fast as we can write them; fast_block.h has what is done to one block. Beyond that,
   both ends of a block's corners are known without a search, slopes are whole numbers and sorted byte by byte, and a
   budget is met by prices at which the blocks' chords meet it, blocks that choose alike at both ends left out. */
#include "fast.h"

#include "fast_block.h"

#include <string.h>

static const Answer accepted = {0, 0, 0, 0};

static Answer refused(uint64_t number, uint64_t first, uint64_t second)
{
    return (Answer){number, first, second, 0};
}

/* ---- The checks, in the order of their numbers. ---- */

static inline unsigned is_outside(int16_t level)
{
    return (uint16_t)(level + GREATEST_LEVEL) > 2 * GREATEST_LEVEL;
}

static bool in_range(const int16_t *levels)
{
    uint16_t outside = 0;
    for (unsigned k = 0; k < POSITIONS; k++)
        outside = (uint16_t)(outside + is_outside(levels[k]));
    return outside == is_outside(levels[0]);
}

static Answer check_levels(const int16_t *levels, size_t blocks)
{
    for (size_t block = 0; block < blocks; block++)
        if (!in_range(levels + POSITIONS * block))
            for (size_t k = 1; k < POSITIONS; k++)
                if (is_outside(levels[POSITIONS * block + k]))
                    return refused(6, block, k);
    return accepted;
}

static bool is_count(size_t levels_len)
{
    return levels_len % POSITIONS == 0 && levels_len >= POSITIONS && levels_len <= POSITIONS * MOST_BLOCKS;
}

static Answer check_tables(Still still)
{
    if (!is_count(still.levels_len))
        return refused(1, still.levels_len, 0);
    if (still.steps_len != POSITIONS)
        return refused(2, POSITIONS, 0);
    for (size_t k = 0; k < POSITIONS; k++)
        if (still.steps[k] == 0)
            return refused(2, k, 0);
    if (still.lengths_len != LENGTHS)
        return refused(3, LENGTHS, 0);
    for (size_t entry = 0; entry < LENGTHS; entry++)
        if (still.lengths[entry] > GREATEST_LENGTH)
            return refused(3, entry, 0);
    return accepted;
}

/* ---- The price job. ---- */

static Answer check_price(Still still, uint64_t a, uint64_t b, size_t keep_len)
{
    Answer told = check_tables(still);
    if (told.number != 0)
        return told;
    if (a < 1 || a > GREATEST_A)
        return refused(4, 1, 0);
    if (b > GREATEST_B)
        return refused(4, 2, 0);
    if (keep_len != still.levels_len / POSITIONS)
        return refused(5, keep_len, 0);
    return check_levels(still.levels, keep_len);
}

/* Decides a block; false: no choice is codable. */
typedef bool Decide(const void *table, Gathered block, uint64_t a, uint64_t b, Choice *best);

__attribute__((always_inline)) static inline Answer price_blocks(Still still, uint64_t a, uint64_t b, uint64_t *keep, size_t keep_len, const void *table,
                                  Decide *decide)
{
    Answer told = accepted;
    Level room[POSITIONS];
    uint64_t chosen[MOST_BLOCKS];
    for (size_t block = 0; block < keep_len; block++) {
        Choice best;
        if (!decide(table, gather(still.levels + POSITIONS * block, still.steps, room), a, b, &best))
            return refused(7, block, 0);
        chosen[block] = best.keep;
        told.first += best.pair.bits;
        told.second += best.pair.error;
        told.third += (unsigned)__builtin_popcountll(best.keep);
    }
    memcpy(keep, chosen, keep_len * sizeof *keep);
    return told;
}

static inline bool decide_fast(const void *table, Gathered block, uint64_t a, uint64_t b, Choice *best)
{
    return search(table, block, a, b, best);
}

Answer fast_price(Still still, uint64_t a, uint64_t b, uint64_t *keep, size_t keep_len)
{
    Answer told = check_price(still, a, b, keep_len);
    if (told.number != 0)
        return told;
    Table table;
    tabulate(still.lengths, &table);
    return price_blocks(still, a, b, keep, keep_len, &table, decide_fast);
}

/* ---- The price job by a plain table search, where nothing is forgotten: to tell what forgetting brings. ---- */

typedef struct {
    Table table;
    uint64_t costs[SIZES * ROW]; /* scaled b times bits */
} Costs;

typedef struct {
    uint64_t key;
    size_t at;
} Least;

/* The least key to go on from, the first of equal ones; two by two, since each comparison waits for the one before. */
static inline Least least_of(const uint64_t *key, const ptrdiff_t *back, const uint64_t *row, size_t count)
{
    uint64_t even = FAR, odd = FAR;
    size_t even_at = 0, odd_at = 0, j = 0;
    for (; j + 1 < count; j += 2) {
        uint64_t one = key[j] + row[back[j]], other = key[j + 1] + row[back[j + 1]];
        even_at = one < even ? j : even_at;
        even = one < even ? one : even;
        odd_at = other < odd ? j + 1 : odd_at;
        odd = other < odd ? other : odd;
    }
    if (j < count) {
        uint64_t one = key[j] + row[back[j]];
        even_at = one < even ? j : even_at;
        even = one < even ? one : even;
    }
    bool is_odd = odd < even || (odd == even && odd_at < even_at);
    return is_odd ? (Least){odd, odd_at} : (Least){even, even_at};
}

static inline bool decide_by_table(const void *costs, Gathered block, uint64_t a, uint64_t b, Choice *best)
{
    const Costs *from = costs;
    uint64_t all = a * block.error, key[POSITIONS], keep[POSITIONS];
    ptrdiff_t back[POSITIONS];
    if (!from->table.full || b > all || all + b * MOST_BITS >= KEYS_FIT)
        return search(&from->table, block, a, b, best);
    Scaled price = scaled(a, b);
    uint64_t end = price.b * from->table.end, least = price.a * block.error + end, kept = 0;
    key[0] = price.a * block.error;
    keep[0] = 0;
    back[0] = 0;
    for (size_t i = 0; i < block.count; i++) {
        Level level = block.levels[i];
        unsigned place = place_of(level);
        Least found = least_of(key, back, from->costs + level.code, i + 1);
        key[i + 1] = found.key - price.a * level.drop;
        keep[i + 1] = keep[found.at] | UINT64_C(1) << place;
        back[i + 1] = -(ptrdiff_t)place;
        uint64_t whole = key[i + 1] + (place == LAST ? 0 : end);
        kept = whole < least ? keep[i + 1] : kept;
        least = whole < least ? whole : least;
    }
    *best = choice_of(least, kept, a, b);
    return true;
}

Answer table_price(Still still, uint64_t a, uint64_t b, uint64_t *keep, size_t keep_len)
{
    Answer told = check_price(still, a, b, keep_len);
    if (told.number != 0)
        return told;
    Costs costs;
    tabulate(still.lengths, &costs.table);
    for (unsigned i = 0; i < SIZES * ROW; i++)
        costs.costs[i] = scaled(a, b).b * costs.table.bits[i];
    return price_blocks(still, a, b, keep, keep_len, &costs, decide_by_table);
}

/* ---- The ends of a block's corners. ---- */

/* Whether keeping place 63 may take as few bits as the end of block: alone, or with a kept place before it. */
static bool may_save_end(const Table *table, Gathered block)
{
    if (block.count == 0 || place_of(block.levels[block.count - 1]) != LAST)
        return false;
    Level last = block.levels[block.count - 1];
    return table->end >= table->bits[last.code] || table->end >= table->least[size_at(last)] + table->least[0];
}

/* The corner with fewest bits: nothing is kept, as a rule. */
static bool first_corner(const Table *table, Gathered block, Choice *first)
{
    if (!table->full || may_save_end(table, block))
        return search(table, block, 1, block.error + 1, first);
    *first = (Choice){{table->end, block.error}, 0};
    return true;
}

/* The corner with most bits: all is kept, where no code is missing. */
static bool last_corner(const Table *table, Gathered block, Choice *last)
{
    if (!table->full)
        return search(table, block, 1, 0, last);
    *last = (Choice){{0, 0}, 0};
    unsigned before = 0;
    for (unsigned i = 0; i < block.count; i++) {
        last->pair.bits += table->bits[block.levels[i].code - before];
        before = place_of(block.levels[i]);
        last->keep |= UINT64_C(1) << before;
    }
    last->pair.bits += before == LAST ? 0 : table->end;
    return true;
}

/* ---- The list job. ---- */

/* The way of a block from a corner to its next: bits more, error less, coefficients more. */
typedef struct {
    uint64_t slope;     /* equal where fall / run is, greater where it is */
    uint64_t fall : 43; /* together in one word */
    uint64_t run : 11;
    int64_t kept : 8;
} Edge;

typedef struct {
    Edge *at;
    size_t count, room;
    uint64_t longest; /* run */
} Edges;

static void edges_add(Edges *edges, Choice from, Choice to)
{
    if (edges->count == edges->room) {
        edges->room = edges->room ? 2 * edges->room : 4096;
        edges->at = realloc(edges->at, edges->room * sizeof *edges->at);
        if (edges->at == NULL)
            abort();
    }
    uint64_t run = to.pair.bits - from.pair.bits;
    edges->longest = run > edges->longest ? run : edges->longest;
    edges->at[edges->count++] = (Edge){.fall = from.pair.error - to.pair.error,
                                       .run = run,
                                       .kept = __builtin_popcountll(to.keep) - __builtin_popcountll(from.keep)};
}

/* At the price that makes both ends cost the same, either nothing is cheaper, or a corner lies between. */
static void divide(Edges *edges, const Table *table, Gathered block, Choice left, Choice last)
{
    Choice rights[MOST_BITS + 1];
    size_t depth = 0;
    rights[depth++] = last;
    while (depth > 0) {
        Choice right = rights[depth - 1], between;
        uint64_t a = right.pair.bits - left.pair.bits, b = left.pair.error - right.pair.error;
        if (a == 0)
            return;
        search(table, block, a, b, &between);
        if (between.pair.bits == left.pair.bits) {
            edges_add(edges, left, right);
            left = right;
            depth--;
        } else {
            rights[depth++] = between;
        }
    }
}

/* Two slopes that differ do so by 1 / longest^2 at least, so as many digits behind the point keep them apart. */
static void measure(Edges *edges)
{
    unsigned digits = 0;
    while (UINT64_C(1) << digits <= edges->longest * edges->longest)
        digits++;
    for (size_t i = 0; i < edges->count; i++)
        edges->at[i].slope = (uint64_t)edges->at[i].fall << digits;
    for (size_t i = 0; i < edges->count; i++)
        edges->at[i].slope /= edges->at[i].run;
}

/* Steeper edges first, byte by byte from the least significant. */
static void sort(Edges *edges)
{
    size_t places[8][256] = {{0}}, count = edges->count;
    Edge *from = edges->at, *to = malloc((count + 1) * sizeof *to), *spare = to;
    if (to == NULL)
        abort();
    for (size_t i = 0; i < count; i++)
        for (unsigned byte = 0; byte < 8; byte++)
            places[byte][~(from[i].slope >> 8 * byte) & 255]++;
    for (unsigned byte = 0; byte < 8; byte++) {
        size_t next = 0;
        if (places[byte][~(count ? from[0].slope >> 8 * byte : 0) & 255] == count)
            continue;
        for (unsigned digit = 0; digit < 256; digit++) {
            size_t here = places[byte][digit];
            places[byte][digit] = next;
            next += here;
        }
        for (size_t i = 0; i < count; i++)
            to[places[byte][~(from[i].slope >> 8 * byte) & 255]++] = from[i];
        Edge *other = from;
        from = to;
        to = other;
    }
    if (from == spare)
        memcpy(edges->at, spare, count * sizeof *spare);
    free(spare);
}

static Answer check_list(Still still, size_t list_len)
{
    Answer told = check_tables(still);
    if (told.number != 0)
        return told;
    if (list_len % 3 != 0)
        return refused(5, list_len, 0);
    return check_levels(still.levels, still.levels_len / POSITIONS);
}

/* The corners of every block as edges; the still's first corner. */
static Answer gather_edges(Still still, Edges *edges, Point *first)
{
    Table table;
    Level room[POSITIONS];
    tabulate(still.lengths, &table);
    for (size_t block = 0; block < still.levels_len / POSITIONS; block++) {
        Gathered gathered = gather(still.levels + POSITIONS * block, still.steps, room);
        Choice left, last;
        if (!first_corner(&table, gathered, &left) || !last_corner(&table, gathered, &last))
            return refused(7, block, 0);
        first->bits += left.pair.bits;
        first->error += left.pair.error;
        first->kept += (unsigned)__builtin_popcountll(left.keep);
        divide(edges, &table, gathered, left, last);
    }
    return accepted;
}

/* Edges of one slope lead to one corner. */
static Answer write_corners(const Edges *edges, Point here, uint64_t *list, size_t list_len)
{
    size_t corners = 1;
    for (size_t i = 0; i < edges->count; i++)
        corners += i == 0 || edges->at[i].slope != edges->at[i - 1].slope;
    if (list_len / 3 < corners)
        return refused(8, corners, 0);
    for (size_t i = 0;; i++) {
        if (i == 0 || i == edges->count || edges->at[i].slope != edges->at[i - 1].slope) {
            *list++ = here.bits;
            *list++ = here.error;
            *list++ = here.kept;
        }
        if (i == edges->count)
            return (Answer){0, corners, 0, 0};
        here.bits += edges->at[i].run;
        here.error -= edges->at[i].fall;
        here.kept += (uint64_t)(int64_t)edges->at[i].kept;
    }
}

Answer fast_list(Still still, uint64_t *list, size_t list_len)
{
    Edges edges = {.count = 0};
    Point first = {0, 0, 0};
    Answer told = check_list(still, list_len);
    if (told.number == 0)
        told = gather_edges(still, &edges, &first);
    if (told.number == 0) {
        measure(&edges);
        sort(&edges);
        told = write_corners(&edges, first, list, list_len);
    }
    free(edges.at);
    return told;
}

/* ---- The budget job. ---- */

/* A still between two of its corners: one with few bits, which fits, and one with many, which doesn't. */
typedef struct {
    Table table;
    size_t blocks, open_count;
    uint16_t open[MOST_BLOCKS]; /* the blocks that choose otherwise at the two corners */
    Gathered gathered[MOST_BLOCKS];
    Choice few[MOST_BLOCKS], many[MOST_BLOCKS], between[MOST_BLOCKS];
    Level levels[MOST_BLOCKS * LAST];
} Bracket;

static Answer check_fit(Still still, size_t keep_len)
{
    Answer told = check_tables(still);
    if (told.number != 0)
        return told;
    if (keep_len != still.levels_len / POSITIONS)
        return refused(5, keep_len, 0);
    return check_levels(still.levels, keep_len);
}

static Answer gather_ends(Still still, Bracket *bracket, uint64_t *few_bits, uint64_t *many_bits)
{
    Level *room = bracket->levels;
    tabulate(still.lengths, &bracket->table);
    for (size_t block = 0; block < bracket->blocks; block++) {
        Gathered gathered = gather(still.levels + POSITIONS * block, still.steps, room);
        room += gathered.count;
        bracket->gathered[block] = gathered;
        if (!first_corner(&bracket->table, gathered, bracket->few + block) ||
            !last_corner(&bracket->table, gathered, bracket->many + block))
            return refused(7, block, 0);
        *few_bits += bracket->few[block].pair.bits;
        *many_bits += bracket->many[block].pair.bits;
    }
    return accepted;
}

/* The line between a block's two corners. */
typedef struct {
    uint64_t slope;
    uint32_t run, block;
} Chord;

/* Steeper chords are taken first: the first one that goes beyond the budget. */
static Chord crossing(Chord *chords, size_t count, uint64_t room)
{
    for (;;) {
        uint64_t pivot = chords[count / 2].slope, steeper = 0;
        size_t low = 0, high = count, i = 0;
        while (i < high) {
            Chord chord = chords[i];
            if (chord.slope > pivot) {
                steeper += chord.run;
                chords[i++] = chords[low];
                chords[low++] = chord;
            } else if (chord.slope == pivot) {
                i++;
            } else {
                chords[i] = chords[--high];
                chords[high] = chord;
            }
        }
        if (steeper > room) {
            count = low;
            continue;
        }
        room -= steeper;
        for (i = low; i < high; i++) {
            if (chords[i].run > room)
                return chords[i];
            room -= chords[i].run;
        }
        chords += high;
        count -= high;
    }
}

static Chord next_price(const Bracket *bracket, uint64_t room)
{
    Chord chords[MOST_BLOCKS];
    for (size_t i = 0; i < bracket->open_count; i++) {
        size_t block = bracket->open[i];
        Pair few = bracket->few[block].pair, many = bracket->many[block].pair;
        uint64_t run = many.bits - few.bits;
        chords[i] = (Chord){((few.error - many.error) << 22) / run, (uint32_t)run, (uint32_t)block};
    }
    return crossing(chords, bracket->open_count, room);
}

static void leave_out_alike(Bracket *bracket)
{
    size_t count = 0;
    for (size_t i = 0; i < bracket->open_count; i++) {
        uint16_t block = bracket->open[i];
        bracket->open[count] = block;
        count += bracket->few[block].pair.bits != bracket->many[block].pair.bits;
    }
    bracket->open_count = count;
}

/* Searches at the price of the chord that meets the budget. If that is where the corner with few bits stands, the
   chords of that slope are edges, and together they go beyond the budget. */
static void narrow(Bracket *bracket, uint64_t few_bits, uint64_t budget)
{
    for (;;) {
        leave_out_alike(bracket);
        Chord chord = next_price(bracket, budget - few_bits);
        uint64_t a = chord.run, b = bracket->few[chord.block].pair.error - bracket->many[chord.block].pair.error;
        uint64_t bits = few_bits;
        for (size_t i = 0; i < bracket->open_count; i++) {
            size_t block = bracket->open[i];
            search(&bracket->table, bracket->gathered[block], a, b, bracket->between + block);
            bits += bracket->between[block].pair.bits - bracket->few[block].pair.bits;
        }
        if (bits == few_bits)
            return;
        Choice *end = bits <= budget ? bracket->few : bracket->many;
        for (size_t i = 0; i < bracket->open_count; i++)
            end[bracket->open[i]] = bracket->between[bracket->open[i]];
        few_bits = bits <= budget ? bits : few_bits;
    }
}

Answer fast_fit(Still still, uint32_t budget, uint64_t *keep, size_t keep_len)
{
    static _Thread_local Bracket bracket;
    uint64_t few_bits = 0, many_bits = 0;
    Answer told = check_fit(still, keep_len);
    bracket.blocks = keep_len;
    if (told.number == 0)
        told = gather_ends(still, &bracket, &few_bits, &many_bits);
    if (told.number != 0)
        return told;
    if (few_bits > budget)
        return refused(9, few_bits, 0);
    if (many_bits > budget) {
        bracket.open_count = keep_len;
        for (size_t block = 0; block < keep_len; block++)
            bracket.open[block] = (uint16_t)block;
        narrow(&bracket, few_bits, budget);
    }
    const Choice *fits = many_bits > budget ? bracket.few : bracket.many;
    for (size_t block = 0; block < keep_len; block++) {
        keep[block] = fits[block].keep;
        told.first += fits[block].pair.bits;
        told.second += fits[block].pair.error;
        told.third += (unsigned)__builtin_popcountll(keep[block]);
    }
    return told;
}

/* ---- The thinning job. ---- */

static Answer check_thin(const int16_t *levels, size_t levels_len, const uint64_t *keep, size_t keep_len)
{
    if (!is_count(levels_len))
        return refused(1, levels_len, 0);
    if (keep_len != levels_len / POSITIONS)
        return refused(5, keep_len, 0);
    Answer told = check_levels(levels, keep_len);
    for (size_t block = 0; block < keep_len && told.number == 0; block++) {
        uint64_t wrong = keep[block] & ~nonzero(levels + POSITIONS * block);
        if (wrong != 0)
            return refused(10, block, (unsigned)__builtin_ctzll(wrong));
    }
    return told;
}

typedef int16_t Eight __attribute__((vector_size(16), aligned(2), may_alias));

Answer fast_thin(int16_t *levels, size_t levels_len, const uint64_t *keep, size_t keep_len)
{
    static const Eight weights = {1, 2, 4, 8, 16, 32, 64, 128};
    Answer told = check_thin(levels, levels_len, keep, keep_len);
    if (told.number != 0)
        return told;
    for (size_t block = 0; block < keep_len; block++) {
        uint64_t stays = keep[block] | 1;
        told.first += (unsigned)__builtin_popcountll(keep[block]);
        for (unsigned part = 0; part < 8; part++) {
            Eight *eight = (Eight *)(levels + POSITIONS * block + 8 * part);
            int16_t bits = (int16_t)(stays >> 8 * part & 255);
            *eight &= (weights & bits) != 0;
        }
    }
    return told;
}
