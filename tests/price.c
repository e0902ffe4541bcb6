/* The price and thinning jobs from outside, held against the independent implementation.
   Run as: price [count [seed [samples]]]. */
#include "faults.h"
#include "groups.h"
#include "lent.h"
#include "probe.h"
#include "tally.h"

#include <string.h>

/* ---- One call. ---- */

/* Calls in which the best choice of some block costs as much as another one, and what settles it then. */
static uint64_t settled_by_bits, settled_by_keep;

static void count_ties(const Plain *plain, uint64_t a, uint64_t b)
{
    bool by_bits = false, by_keep = false;
    for (size_t block = 0; block < plain->still.levels_len / POSITIONS; block++) {
        Choices choices = plain->choices[block];
        Choice best = choices_best(choices, a, b);
        for (size_t i = 0; i < choices.count; i++)
            if (choices.at[i].keep != best.keep && cost_of(choices.at[i].pair, a, b) == cost_of(best.pair, a, b)) {
                by_bits |= choices.at[i].pair.bits != best.pair.bits;
                by_keep |= choices.at[i].pair.bits == best.pair.bits;
            }
    }
    settled_by_bits += by_bits;
    settled_by_keep += by_keep;
}

static void try_price(Plain *plain, const LentStill *lent, uint64_t a, uint64_t b, size_t keep_len, Random *random)
{
    Still still = plain->still;
    uint64_t noise[4], *content = room_for(keep_len, sizeof *content);
    fill_randomly(random, noise, sizeof noise);
    fill_randomly(random, content, keep_len * sizeof *content);
    Lent keep = lend(content, keep_len * sizeof *content), answer = lend(noise, sizeof noise);
    Answer expected = plain_price(plain, a, b, content, keep_len);
    if (expected.number == 0 && plain->way == BY_DEFINITION)
        count_ties(plain, a, b);
    anb_price(lent->levels.at, still.levels_len, lent->steps.at, still.steps_len, lent->lengths.at,
              still.lengths_len, a, b, keep.at, keep_len, answer.at, 4);
    settle("anb_price", &answer, expected, &keep, content, lent_still_unchanged(lent));
    lent_done(&keep);
    lent_done(&answer);
    free(content);
}

static void try_thin(const int16_t *levels, size_t levels_len, const uint64_t *keep, size_t keep_len, Random *random)
{
    uint64_t noise[4];
    int16_t *content = room_for(levels_len, sizeof *content);
    fill_randomly(random, noise, sizeof noise);
    if (levels_len > 0)
        memcpy(content, levels, levels_len * sizeof *content);
    Lent lent_levels = lend(levels, levels_len * sizeof *levels), lent_keep = lend(keep, keep_len * sizeof *keep);
    Lent answer = lend(noise, sizeof noise);
    Answer expected = plain_thin(content, levels_len, keep, keep_len);
    anb_thin(lent_levels.at, levels_len, lent_keep.at, keep_len, answer.at, 4);
    settle("anb_thin", &answer, expected, &lent_levels, content, lent_unchanged(&lent_keep));
    lent_done(&lent_levels);
    lent_done(&lent_keep);
    lent_done(&answer);
    free(content);
}

/* ---- Prices that matter. ---- */

/* The largest numbers next to that price, on both sides: the costs are large and differ by very little. */
static void try_finest(Plain *plain, const LentStill *lent, uint64_t run, uint64_t fall, Random *random)
{
    size_t blocks = plain->still.levels_len / POSITIONS;
    Cost most = (Cost)GREATEST_B * run / fall;
    uint64_t a = most < GREATEST_A ? (uint64_t)most : GREATEST_A;
    uint64_t b = (uint64_t)((Cost)fall * a / run);
    try_price(plain, lent, a, b, blocks, random);
    try_price(plain, lent, a, b + 1, blocks, random);
}

/* The prices at and beside the one that makes two pairs cost the same. */
static void try_near(Plain *plain, const LentStill *lent, Pair left, Pair right, Random *random)
{
    if (left.bits >= right.bits || left.error <= right.error)
        return;
    uint64_t run = right.bits - left.bits, fall = left.error - right.error;
    uint64_t most = GREATEST_A / run < GREATEST_B / fall ? GREATEST_A / run : GREATEST_B / fall;
    if (most == 0)
        return;
    uint64_t times = one_in(random, 2) ? 1 : one_in(random, 2) ? most : any_size(random, most - 1) + 1;
    uint64_t a = run * times, b = fall * times;
    size_t blocks = plain->still.levels_len / POSITIONS;
    try_price(plain, lent, a, b, blocks, random);
    try_price(plain, lent, a, b - 1, blocks, random);
    try_price(plain, lent, a, b + 1, blocks, random);
    try_price(plain, lent, a - 1, b, blocks, random);
    try_finest(plain, lent, run, fall, random);
}

static void try_ends(Plain *plain, const LentStill *lent, Random *random)
{
    size_t blocks = plain->still.levels_len / POSITIONS;
    try_price(plain, lent, 1, 0, blocks, random);
    try_price(plain, lent, 1, GREATEST_B, blocks, random);
    try_price(plain, lent, GREATEST_A, 0, blocks, random);
    try_price(plain, lent, GREATEST_A, GREATEST_B, blocks, random);
}

static void try_random_prices(Plain *plain, const LentStill *lent, Random *random, unsigned count)
{
    size_t blocks = plain->still.levels_len / POSITIONS;
    for (unsigned i = 0; i < count; i++) {
        uint64_t a = any_size(random, GREATEST_A - 1) + 1;
        uint64_t b = any_size(random, one_in(random, 2) ? 300 : GREATEST_B);
        try_price(plain, lent, a, b, blocks, random);
    }
}

/* ---- Small stills, by definition. ---- */

/* Prices at which two choices of a block cost the same, corners or not. */
static void try_ties(Plain *plain, const LentStill *lent, Random *random, unsigned count)
{
    size_t blocks = plain->still.levels_len / POSITIONS;
    for (unsigned i = 0; i < count; i++) {
        Choices choices = plain->choices[below(random, blocks)];
        Pair x = choices.at[below(random, choices.count)].pair, y = choices.at[below(random, choices.count)].pair;
        try_near(plain, lent, x, y, random);
        try_near(plain, lent, y, x, random);
    }
}

static void try_small(const Made *made, Random *random)
{
    Plain plain = plain_of(made_still(made), BY_DEFINITION);
    LentStill lent = lend_still(plain.still);
    try_ends(&plain, &lent, random);
    try_random_prices(&plain, &lent, random, 4);
    if (sound(made)) {
        const Stops *stops = plain_stops(&plain);
        for (size_t i = 0; i + 1 < stops->count; i++) {
            Pair left = {stops->corners[i].bits, stops->corners[i].error};
            Pair right = {stops->corners[i + 1].bits, stops->corners[i + 1].error};
            try_near(&plain, &lent, left, right, random);
        }
        try_ties(&plain, &lent, random, 4);
    }
    lent_still_done(&lent);
    plain_done(&plain);
}

/* What the small stills held; those of the other tests are the same, since they have the same seed. */
static void tell_small(const Held *held)
{
    if (held->stills < 100)
        return;
    tally_note("1 block", held->blocks[1]);
    tally_note("2 blocks", held->blocks[2]);
    tally_note("3 blocks", held->blocks[3]);
    tally_note("4 blocks", held->blocks[4]);
    tally_note("Table K.5", held->k5);
    tally_note("other tables", held->stills - held->k5);
    tally_note("codes missing", held->gaps);
    tally_note("no end of block", held->no_end);
    tally_note("no sixteen zeros", held->no_zeros);
    tally_note("uncodable", held->uncodable);
    tally_note("calls with equal costs, settled by bits", settled_by_bits);
    tally_note("with equal costs and bits, settled by keep numbers", settled_by_keep);
}

static void small_stills(Options options)
{
    Held held = {0};
    tally_begin("price: small stills, by all choices");
    for (uint64_t serial = 0; serial < options.count; serial++) {
        Random random = random_of(options.seed, serial);
        Made made = made_small(&random);
        held_add(&held, &made);
        tally_case("still %ju", (uintmax_t)serial);
        try_small(&made, &random);
        made_done(&made);
    }
    tell_small(&held);
    tally_end();
}

/* ---- Large and real stills, by the dynamic programme. ---- */

/* Prices at the corners of one of its blocks, where that block ties. */
static void try_block_slopes(Plain *plain, const LentStill *lent, Random *random, unsigned count)
{
    Still block = plain->still;
    block.levels += POSITIONS * below(random, block.levels_len / POSITIONS);
    block.levels_len = POSITIONS;
    Stops stops = stops_by_programme(block);
    for (unsigned i = 0; i < count && stops.count > 1; i++) {
        size_t corner = below(random, stops.count - 1);
        Pair left = {stops.corners[corner].bits, stops.corners[corner].error};
        Pair right = {stops.corners[corner + 1].bits, stops.corners[corner + 1].error};
        try_near(plain, lent, left, right, random);
    }
    stops_done(&stops);
}

static void try_prices(const Made *made, Random *random, unsigned count)
{
    Plain plain = plain_of(made_still(made), BY_PROGRAMME);
    LentStill lent = lend_still(plain.still);
    try_ends(&plain, &lent, random);
    try_random_prices(&plain, &lent, random, count);
    try_block_slopes(&plain, &lent, random, count);
    lent_still_done(&lent);
    plain_done(&plain);
}

static void try_large(Made *made, Random *random)
{
    try_prices(made, random, made->blocks <= 16 ? 30 : made->blocks <= 256 ? 3 : 1);
}

static void try_real(Made *made, Random *random)
{
    try_prices(made, random, 10);
}

/* ---- Thinning. ---- */

/* Keep numbers that the still accepts, and some that it does not. */
static void draw_keep(const Made *made, uint64_t *keep, Random *random)
{
    uint64_t kind = below(random, 4);
    for (size_t block = 0; block < made->blocks; block++) {
        uint64_t nonzero = 0;
        for (unsigned k = 1; k < POSITIONS; k++)
            if (made->levels[POSITIONS * block + k] != 0)
                nonzero |= UINT64_C(1) << k;
        keep[block] = kind == 0 ? nonzero : kind == 1 ? 0 : nonzero & draw(random);
    }
    size_t block = below(random, made->blocks);
    if (kind == 3)
        keep[block] |= UINT64_C(1) << below(random, POSITIONS);
}

static void thinning(Options options)
{
    tally_begin("thinning: small and large stills");
    for (uint64_t serial = 0; serial < options.count; serial++) {
        Random random = random_of(options.seed, serial);
        size_t blocks = (size_t)between(&random, 1, MOST_BLOCKS);
        Made made = serial % 100 > 0 ? made_small(&random)
                                     : made_large((Large)below(&random, LARGE_KINDS), blocks, &random);
        uint64_t *keep = room_for(made.blocks, sizeof *keep);
        tally_case("still %ju", (uintmax_t)serial);
        for (unsigned i = 0; i < 4; i++) {
            draw_keep(&made, keep, &random);
            try_thin(made.levels, POSITIONS * made.blocks, keep, made.blocks, &random);
        }
        free(keep);
        made_done(&made);
    }
    tally_end();
}

/* What the price job keeps is what the thinning accepts, and thinned it is priced as kept whole. */
static void price_then_thin(Options options)
{
    tally_begin("thinning: by the keep numbers of a price");
    for (uint64_t serial = 0; serial < options.count / 4; serial++) {
        Random random = random_of(options.seed, serial);
        Made made = made_sound(&random);
        Still still = made_still(&made);
        uint64_t keep[4], answer[4], again[4];
        uint64_t a = any_size(&random, 3) + 1, b = any_size(&random, 1000);
        tally_case("still %ju", (uintmax_t)serial);
        anb_price(still.levels, still.levels_len, still.steps, POSITIONS, still.lengths, LENGTHS, a, b, keep,
                  made.blocks, answer, 4);
        anb_thin(made.levels, still.levels_len, keep, made.blocks, again, 4);
        tally(answer[0] == 0 && again[0] == 0 && again[1] == answer[3], "kept %ju, thinned to %ju",
              (uintmax_t)answer[3], (uintmax_t)again[1]);
        try_thin(made.levels, still.levels_len, keep, made.blocks, &random);
        made_done(&made);
    }
    tally_end();
}

/* ---- Refusals. ---- */

/* Every set of faults at once, with faults of every sort: the lowest number wins. */
static void price_refusals(Options options)
{
    static const unsigned numbers[7] = {1, 2, 3, 4, 5, 6, 7};
    tally_begin("price: every set of faults");
    for (uint64_t serial = 0; serial < 128 * (options.count / 50 + 1); serial++) {
        Random random = random_of(options.seed, serial);
        Faults faults = (Faults)(serial % 128) << 1;
        Call call = call_sound(&random);
        call_spoil(&call, faults, false, &random);
        Plain plain = plain_of(call_still(&call), BY_DEFINITION);
        LentStill lent = lend_still(plain.still);
        tally_case("call %ju", (uintmax_t)serial);
        uint64_t seen = tally_refusals(lowest(faults));
        try_price(&plain, &lent, call.a, call.b, call.keep_len, &random);
        tally(tally_refusals(lowest(faults)) == seen + 1, "the test itself: %u was to be refused", lowest(faults));
        lent_still_done(&lent);
        plain_done(&plain);
        call_done(&call);
    }
    for (size_t i = 0; i < 7; i++)
        tally(tally_refusals(numbers[i]) > 0, "%u was never refused", numbers[i]);
    tally_end();
}

static void thin_refusals(Options options)
{
    static const unsigned numbers[4] = {1, 5, 6, 10};
    tally_begin("thinning: every set of faults");
    for (uint64_t serial = 0; serial < 16 * (options.count / 10 + 1); serial++) {
        Random random = random_of(options.seed, serial);
        Faults faults = 0;
        for (size_t i = 0; i < 4; i++)
            faults |= (Faults)(serial >> i & 1) << numbers[i];
        Call call = call_sound(&random);
        call_spoil(&call, faults, false, &random);
        uint64_t keep[40] = {0}, seen = tally_refusals(lowest(faults));
        memcpy(keep, call.keep, sizeof call.keep);
        tally_case("call %ju", (uintmax_t)serial);
        try_thin(call.levels, call.levels_len, keep, call.keep_len, &random);
        tally(tally_refusals(lowest(faults)) == seen + 1, "the test itself: %u was to be refused", lowest(faults));
        call_done(&call);
    }
    for (size_t i = 0; i < 4; i++)
        tally(tally_refusals(numbers[i]) > 0, "%u was never refused", numbers[i]);
    tally_end();
}

/* Each place of each slice can be the bad one, and is told. */
static void try_bad(Made *made, Random *random)
{
    Plain plain = plain_of(made_still(made), BY_PROGRAMME);
    LentStill lent = lend_still(plain.still);
    try_price(&plain, &lent, 1, 0, made->blocks, random);
    lent_still_done(&lent);
    plain_done(&plain);
}

/* The bad level, and the bit of a keep number that is bad, at every place. */
static void thin_every_place(Options options)
{
    uint64_t keep[4] = {0};
    tally_begin("thinning: a fault at every place");
    for (unsigned place = 0; place < BAD_PLACES; place++) {
        Random random = random_of(options.seed, place);
        Made bad = made_bad(BAD_LEVEL, place, &random), zero = made_zero(4, 10);
        tally_case("place %u", place);
        try_thin(bad.levels, BAD_PLACES, keep, 4, &random);
        keep[place / POSITIONS] = UINT64_C(1) << place % POSITIONS;
        try_thin(zero.levels, BAD_PLACES, keep, 4, &random);
        keep[place / POSITIONS] = 0;
        made_done(&bad);
        made_done(&zero);
    }
    tally_end();
}

/* ---- The edges of the calls. ---- */

/* With an answer of another length nothing at all is done. */
static void other_answers(Options options)
{
    static const size_t lengths[] = {0, 1, 2, 3, 5, 6, 8};
    tally_begin("price and thinning: an answer that is not 4 long");
    for (uint64_t serial = 0; serial < 7 * 20; serial++) {
        Random random = random_of(options.seed, serial);
        Made made = made_sound(&random);
        Still still = made_still(&made);
        uint64_t noise[8], numbers[4] = {0};
        size_t answer_len = lengths[serial % 7];
        fill_randomly(&random, noise, sizeof noise);
        Lent answer = lend(noise, answer_len * sizeof *noise), keep = lend(noise, made.blocks * sizeof *noise);
        Lent zeros = lend(numbers, made.blocks * sizeof *numbers);
        LentStill lent = lend_still(still);
        tally_case("answer of %zu", answer_len);
        anb_price(lent.levels.at, still.levels_len, lent.steps.at, POSITIONS, lent.lengths.at, LENGTHS, 1, 0,
                  keep.at, made.blocks, answer.at, answer_len);
        tally(lent_still_unchanged(&lent) && lent_unchanged(&keep) && lent_unchanged(&answer), "anb_price stored");
        anb_thin(lent.levels.at, still.levels_len, zeros.at, made.blocks, answer.at, answer_len);
        tally(lent_still_unchanged(&lent) && lent_unchanged(&zeros) && lent_unchanged(&answer), "anb_thin stored");
        lent_done(&answer);
        lent_done(&keep);
        lent_done(&zeros);
        lent_still_done(&lent);
        made_done(&made);
    }
    tally_end();
}

static void price_of_nothing(const int16_t *levels, const uint8_t *steps, const uint8_t *lengths, Answer expected)
{
    uint64_t answer[4] = {99, 99, 99, 99};
    anb_price(levels, levels ? POSITIONS : 0, steps, steps ? POSITIONS : 0, lengths, lengths ? LENGTHS : 0, 1, 0,
              NULL, 0, answer, 4);
    tally_answer("anb_price", (Answer){answer[0], answer[1], answer[2], answer[3]}, expected);
}

/* A null pointer of length 0 is an empty slice. */
static void null_pointers(void)
{
    Made made = made_zero(1, 10);
    uint64_t answer[4] = {99, 99, 99, 99};
    tally_begin("price and thinning: null pointers of length 0");
    tally_case("null pointers");
    price_of_nothing(NULL, NULL, NULL, (Answer){1, 0, 0, 0});
    price_of_nothing(made.levels, NULL, NULL, (Answer){2, POSITIONS, 0, 0});
    price_of_nothing(made.levels, made.steps, NULL, (Answer){3, LENGTHS, 0, 0});
    price_of_nothing(made.levels, made.steps, made.lengths, (Answer){5, 0, 0, 0});
    anb_thin(NULL, 0, NULL, 0, answer, 4);
    tally_answer("anb_thin", (Answer){answer[0], answer[1], answer[2], answer[3]}, (Answer){1, 0, 0, 0});
    anb_thin(made.levels, POSITIONS, NULL, 0, answer, 4);
    tally_answer("anb_thin", (Answer){answer[0], answer[1], answer[2], answer[3]}, (Answer){5, 0, 0, 0});
    anb_price(NULL, 0, NULL, 0, NULL, 0, 1, 0, NULL, 0, NULL, 0);
    anb_thin(NULL, 0, NULL, 0, NULL, 0);
    made_done(&made);
    tally_end();
}

/* Slices that end where memory ends: a read behind them would stop the program. */
static void at_the_wall(Options options)
{
    tally_begin("price: slices at the end of memory");
    for (uint64_t serial = 0; serial < options.count / 10 + 1; serial++) {
        Random random = random_of(options.seed, serial);
        Call call = call_sound(&random);
        if (serial % 2 == 1)
            call_spoil(&call, (Faults)draw(&random) & 0xfe, false, &random);
        Plain plain = plain_of(call_still(&call), BY_DEFINITION);
        LentStill lent = lend_still_at_wall(plain.still);
        tally_case("call %ju", (uintmax_t)serial);
        try_price(&plain, &lent, call.a, call.b, call.keep_len, &random);
        lent_still_done(&lent);
        plain_done(&plain);
        call_done(&call);
    }
    tally_end();
}

int main(int count, char **arguments)
{
    Options options = options_of(count, arguments, 3000);
    small_stills(options);
    on_large("price: large stills, by the dynamic programme", (const size_t[]){1, 16, 256, MOST_BLOCKS}, options,
             try_large);
    on_real("price: real stills", options, try_real);
    price_refusals(options);
    on_bad("price: a fault at every place", options, try_bad);
    at_the_wall(options);
    thinning(options);
    price_then_thin(options);
    thin_refusals(options);
    thin_every_place(options);
    other_answers(options);
    null_pointers();
    return tally_finish();
}
