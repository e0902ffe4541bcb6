/* The list and budget jobs from outside, held against the independent implementation.
   Run as: lists [count [seed [samples]]]. */
#include "faults.h"
#include "groups.h"
#include "lent.h"
#include "probe.h"
#include "tally.h"

/* ---- One call. ---- */

static void try_list(Plain *plain, const LentStill *lent, size_t list_len, Random *random)
{
    Still still = plain->still;
    uint64_t noise[4], *content = room_for(list_len, sizeof *content);
    fill_randomly(random, noise, sizeof noise);
    fill_randomly(random, content, list_len * sizeof *content);
    Lent list = lend(content, list_len * sizeof *content), answer = lend(noise, sizeof noise);
    Answer expected = plain_list(plain, content, list_len);
    anb_list(lent->levels.at, still.levels_len, lent->steps.at, still.steps_len, lent->lengths.at,
             still.lengths_len, list.at, list_len, answer.at, 4);
    settle("anb_list", &answer, expected, &list, content, lent_still_unchanged(lent));
    lent_done(&list);
    lent_done(&answer);
    free(content);
}

static void try_fit(Plain *plain, const LentStill *lent, uint64_t budget, size_t keep_len, Random *random)
{
    Still still = plain->still;
    uint64_t noise[4], *content = room_for(keep_len, sizeof *content);
    fill_randomly(random, noise, sizeof noise);
    fill_randomly(random, content, keep_len * sizeof *content);
    Lent keep = lend(content, keep_len * sizeof *content), answer = lend(noise, sizeof noise);
    Answer expected = plain_fit(plain, (uint32_t)budget, content, keep_len);
    anb_fit(lent->levels.at, still.levels_len, lent->steps.at, still.steps_len, lent->lengths.at,
            still.lengths_len, (uint32_t)budget, keep.at, keep_len, answer.at, 4);
    settle("anb_fit", &answer, expected, &keep, content, lent_still_unchanged(lent));
    lent_done(&keep);
    lent_done(&answer);
    free(content);
}

/* ---- List rooms and budgets that matter. ---- */

/* Exactly enough, more, one corner short, none, and lengths that hold no whole number of corners. */
static void try_rooms(Plain *plain, const LentStill *lent, Random *random)
{
    size_t enough = 3 * plain_stops(plain)->count;
    size_t more = 3 * below(random, 20), less = 3 * below(random, enough / 3);
    size_t rooms[] = {enough, enough + 3, enough + more, enough - 3, less,
                      0,      enough + 1, enough + 2,    enough - 1, less + 1};
    for (size_t i = 0; i < sizeof rooms / sizeof *rooms; i++)
        try_list(plain, lent, rooms[i], random);
}

static void try_around(Plain *plain, const LentStill *lent, size_t corner, Random *random)
{
    size_t blocks = plain->still.levels_len / POSITIONS;
    uint64_t bits = plain_stops(plain)->corners[corner].bits;
    try_fit(plain, lent, bits - 1, blocks, random);
    try_fit(plain, lent, bits, blocks, random);
    try_fit(plain, lent, bits + 1, blocks, random);
}

static void try_end_budgets(Plain *plain, const LentStill *lent, Random *random)
{
    size_t blocks = plain->still.levels_len / POSITIONS;
    try_fit(plain, lent, 0, blocks, random);
    try_fit(plain, lent, UINT32_MAX, blocks, random);
    try_fit(plain, lent, any_size(random, UINT32_MAX), blocks, random);
}

/* ---- Small stills, by definition. ---- */

static void try_small(const Made *made, Random *random)
{
    Plain plain = plain_of(made_still(made), BY_DEFINITION);
    LentStill lent = lend_still(plain.still);
    try_end_budgets(&plain, &lent, random);
    if (sound(made)) {
        try_rooms(&plain, &lent, random);
        for (size_t corner = 0; corner < plain_stops(&plain)->count; corner++)
            try_around(&plain, &lent, corner, random);
    } else {
        try_list(&plain, &lent, 3 * below(random, 5), random);
    }
    lent_still_done(&lent);
    plain_done(&plain);
}

static void small_stills(Options options)
{
    tally_begin("list and budget: small stills, by all choices");
    for (uint64_t serial = 0; serial < options.count; serial++) {
        Random random = random_of(options.seed, serial);
        Made made = made_small(&random);
        tally_case("still %ju", (uintmax_t)serial);
        try_small(&made, &random);
        made_done(&made);
    }
    tally_end();
}

/* ---- Large and real stills, by the dynamic programme. ---- */

static void try_corners(const Made *made, Random *random, unsigned count)
{
    Plain plain = plain_of(made_still(made), BY_PROGRAMME);
    LentStill lent = lend_still(plain.still);
    const Stops *stops = plain_stops(&plain);
    try_list(&plain, &lent, 3 * (stops->count + 2), random);
    try_list(&plain, &lent, 3 * (stops->count - 1), random);
    try_end_budgets(&plain, &lent, random);
    try_around(&plain, &lent, 0, random);
    try_around(&plain, &lent, stops->count - 1, random);
    for (unsigned i = 0; i < count; i++)
        try_around(&plain, &lent, below(random, stops->count), random);
    lent_still_done(&lent);
    plain_done(&plain);
}

static void try_large(Made *made, Random *random)
{
    try_corners(made, random, made->blocks <= 16 ? 10 : 1);
}

static void try_real(Made *made, Random *random)
{
    try_corners(made, random, 20);
}

/* ---- Refusals. ---- */

static void try_call(const Call *call, bool list, Random *random)
{
    Plain plain = plain_of(call_still(call), BY_DEFINITION);
    LentStill lent = lend_still(plain.still);
    if (list)
        try_list(&plain, &lent, call->list_len, random);
    else
        try_fit(&plain, &lent, call->budget, call->keep_len, random);
    lent_still_done(&lent);
    plain_done(&plain);
}

/* Every set of faults at once, with faults of every sort: the lowest number wins. */
static void refusals(Options options, bool list)
{
    const unsigned numbers[7] = {1, 2, 3, 5, 6, 7, list ? 8 : 9};
    tally_begin(list ? "list: every set of faults" : "budget: every set of faults");
    for (uint64_t serial = 0; serial < 128 * (options.count / 50 + 1); serial++) {
        Random random = random_of(options.seed, serial);
        Faults faults = 0;
        for (size_t i = 0; i < 7; i++)
            faults |= (Faults)(serial >> i & 1) << numbers[i];
        Call call = call_sound(&random);
        call_spoil(&call, faults, false, &random);
        uint64_t seen = tally_refusals(lowest(faults));
        tally_case("call %ju", (uintmax_t)serial);
        try_call(&call, list, &random);
        tally(tally_refusals(lowest(faults)) == seen + 1, "the test itself: %u was to be refused", lowest(faults));
        call_done(&call);
    }
    for (size_t i = 0; i < 7; i++)
        tally(tally_refusals(numbers[i]) > 0, "%u was never refused", numbers[i]);
    tally_end();
}

/* Each place of each slice can be the bad one, and is told. */
static void try_bad(Made *made, Random *random)
{
    Plain plain = plain_of(made_still(made), BY_PROGRAMME);
    LentStill lent = lend_still(plain.still);
    try_list(&plain, &lent, 3, random);
    try_fit(&plain, &lent, UINT32_MAX, made->blocks, random);
    lent_still_done(&lent);
    plain_done(&plain);
}

/* ---- The edges of the calls. ---- */

/* With an answer of another length nothing at all is done. */
static void other_answers(Options options)
{
    static const size_t lengths[] = {0, 1, 2, 3, 5, 6, 8};
    tally_begin("list and budget: an answer that is not 4 long");
    for (uint64_t serial = 0; serial < 7 * 20; serial++) {
        Random random = random_of(options.seed, serial);
        Made made = made_sound(&random);
        Still still = made_still(&made);
        uint64_t noise[300];
        size_t answer_len = lengths[serial % 7];
        fill_randomly(&random, noise, sizeof noise);
        Lent answer = lend(noise, answer_len * sizeof *noise), room = lend(noise, sizeof noise);
        LentStill lent = lend_still(still);
        tally_case("answer of %zu", answer_len);
        anb_list(lent.levels.at, still.levels_len, lent.steps.at, POSITIONS, lent.lengths.at, LENGTHS, room.at, 300,
                 answer.at, answer_len);
        tally(lent_still_unchanged(&lent) && lent_unchanged(&room) && lent_unchanged(&answer), "anb_list stored");
        anb_fit(lent.levels.at, still.levels_len, lent.steps.at, POSITIONS, lent.lengths.at, LENGTHS, UINT32_MAX,
                room.at, made.blocks, answer.at, answer_len);
        tally(lent_still_unchanged(&lent) && lent_unchanged(&room) && lent_unchanged(&answer), "anb_fit stored");
        lent_done(&answer);
        lent_done(&room);
        lent_still_done(&lent);
        made_done(&made);
    }
    tally_end();
}

static void call_with_nothing(const int16_t *levels, const uint8_t *steps, const uint8_t *lengths, Answer listed,
                              Answer fitted)
{
    Answer got = {99, 99, 99, 99};
    anb_list(levels, levels ? POSITIONS : 0, steps, steps ? POSITIONS : 0, lengths, lengths ? LENGTHS : 0, NULL, 0,
             &got.number, 4);
    tally_answer("anb_list", got, listed);
    anb_fit(levels, levels ? POSITIONS : 0, steps, steps ? POSITIONS : 0, lengths, lengths ? LENGTHS : 0, 9, NULL, 0,
            &got.number, 4);
    tally_answer("anb_fit", got, fitted);
}

/* A null pointer of length 0 is an empty slice. */
static void null_pointers(void)
{
    Made made = made_zero(1, 10);
    Answer no_levels = {1, 0, 0, 0}, no_steps = {2, POSITIONS, 0, 0}, no_lengths = {3, LENGTHS, 0, 0};
    tally_begin("list and budget: null pointers of length 0");
    tally_case("null pointers");
    call_with_nothing(NULL, NULL, NULL, no_levels, no_levels);
    call_with_nothing(made.levels, NULL, NULL, no_steps, no_steps);
    call_with_nothing(made.levels, made.steps, NULL, no_lengths, no_lengths);
    call_with_nothing(made.levels, made.steps, made.lengths, (Answer){8, 1, 0, 0}, (Answer){5, 0, 0, 0});
    anb_list(NULL, 0, NULL, 0, NULL, 0, NULL, 0, NULL, 0);
    anb_fit(NULL, 0, NULL, 0, NULL, 0, 0, NULL, 0, NULL, 0);
    made_done(&made);
    tally_end();
}

/* Slices that end where memory ends: a read behind them would stop the program. */
static void at_the_wall(Options options)
{
    tally_begin("list and budget: slices at the end of memory");
    for (uint64_t serial = 0; serial < options.count / 10 + 1; serial++) {
        Random random = random_of(options.seed, serial);
        Call call = call_sound(&random);
        if (serial % 2 == 1)
            call_spoil(&call, (Faults)draw(&random) & 0x3ee, false, &random);
        Plain plain = plain_of(call_still(&call), BY_DEFINITION);
        LentStill lent = lend_still_at_wall(plain.still);
        tally_case("call %ju", (uintmax_t)serial);
        try_list(&plain, &lent, call.list_len, &random);
        try_fit(&plain, &lent, call.budget, call.keep_len, &random);
        lent_still_done(&lent);
        plain_done(&plain);
        call_done(&call);
    }
    tally_end();
}

int main(int count, char **arguments)
{
    Options options = options_of(count, arguments, 3000);
    small_stills(options);
    on_large("list and budget: large stills, by the dynamic programme", (const size_t[]){1, 16, 256, MOST_BLOCKS}, options,
             try_large);
    on_real("list and budget: real stills", options, try_real);
    refusals(options, true);
    refusals(options, false);
    on_bad("list and budget: a fault at every place", options, try_bad);
    at_the_wall(options);
    other_answers(options);
    null_pointers();
    return tally_finish();
}
