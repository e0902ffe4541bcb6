/* The independent implementation tests itself: definition against programme, and the examples of document 01.
   Run as: self [count [seed]], or self k5 to print the lengths of Table K.5 as k5.awk does. */
#include "stills.h"
#include "tally.h"

#include <stdlib.h>
#include <string.h>

/* ---- Definition against programme. ---- */

static bool same_answer(Answer x, Answer y)
{
    return x.number == y.number && x.first == y.first && x.second == y.second && x.third == y.third;
}

static void compare_ways_at(Plain *definition, Plain *programme, uint64_t a, uint64_t b)
{
    uint64_t keep[4] = {0}, other[4] = {0};
    size_t blocks = definition->still.levels_len / POSITIONS;
    Answer told = plain_price(definition, a, b, keep, blocks);
    Answer also = plain_price(programme, a, b, other, blocks);
    tally(same_answer(told, also) && memcmp(keep, other, sizeof keep) == 0, "price %ju %ju", (uintmax_t)a,
          (uintmax_t)b);
}

static void compare_stops(Plain *definition, Plain *programme)
{
    const Stops *stops = plain_stops(definition), *others = plain_stops(programme);
    if (!tally(stops->count == others->count, "%zu corners against %zu", stops->count, others->count))
        return;
    for (size_t corner = 0; corner < stops->count; corner++) {
        uint64_t keep[4] = {0}, other[4] = {0};
        stops_keep(stops, corner, keep);
        stops_keep(others, corner, other);
        tally(memcmp(&stops->corners[corner], &others->corners[corner], sizeof(Point)) == 0 &&
                  memcmp(keep, other, sizeof keep) == 0,
              "corner %zu", corner);
    }
}

static void compare_ways(uint64_t seed, uint64_t count)
{
    tally_begin("definition and programme agree");
    for (uint64_t serial = 0; serial < count; serial++) {
        Random random = random_of(seed, serial);
        Made made = made_small(&random);
        Plain definition = plain_of(made_still(&made), BY_DEFINITION);
        Plain programme = plain_of(made_still(&made), BY_PROGRAMME);
        tally_case("still %ju", (uintmax_t)serial);
        compare_ways_at(&definition, &programme, 1, 0);
        compare_ways_at(&definition, &programme, 1, GREATEST_B);
        for (unsigned i = 0; i < 10; i++) {
            uint64_t a = any_size(&random, GREATEST_A - 1) + 1;
            compare_ways_at(&definition, &programme, a, any_size(&random, one_in(&random, 2) ? 1000 : GREATEST_B));
        }
        if (sound(&made))
            compare_stops(&definition, &programme);
        plain_done(&definition);
        plain_done(&programme);
        made_done(&made);
    }
    tally_end();
}

/* ---- The hull against the words of the definition. ---- */

/* Whether the pair is strictly cheaper than every other attainable one. */
static bool strictly_cheapest(Pairs pairs, Pair pair, uint64_t a, uint64_t b)
{
    for (size_t i = 0; i < pairs.count; i++)
        if (memcmp(&pairs.at[i], &pair, sizeof pair) != 0 && cost_of(pairs.at[i], a, b) <= cost_of(pair, a, b))
            return false;
    return true;
}

/* Whether the pair lies on or above the chain of corners, so that no price makes it strictly cheapest. */
static bool not_below_chain(Pairs corners, Pair pair)
{
    Pair last = corners.at[corners.count - 1];
    if (pair.bits >= last.bits)
        return pair.error >= last.error;
    for (size_t i = 0; i + 1 < corners.count; i++) {
        Pair left = corners.at[i], right = corners.at[i + 1];
        uint64_t run = right.bits - left.bits, fall = left.error - right.error;
        if (left.bits <= pair.bits && pair.bits < right.bits)
            return cost_of(pair, run, fall) >= cost_of(left, run, fall);
    }
    return false;
}

static void hold_hull(const Made *made)
{
    Plain plain = plain_of(made_still(made), BY_DEFINITION);
    plain_stops(&plain);
    Pairs pairs = attainable(plain.choices, made->blocks), corners = corners_of(pairs);
    for (size_t i = 0; i < corners.count; i++) {
        uint64_t a, b;
        corner_price(corners, i, &a, &b);
        tally(a >= 1 && b >= 1 && strictly_cheapest(pairs, corners.at[i], a, b), "corner %zu is none", i);
    }
    size_t next = 0; /* both are in rising bits, then rising error */
    for (size_t i = 0; i < pairs.count; i++)
        if (next < corners.count && memcmp(&pairs.at[i], &corners.at[next], sizeof(Pair)) == 0)
            next++;
        else
            tally(not_below_chain(corners, pairs.at[i]), "a corner is missing");
    tally(next == corners.count, "a corner is not attainable");
    free(pairs.at);
    free(corners.at);
    plain_done(&plain);
}

static void compare_hull(uint64_t seed, uint64_t count)
{
    tally_begin("corners are strictly cheapest, the rest is not");
    for (uint64_t serial = 0; serial < count; serial++) {
        Random random = random_of(seed, serial);
        Made made = made_sound(&random);
        tally_case("still %ju", (uintmax_t)serial);
        hold_hull(&made);
        made_done(&made);
    }
    tally_end();
}

/* Tries every pair of prices that can matter: no slope between two pairs needs larger numbers. */
static size_t search_prices(Pairs pairs, Pair *found)
{
    uint64_t run = pairs.at[pairs.count - 1].bits - pairs.at[0].bits, fall = 0;
    size_t count = 0;
    for (size_t i = 0; i < pairs.count; i++)
        fall = pairs.at[i].error > fall ? pairs.at[i].error : fall;
    for (size_t i = 0; i < pairs.count; i++) {
        bool corner = false;
        for (uint64_t a = 1; a <= run + 1 && !corner; a++)
            for (uint64_t b = 1; b <= fall + 1 && !corner; b++)
                corner = strictly_cheapest(pairs, pairs.at[i], a, b);
        if (corner)
            found[count++] = pairs.at[i];
    }
    return count;
}

static Made made_tiny(Random *random)
{
    Made made = made_zero((size_t)between(random, 1, 2), 1);
    for (size_t entry = 0; entry < LENGTHS; entry++)
        made.lengths[entry] = (uint8_t)between(random, 1, 5);
    for (size_t i = 0; i < 3 * made.blocks; i++) {
        size_t k = (size_t)between(random, 1, 20);
        made.levels[POSITIONS * (i / 3) + k] = (int16_t)between(random, 1, 3);
    }
    return made;
}

static void compare_direct_search(uint64_t seed, uint64_t count)
{
    tally_begin("corners are those that a direct search over prices finds");
    for (uint64_t serial = 0; serial < count; serial++) {
        Random random = random_of(seed, serial);
        Made made = made_tiny(&random);
        Plain plain = plain_of(made_still(&made), BY_DEFINITION);
        plain_stops(&plain);
        Pairs pairs = attainable(plain.choices, made.blocks), corners = corners_of(pairs);
        Pair *found = room_for(pairs.count, sizeof *found);
        size_t found_count = search_prices(pairs, found);
        tally_case("still %ju", (uintmax_t)serial);
        tally(found_count == corners.count && memcmp(found, corners.at, found_count * sizeof *found) == 0,
              "%zu corners against %zu", corners.count, found_count);
        free(found);
        free(pairs.at);
        free(corners.at);
        plain_done(&plain);
        made_done(&made);
    }
    tally_end();
}

/* ---- What the list has to be good for. ---- */

static void price_gives_corner(Plain *plain, uint64_t a, uint64_t b)
{
    const Stops *stops = plain_stops(plain);
    uint64_t keep[4] = {0}, expected[4] = {0};
    Answer told = plain_price(plain, a, b, keep, plain->still.levels_len / POSITIONS);
    size_t corner = 0;
    while (corner + 1 < stops->count && stops->corners[corner].bits != told.first)
        corner++;
    Point point = stops->corners[corner];
    stops_keep(stops, corner, expected);
    tally(point.bits == told.first && point.error == told.second && point.kept == told.third &&
              memcmp(keep, expected, sizeof keep) == 0,
          "price %ju %ju gives no corner", (uintmax_t)a, (uintmax_t)b);
}

/* The price of the way on from a corner gives that corner, since equal costs go to fewer bits. */
static void corner_has_price(Plain *plain, size_t corner)
{
    const Stops *stops = plain_stops(plain);
    Point here = stops->corners[corner];
    uint64_t a = 1, b = 0, keep[4];
    if (corner + 1 < stops->count) {
        a = stops->corners[corner + 1].bits - here.bits;
        b = here.error - stops->corners[corner + 1].error;
    }
    if (b > GREATEST_B)
        return; /* several blocks of equal slope; one block's part of the way would have the same slope */
    Answer told = plain_price(plain, a, b, keep, plain->still.levels_len / POSITIONS);
    tally(told.first == here.bits && told.second == here.error, "corner %zu has no price", corner);
}

static void compare_demands(uint64_t seed, uint64_t count)
{
    tally_begin("every accepted price gives a corner, every corner has an accepted price");
    for (uint64_t serial = 0; serial < count; serial++) {
        Random random = random_of(seed, serial);
        Made made = made_sound(&random);
        Plain plain = plain_of(made_still(&made), BY_DEFINITION);
        tally_case("still %ju", (uintmax_t)serial);
        for (unsigned i = 0; i < 10; i++) {
            uint64_t a = any_size(&random, GREATEST_A - 1) + 1;
            price_gives_corner(&plain, a, any_size(&random, GREATEST_B));
        }
        for (size_t corner = 0; corner < plain_stops(&plain)->count; corner++)
            corner_has_price(&plain, corner);
        plain_done(&plain);
        made_done(&made);
    }
    tally_end();
}

/* ---- The examples A to N. ---- */

static Made example(size_t blocks, uint8_t step, unsigned first, unsigned second)
{
    Made made = made_zero(blocks, step);
    for (size_t block = 0; block < blocks; block++) {
        if (first != 0)
            made.levels[POSITIONS * block + first] = 1;
        if (second != 0)
            made.levels[POSITIONS * block + second] = 1;
    }
    return made;
}

static Made example_g(void)
{
    Made made = example(1, 10, 1, 17);
    made.steps[1] = 2;
    return made;
}

static void has_corners(const char *name, const Made *made, size_t count, const Pair *pairs)
{
    for (Way way = BY_DEFINITION; way <= BY_PROGRAMME; way++) {
        Plain plain = plain_of(made_still(made), way);
        uint64_t list[30];
        Answer told = plain_list(&plain, list, 30);
        bool holds = told.number == 0 && told.first == count;
        for (size_t i = 0; holds && i < count; i++)
            holds = list[3 * i] == pairs[i].bits && list[3 * i + 1] == pairs[i].error;
        tally_case("example %s", name);
        tally(holds, "corners");
        plain_done(&plain);
    }
}

static void has_price(const char *name, const Made *made, uint64_t a, uint64_t b, Answer expected, uint64_t keep)
{
    for (Way way = BY_DEFINITION; way <= BY_PROGRAMME; way++) {
        Plain plain = plain_of(made_still(made), way);
        uint64_t numbers[2] = {0, 0};
        tally_case("example %s", name);
        tally_answer("price", plain_price(&plain, a, b, numbers, made->blocks), expected);
        tally(numbers[0] == keep, "keep number");
        plain_done(&plain);
    }
}

static void has_fit(const char *name, const Made *made, uint32_t budget, Answer expected)
{
    for (Way way = BY_DEFINITION; way <= BY_PROGRAMME; way++) {
        Plain plain = plain_of(made_still(made), way);
        uint64_t numbers[2];
        tally_case("example %s", name);
        tally_answer("budget", plain_fit(&plain, budget, numbers, made->blocks), expected);
        plain_done(&plain);
    }
}

static Answer answer(uint64_t number, uint64_t first, uint64_t second, uint64_t third)
{
    return (Answer){number, first, second, third};
}

static void examples_a_to_f(void)
{
    Made a = example(1, 10, 0, 0), b = example(1, 10, 1, 0), c = example(1, 3, 1, 0);
    Made d = example(1, 10, 63, 0), e = example(1, 10, 16, 0), f = example(1, 10, 17, 0);
    has_corners("A", &a, 1, (Pair[]){{4, 0}});
    has_corners("B", &b, 2, (Pair[]){{4, 100}, {7, 0}});
    has_price("B", &b, 1, 33, answer(0, 7, 0, 1), 2);
    has_price("B", &b, 1, 34, answer(0, 4, 100, 0), 0);
    has_price("C", &c, 1, 3, answer(0, 4, 9, 0), 0);
    has_corners("D", &d, 2, (Pair[]){{4, 100}, {50, 0}});
    has_price("E", &e, 1, 0, answer(0, 21, 0, 1), UINT64_C(1) << 16);
    has_price("F", &f, 1, 0, answer(0, 18, 0, 1), UINT64_C(1) << 17);
    Made *all[] = {&a, &b, &c, &d, &e, &f};
    for (size_t i = 0; i < 6; i++)
        made_done(all[i]);
}

static void examples_g_and_h(void)
{
    Made g = example_g(), h = example(1, 10, 1, 3);
    Choices choices = choices_of(block_of(made_still(&g), 0)); /* in falling keep numbers */
    static const Pair all[4] = {{24, 0}, {18, 4}, {7, 100}, {4, 104}};
    tally_case("example G");
    for (size_t i = 0; i < 4; i++)
        tally(choices.count == 4 && memcmp(&choices.at[i].pair, &all[i], sizeof all[i]) == 0, "choice %zu", i);
    has_corners("G", &g, 3, (Pair[]){{4, 104}, {18, 4}, {24, 0}});
    has_price("G", &g, 1, 1, answer(0, 18, 4, 1), UINT64_C(1) << 17);
    has_fit("N", &g, 17, answer(0, 4, 104, 0));
    memset(h.lengths, 0, sizeof h.lengths);
    h.lengths[0x01] = h.lengths[0x21] = 2;
    h.lengths[0x11] = 16;
    h.lengths[END_OF_BLOCK] = 4;
    has_price("H", &h, 1, 10, answer(0, 7, 100, 1), 2);
    free(choices.at);
    made_done(&g);
    made_done(&h);
}

static void examples_i_to_m(void)
{
    Made i = example(1, 10, 0, 0), j = example(1, 10, 63, 0), k = example(2, 10, 1, 0);
    Made l = example(1, 10, 1, 0), b = example(1, 10, 1, 0);
    i.lengths[END_OF_BLOCK] = j.lengths[END_OF_BLOCK] = 0;
    has_price("I", &i, 1, 0, answer(7, 0, 0, 0), 0);
    has_corners("J", &j, 1, (Pair[]){{50, 0}});
    has_corners("K", &k, 2, (Pair[]){{8, 200}, {14, 0}});
    l.levels[1] = 1023;
    has_price("L", &l, 1, 0, answer(0, 4 + 16 + 10, 0, 1), 2);
    l.levels[1] = 1024;
    has_price("L", &l, 1, 0, answer(6, 0, 1, 0), 0);
    has_fit("M", &b, 3, answer(9, 4, 0, 0));
    has_fit("M", &b, 4, answer(0, 4, 100, 0));
    Made *all[] = {&i, &j, &k, &l, &b};
    for (size_t made = 0; made < 5; made++)
        made_done(all[made]);
}

/* The whole output that document 01 prints. */
static void example_output(void)
{
    static const char expected[] = "corners 4\n8 108 0\n22 8 1\n25 4 2\n31 0 3\n";
    uint8_t packet[PACKET_ROOM];
    char text[200] = "";
    Made made = example(2, 10, 1, 0);
    made.steps[1] = 2;
    made.levels[POSITIONS + 17] = 1;
    FILE *out = tmpfile();
    if (out == NULL)
        exit(2);
    plain_print(packet, pack(made_still(&made), packet), out);
    rewind(out);
    text[fread(text, 1, sizeof text - 1, out)] = '\0';
    fclose(out);
    tally_case("whole output");
    tally(strcmp(text, expected) == 0, "printed\n%s", text);
    made_done(&made);
}

/* The greatest numbers that document 01 names. */
static void named_numbers(void)
{
    uint8_t k5[LENGTHS];
    k5_lengths(k5);
    tally_case("named numbers");
    tally(k5[END_OF_BLOCK] == 4 && k5[SIXTEEN_ZEROS] == 11 && k5[0x01] == 2 && k5[0x11] == 4 && k5[0xe1] == 16 &&
              k5[0xf1] == 16,
          "Table K.5");
    Random random = random_of(1, 1);
    Made made = made_large(LARGE_LONGEST, 1, &random);
    uint64_t bits;
    tally(choice_error(block_of(made_still(&made), 0), 0) == GREATEST_BLOCK_ERROR, "greatest error");
    tally(choice_bits(block_of(made_still(&made), 0), ~UINT64_C(1), &bits) && bits == 1638, "most bits");
    tally(size_of(1) == 1 && size_of(-3) == 2 && size_of(1023) == 10, "sizes");
    made_done(&made);
}

static void print_k5(void)
{
    uint8_t k5[LENGTHS];
    k5_lengths(k5);
    for (size_t entry = 0; entry < LENGTHS; entry++)
        printf("%u%c", k5[entry], entry % 16 == 15 ? '\n' : ' ');
}

int main(int count, char **arguments)
{
    if (count > 1 && strcmp(arguments[1], "k5") == 0) {
        print_k5();
        return 0;
    }
    uint64_t stills = count > 1 ? strtoull(arguments[1], NULL, 10) : 20000;
    uint64_t seed = count > 2 ? strtoull(arguments[2], NULL, 10) : 1;
    printf("the independent implementation by itself: %ju stills, seed %ju\n", (uintmax_t)stills, (uintmax_t)seed);
    compare_ways(seed, stills);
    compare_hull(seed, stills);
    compare_demands(seed, stills);
    compare_direct_search(seed, stills / 40);
    tally_begin("examples A to N of document 01");
    examples_a_to_f();
    examples_g_and_h();
    examples_i_to_m();
    example_output();
    named_numbers();
    tally_end();
    return tally_finish();
}
