/* The head-end's call from outside, held against the independent implementation.
   Run as: headend [count [seed [samples]]]. */
#include "anubeshogwi.h"
#include "faults.h"
#include "groups.h"
#include "lent.h"
#include "stack.h"
#include "tally.h"

#include <stdlib.h>
#include <string.h>

/* ---- One call. ---- */

/* What the buffer holds afterwards is expected to be `content`. */
static void settle_call(const Lent *packet, size_t packet_len, uint32_t budget, Lent *keep, size_t keep_len,
                        uint32_t expected, const uint8_t *content)
{
    uint32_t got = anb_budget(packet->at, packet_len, budget, keep->at, keep_len);
    Answer told = {got, 0, 0, 0}, right = {expected, 0, 0, 0};
    if (!tally_answer("anb_budget", told, right))
        return;
    if (!lent_holds(keep, content))
        tally(false, expected == 0 ? "anb_budget stored something else" : "anb_budget stored although it refused");
    else if (!lent_unchanged(packet))
        tally(false, "anb_budget changed the packet");
}

/* The whole packet is worked out anew; for single calls. */
static void try_budget(const uint8_t *packet, size_t packet_len, uint32_t budget, size_t keep_len, Random *random)
{
    uint8_t *content = room_for(keep_len, 1);
    fill_randomly(random, content, keep_len);
    bool wall = one_in(random, 8); /* a read behind the packet would stop the program */
    Lent lent = wall ? lend_at_wall(packet, packet_len) : lend_at_odd_place(packet, packet_len);
    Lent keep = lend_at_odd_place(content, keep_len);
    uint32_t expected = plain_budget(packet, packet_len, budget, content, keep_len);
    settle_call(&lent, packet_len, budget, &keep, keep_len, expected, content);
    lent_done(&lent);
    lent_done(&keep);
    free(content);
}

/* ---- Budgets around the corners. ---- */

/* A packet and the still that it holds. */
typedef struct {
    Lent packet;
    size_t packet_len;
    Plain plain;
} Sent;

static void try_sent(Sent *sent, uint64_t budget, Random *random)
{
    size_t blocks = sent->plain.still.levels_len / POSITIONS;
    uint64_t numbers[MOST_PACKED];
    uint8_t content[8 * MOST_PACKED];
    fill_randomly(random, content, sizeof content);
    Lent keep = lend_at_odd_place(content, 8 * blocks);
    Answer expected = plain_fit(&sent->plain, (uint32_t)budget, numbers, blocks);
    if (expected.number == 0)
        keep_bytes(numbers, blocks, content);
    settle_call(&sent->packet, sent->packet_len, (uint32_t)budget, &keep, 8 * blocks, (uint32_t)expected.number,
                content);
    lent_done(&keep);
}

static void try_around(Sent *sent, size_t corner, Random *random)
{
    uint64_t bits = plain_stops(&sent->plain)->corners[corner].bits;
    try_sent(sent, bits - 1, random);
    try_sent(sent, bits, random);
    try_sent(sent, bits + 1, random);
}

/* At most `most` corners are tried, all of them if there are no more. */
static void try_still(const Made *made, Way way, size_t most, Random *random)
{
    static uint8_t packet[PACKET_ROOM];
    Sent sent = {.packet_len = pack(made_still(made), packet), .plain = plain_of(made_still(made), way)};
    sent.packet = lend_at_odd_place(packet, sent.packet_len);
    try_sent(&sent, 0, random);
    try_sent(&sent, UINT32_MAX, random);
    try_sent(&sent, any_size(random, UINT32_MAX), random);
    if (sound(made)) {
        size_t count = plain_stops(&sent.plain)->count;
        for (size_t i = 0; i < count && i < most; i++)
            try_around(&sent, count <= most ? i : below(random, count), random);
    }
    lent_done(&sent.packet);
    plain_done(&sent.plain);
}

/* A packet holds 12 bits of the DC. */
static void narrow_dc(Made *made)
{
    for (size_t block = 0; block < made->blocks; block++)
        made->levels[POSITIONS * block] %= 2048;
}

static void small_stills(Options options)
{
    tally_begin("head-end: small stills, by all choices");
    for (uint64_t serial = 0; serial < options.count; serial++) {
        Random random = random_of(options.seed, serial);
        Made made = made_small(&random);
        narrow_dc(&made);
        tally_case("still %ju", (uintmax_t)serial);
        try_still(&made, BY_DEFINITION, 100, &random);
        made_done(&made);
    }
    tally_end();
}

static void try_large(Made *made, Random *random)
{
    narrow_dc(made);
    try_still(made, BY_PROGRAMME, made->blocks <= 64 ? 10 : 3, random);
}

static const char *const packets[] = {"camera_q50.pkt", "astronaut_q50.pkt", "camera_q90.pkt"};

static void real_packets(Options options)
{
    tally_begin("head-end: real packets");
    for (size_t i = 0; i < 3; i++) {
        Random random = random_of(options.seed, i);
        static uint8_t packet[PACKET_ROOM], again[PACKET_ROOM];
        size_t length = read_file(options.samples, packets[i], packet, sizeof packet);
        Made made;
        tally_case("%s", packets[i]);
        if (!tally(made_from_packet(options.samples, packets[i], &made), "can't be read"))
            continue;
        tally(pack(made_still(&made), again) == length && memcmp(packet, again, length) == 0,
              "the test itself: packed again, the packet is another");
        try_still(&made, BY_PROGRAMME, 40, &random);
        made_done(&made);
    }
    tally_end();
}

/* ---- Damaged packets. ---- */

/* A sound packet of some blocks, and its length. */
static size_t sound_packet(size_t blocks, uint8_t *packet, Random *random)
{
    Made made = made_large(LARGE_PHOTOGRAPH, blocks, random);
    narrow_dc(&made);
    size_t length = pack(made_still(&made), packet);
    made_done(&made);
    return length;
}

/* Every length up to the list program's: cut off, and filled up with zeros. */
static void every_length(Options options)
{
    static const size_t blocks[] = {3, MOST_PACKED};
    static uint8_t packet[PACKET_ROOM];
    tally_begin("head-end: every length of a packet");
    for (size_t i = 0; i < 2; i++) {
        Random random = random_of(options.seed, i);
        memset(packet, 0, sizeof packet);
        sound_packet(blocks[i], packet, &random);
        for (size_t length = 0; length <= PACKET_ROOM; length++) {
            tally_case("%zu blocks, length %zu", blocks[i], length);
            try_budget(packet, length, UINT32_MAX, 8 * blocks[i], &random);
        }
    }
    tally_end();
}

/* Every bit of the header turned over, one at a time. */
static void every_header_bit(Options options)
{
    uint8_t packet[PACKED_HEAD + 3 * PACKED_BLOCK];
    tally_begin("head-end: every bit of the header turned over");
    for (size_t blocks = 1; blocks <= 3; blocks++) {
        Random random = random_of(options.seed, blocks);
        size_t length = sound_packet(blocks, packet, &random);
        for (size_t bit = 0; bit < 8 * PACKED_HEAD; bit++) {
            tally_case("%zu blocks, bit %zu", blocks, bit);
            packet[bit / 8] ^= (uint8_t)(0x80 >> bit % 8);
            try_budget(packet, length, (uint32_t)any_size(&random, 2000), 8 * blocks, &random);
            packet[bit / 8] ^= (uint8_t)(0x80 >> bit % 8);
        }
    }
    tally_end();
}

/* A header that is fine, so that random bytes are read further. */
static void mend(uint8_t *packet, Random *random)
{
    Made made = made_small(random);
    Unpacked unpacked;
    uint8_t header[PACKED_HEAD + 4 * PACKED_BLOCK];
    pack(made_still(&made), header);
    header[1] = packet[1];
    memcpy(packet, header, one_in(random, 2) ? 2 + POSITIONS : PACKED_HEAD);
    size_t length = PACKED_HEAD + PACKED_BLOCK * ((size_t)packet[1] + 1);
    if (one_in(random, 2) && unpack(packet, length, &unpacked).number == 0) {
        for (size_t i = 0; i < POSITIONS * unpacked.blocks; i++)
            unpacked.levels[i] = (int16_t)(unpacked.levels[i] / 2);
        for (size_t entry = 0; entry < LENGTHS; entry++)
            unpacked.lengths[entry] %= 17;
        pack(still_of(&unpacked), packet);
    }
    made_done(&made);
}

/* Random bytes: as they come; with a version and a length that fit; with a header that fits. */
static void random_bytes(Options options)
{
    static uint8_t packet[PACKET_ROOM];
    tally_begin("head-end: random bytes");
    for (uint64_t serial = 0; serial < options.count / 3; serial++) {
        Random random = random_of(options.seed, serial);
        uint64_t kind = below(&random, 8);
        size_t blocks = (size_t)between(&random, 1, one_in(&random, 100) ? MOST_PACKED : 4);
        size_t length = PACKED_HEAD + PACKED_BLOCK * blocks;
        fill_randomly(&random, packet, length);
        if (kind > 0) {
            packet[0] = 1;
            packet[1] = (uint8_t)(blocks - 1);
        }
        if (kind > 1)
            mend(packet, &random);
        if (kind == 2)
            length += (size_t)between(&random, 0, 2) - 1;
        tally_case("packet %ju", (uintmax_t)serial);
        try_budget(packet, length, (uint32_t)any_size(&random, UINT32_MAX), 8 * blocks, &random);
    }
    tally_end();
}

/* ---- Refusals. ---- */

/* 11: another version, a length that does not fit the count, a count that does not fit the length. */
static size_t spoil_packet(uint8_t *packet, size_t length, Random *random)
{
    uint64_t kind = below(random, 4);
    if (kind == 0)
        packet[0] = (uint8_t)(one_in(random, 2) ? 0 : between(random, 2, 255));
    else if (kind == 1)
        packet[1] = (uint8_t)(packet[1] + between(random, 1, 255));
    else if (kind == 2)
        return below(random, length);
    else
        return length + (size_t)(one_in(random, 2) ? 1 : between(random, 1, PACKED_BLOCK));
    return length;
}

static void refusals(Options options)
{
    static const unsigned numbers[7] = {2, 3, 5, 6, 7, 9, 11};
    static uint8_t packet[PACKET_ROOM];
    tally_begin("head-end: every set of faults");
    for (uint64_t serial = 0; serial < 128 * (options.count / 50 + 1); serial++) {
        Random random = random_of(options.seed, serial);
        Faults faults = 0;
        for (size_t i = 0; i < 7; i++)
            faults |= (Faults)(serial >> i & 1) << numbers[i];
        Call call = call_sound(&random);
        call_spoil(&call, faults, true, &random);
        memset(packet, 0, sizeof packet);
        size_t length = pack(call_still(&call), packet), keep_len = 8 * call.blocks;
        if (faults >> 11 & 1)
            length = spoil_packet(packet, length, &random);
        if (faults >> 5 & 1) {
            size_t wrong[] = {0, 1, call.blocks, keep_len - 1, keep_len + 1, keep_len + 8, keep_len - 8};
            keep_len = wrong[below(&random, 7)];
        }
        uint64_t seen = tally_refusals(lowest(faults));
        tally_case("call %ju", (uintmax_t)serial);
        try_budget(packet, length, call.budget, keep_len, &random);
        tally(tally_refusals(lowest(faults)) == seen + 1, "the test itself: %u was to be refused", lowest(faults));
        call_done(&call);
    }
    for (size_t i = 0; i < 7; i++)
        tally(tally_refusals(numbers[i]) > 0, "%u was never refused", numbers[i]);
    tally_end();
}

/* Each field of a packet can be the bad one. */
static void try_bad(Made *made, Random *random)
{
    uint8_t packet[PACKED_HEAD + 4 * PACKED_BLOCK];
    size_t length = pack(made_still(made), packet);
    try_budget(packet, length, UINT32_MAX, 8 * made->blocks, random);
}

static void told(const uint8_t *packet, size_t packet_len, uint32_t expected)
{
    uint32_t got = anb_budget(packet, packet_len, UINT32_MAX, NULL, 0);
    tally_answer("anb_budget", (Answer){got, 0, 0, 0}, (Answer){expected, 0, 0, 0});
}

/* A null pointer of length 0 is an empty slice. */
static void null_pointers(Options options)
{
    uint8_t packet[PACKED_HEAD + PACKED_BLOCK], keep[8];
    Random random = random_of(options.seed, 0);
    size_t length = sound_packet(1, packet, &random);
    tally_begin("head-end: null pointers of length 0");
    tally_case("null pointers");
    told(NULL, 0, 11);
    told(packet, length, 5);
    uint32_t got = anb_budget(NULL, 0, 0, keep, sizeof keep);
    tally_answer("anb_budget", (Answer){got, 0, 0, 0}, (Answer){11, 0, 0, 0});
    tally_end();
}

/* ---- Stack. ---- */

typedef struct {
    const uint8_t *packet;
    size_t packet_len;
    uint32_t budget;
} Work;

static void *fit(void *argument)
{
    static uint8_t keep[8 * MOST_PACKED];
    const Work *work = argument;
    anb_budget(work->packet, work->packet_len, work->budget, keep, 8 * ((size_t)work->packet[1] + 1));
    return NULL;
}

/* What the header promises is not passed, at budgets all over the stops of large packets of every kind. */
static void stack_use(Options options)
{
    static uint8_t packet[PACKET_ROOM];
    size_t most = 0;
    tally_begin("head-end: stack use");
    for (Large kind = 0; kind < LARGE_KINDS; kind++) {
        Random random = random_of(options.seed, kind);
        Made made = made_large(kind, MOST_PACKED, &random);
        size_t length = pack(made_still(&made), packet);
        for (uint32_t budget = 1 << 10; budget <= 1 << 19; budget *= 8) {
            size_t used = stack_used(fit, &(Work){packet, length, budget});
            tally_case("%s, budget %ju", large_names[kind], (uintmax_t)budget);
            tally(used <= ANB_STACK_BYTES, "%zu bytes", used);
            most = used > most ? used : most;
        }
        made_done(&made);
    }
    tally_note("bytes at most", most);
    tally_end();
}

int main(int count, char **arguments)
{
    Options options = options_of(count, arguments, 3000);
    small_stills(options);
    on_large("head-end: large stills, by the dynamic programme", (const size_t[]){1, 7, 64, MOST_PACKED}, options, try_large);
    real_packets(options);
    every_length(options);
    every_header_bit(options);
    random_bytes(options);
    refusals(options);
    on_bad("head-end: a fault at every place", options, try_bad);
    null_pointers(options);
    if (getenv("WATCHED") == NULL) /* valgrind objects to looking at a stack that was left */
        stack_use(options);
    return tally_finish();
}
