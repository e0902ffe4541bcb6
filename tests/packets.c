/* Writes packets for the list program into a folder, which has a folder for each kind of them.
   Run as: packets FOLDER [count [seed]]. */
#include "faults.h"
#include "stills.h"

#include <stdlib.h>
#include <string.h>

static const char *folder;

static void write_packet(const char *name, const uint8_t *packet, size_t length)
{
    char path[1000];
    snprintf(path, sizeof path, "%s/%s.pkt", folder, name);
    FILE *file = fopen(path, "wb");
    if (file == NULL || fwrite(packet, 1, length, file) != length || fclose(file) != 0) {
        fprintf(stderr, "packets: can't write %s\n", path);
        exit(2);
    }
}

/* One of many of its kind. */
static void write_numbered(const char *kind, uint64_t serial, const uint8_t *packet, size_t length)
{
    char name[100];
    snprintf(name, sizeof name, "%s/%05ju", kind, (uintmax_t)serial);
    write_packet(name, packet, length);
}

static void write_still(const char *kind, uint64_t serial, const Made *made)
{
    static uint8_t packet[PACKET_ROOM];
    write_numbered(kind, serial, packet, pack(made_still(made), packet));
}

/* The packet whose whole output document 01 prints. */
static void document_01(void)
{
    Made made = made_zero(2, 10);
    made.steps[1] = 2;
    made.levels[1] = made.levels[POSITIONS + 1] = made.levels[POSITIONS + 17] = 1;
    uint8_t packet[PACKED_HEAD + 2 * PACKED_BLOCK];
    write_packet("document", packet, pack(made_still(&made), packet));
    made_done(&made);
}

static void small(uint64_t count, uint64_t seed)
{
    for (uint64_t serial = 0; serial < count; serial++) {
        Random random = random_of(seed, serial);
        Made made = made_small(&random);
        write_still("small", serial, &made);
        made_done(&made);
    }
}

static void large(uint64_t seed)
{
    static const size_t blocks[] = {1, 15, MOST_PACKED};
    for (size_t size = 0; size < 3; size++)
        for (Large kind = 0; kind < LARGE_KINDS; kind++) {
            Random random = random_of(seed, 1000 * kind + blocks[size]);
            Made made = made_large(kind, blocks[size], &random);
            write_still("large", 1000 * kind + blocks[size], &made);
            made_done(&made);
        }
}

/* A still with exactly so many corners: from one with a few more, level after level is taken away. */
static void exact_corners(size_t corners, uint64_t seed)
{
    for (uint64_t serial = 0;; serial++) {
        Random random = random_of(seed, serial);
        Made made = made_large(LARGE_RANDOM, 18, &random);
        size_t count, next = POSITIONS * made.blocks;
        do {
            Stops stops = stops_by_programme(made_still(&made));
            count = stops.count;
            stops_done(&stops);
            if (count > corners)
                made.levels[--next] = 0;
        } while (count > corners);
        if (count == corners)
            write_still("exact", corners, &made);
        made_done(&made);
        if (count == corners)
            return;
    }
}

/* Any set of faults in a small packet; then perhaps a bit turned over, an end cut off or random bytes behind it. */
static void damaged(uint64_t count, uint64_t seed)
{
    static uint8_t packet[2 * PACKET_ROOM];
    for (uint64_t serial = 0; serial < count; serial++) {
        Random random = random_of(seed, serial);
        Call call = call_sound(&random);
        Faults in_packet = 1 << 2 | 1 << 3 | 1 << 6 | 1 << 7;
        uint64_t kind = below(&random, 6);
        call_spoil(&call, (Faults)(draw(&random) & draw(&random)) & in_packet, true, &random);
        fill_randomly(&random, packet, sizeof packet);
        size_t length = pack(call_still(&call), packet);
        uint8_t bit = (uint8_t)(1 << below(&random, 8));
        if (kind == 0)
            packet[below(&random, length)] ^= bit;
        else if (kind == 1)
            length = below(&random, length);
        else if (kind == 2)
            length += (size_t)between(&random, 1, PACKED_BLOCK);
        else if (kind == 3)
            packet[below(&random, 2)] ^= bit;
        write_numbered("damaged", serial, packet, length);
        call_done(&call);
    }
}

/* Every bit of the header turned over, one at a time. */
static void header(uint64_t seed)
{
    uint8_t packet[PACKED_HEAD + 2 * PACKED_BLOCK];
    Random random = random_of(seed, 0);
    Made made = made_large(LARGE_PHOTOGRAPH, 2, &random);
    size_t length = pack(made_still(&made), packet);
    for (size_t bit = 0; bit < 8 * PACKED_HEAD; bit++) {
        packet[bit / 8] ^= (uint8_t)(0x80 >> bit % 8);
        write_numbered("header", bit, packet, length);
        packet[bit / 8] ^= (uint8_t)(0x80 >> bit % 8);
    }
    made_done(&made);
}

/* Lengths at the ends: nothing, a byte, the longest packet and one more and one less, far more. */
static void lengths(uint64_t seed)
{
    static uint8_t packet[1000000];
    static const size_t ends[] = {0, 1, 2, 225, 226, 321, 322, 323, 24801, 24802, 24803, 24804, 1000000};
    Random random = random_of(seed, 0);
    for (size_t i = 0; i < sizeof ends / sizeof *ends; i++)
        for (unsigned full = 0; full < 2; full++) {
            Made made = made_large(LARGE_PHOTOGRAPH, full ? MOST_PACKED : 1, &random);
            memset(packet, 0, sizeof packet);
            pack(made_still(&made), packet);
            write_numbered("length", 2 * i + full, packet, ends[i]);
            made_done(&made);
        }
}

int main(int count, char **arguments)
{
    uint64_t packets = count > 2 ? strtoull(arguments[2], NULL, 10) : 100;
    uint64_t seed = count > 3 ? strtoull(arguments[3], NULL, 10) : 1;
    if (count < 2) {
        fputs("usage: packets FOLDER [count [seed]]\n", stderr);
        return 2;
    }
    folder = arguments[1];
    document_01();
    small(packets, seed);
    large(seed);
    exact_corners(PROGRAM_CORNERS, seed);
    exact_corners(PROGRAM_CORNERS + 1, seed);
    damaged(packets, seed);
    header(seed);
    lengths(seed);
    return 0;
}
