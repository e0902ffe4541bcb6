/* The packed still, what the list program prints for it, and what the head-end's buffer holds. */
#include "plain.h"

#include <stdlib.h>
#include <string.h>

/* Fields follow each other without gaps, most significant bit first. */
static unsigned read_field(const uint8_t *packet, size_t *at, unsigned width)
{
    unsigned field = 0;
    for (unsigned i = 0; i < width; i++, ++*at)
        field = field << 1 | (packet[*at / 8] >> (7 - *at % 8) & 1);
    return field;
}

static void write_field(uint8_t *packet, size_t *at, unsigned width, unsigned field)
{
    for (unsigned i = width; i-- > 0; ++*at)
        if (field >> i & 1)
            packet[*at / 8] |= (uint8_t)(0x80 >> *at % 8);
}

/* Only 11 is told here; whatever the fields hold is handed on. */
Answer unpack(const uint8_t *packet, size_t packet_len, Unpacked *unpacked)
{
    if (packet_len < 2 || packet[0] != 1 || packet_len != PACKED_HEAD + PACKED_BLOCK * ((size_t)packet[1] + 1))
        return (Answer){11, packet_len, 0, 0};
    size_t at = 8;
    unpacked->blocks = read_field(packet, &at, 8) + 1;
    for (size_t k = 0; k < POSITIONS; k++)
        unpacked->steps[k] = (uint8_t)read_field(packet, &at, 8);
    for (size_t entry = 0; entry < LENGTHS; entry++)
        unpacked->lengths[entry] = (uint8_t)read_field(packet, &at, 5);
    for (size_t i = 0; i < POSITIONS * unpacked->blocks; i++) {
        unsigned field = read_field(packet, &at, 12);
        unpacked->levels[i] = (int16_t)(field < 2048 ? (int)field : (int)field - 4096);
    }
    return (Answer){0, 0, 0, 0};
}

size_t pack(Still still, uint8_t *packet)
{
    size_t blocks = still.levels_len / POSITIONS, length = PACKED_HEAD + PACKED_BLOCK * blocks, at = 0;
    memset(packet, 0, length);
    write_field(packet, &at, 8, 1);
    write_field(packet, &at, 8, (unsigned)(blocks - 1));
    for (size_t k = 0; k < POSITIONS; k++)
        write_field(packet, &at, 8, still.steps[k]);
    for (size_t entry = 0; entry < LENGTHS; entry++)
        write_field(packet, &at, 5, still.lengths[entry]);
    for (size_t i = 0; i < still.levels_len; i++)
        write_field(packet, &at, 12, (unsigned)still.levels[i] & 0xfff);
    return length;
}

Still still_of(const Unpacked *unpacked)
{
    return (Still){unpacked->levels, POSITIONS * unpacked->blocks, unpacked->steps, POSITIONS,
                   unpacked->lengths, LENGTHS};
}

void keep_bytes(const uint64_t *numbers, size_t blocks, uint8_t *keep)
{
    for (size_t i = 0; i < 8 * blocks; i++)
        keep[i] = (uint8_t)(numbers[i / 8] >> (56 - 8 * (i % 8)));
}

uint32_t plain_budget(const uint8_t *packet, size_t packet_len, uint32_t budget, uint8_t *keep, size_t keep_len)
{
    static Unpacked unpacked;
    uint64_t numbers[MOST_PACKED];
    Answer told = unpack(packet, packet_len, &unpacked);
    if (told.number != 0)
        return (uint32_t)told.number;
    /* a buffer of another length than 8n takes the place of a keep slice that is not n long */
    size_t places = keep_len == 8 * unpacked.blocks ? unpacked.blocks : 0;
    Plain plain = plain_of(still_of(&unpacked), BY_PROGRAMME);
    told = plain_fit(&plain, budget, numbers, places);
    plain_done(&plain);
    if (told.number == 0)
        keep_bytes(numbers, unpacked.blocks, keep);
    return (uint32_t)told.number;
}

void plain_print(const uint8_t *packet, size_t packet_len, FILE *out)
{
    static Unpacked unpacked;
    static uint64_t list[3 * PROGRAM_CORNERS];
    Answer told = unpack(packet, packet_len, &unpacked);
    if (told.number == 0) {
        Plain plain = plain_of(still_of(&unpacked), BY_PROGRAMME);
        told = plain_list(&plain, list, 3 * PROGRAM_CORNERS);
        plain_done(&plain);
    }
    if (told.number != 0) {
        fprintf(out, "refused %ju %ju %ju\n", (uintmax_t)told.number, (uintmax_t)told.first,
                (uintmax_t)told.second);
        return;
    }
    fprintf(out, "corners %ju\n", (uintmax_t)told.first);
    for (size_t i = 0; i < told.first; i++)
        fprintf(out, "%ju %ju %ju\n", (uintmax_t)list[3 * i], (uintmax_t)list[3 * i + 1],
                (uintmax_t)list[3 * i + 2]);
}
