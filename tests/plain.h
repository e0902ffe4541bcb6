/* The independent implementation: the rules of document 01 in plain C, sharing nothing with the library. */
#ifndef PLAIN_H
#define PLAIN_H

#include <stdbool.h>
#include <stddef.h>
#include <stdint.h>
#include <stdio.h>

enum {
    POSITIONS = 64,        /* levels of a block, steps of a quantizer */
    LAST = 63,             /* the last AC position */
    LENGTHS = 256,         /* entries of a code-length table */
    END_OF_BLOCK = 0,      /* its entry */
    SIXTEEN_ZEROS = 240,   /* its entry */
    GREATEST_LEVEL = 1023,
    GREATEST_LENGTH = 16,
    MOST_BLOCKS = 1024,
    MOST_PACKED = 256,     /* blocks of a packed still */
    PACKED_HEAD = 226,     /* bytes of a packed still before its blocks */
    PACKED_BLOCK = 96,     /* bytes of a packed block */
    PACKET_ROOM = 24803,   /* one byte more than any packet has */
    PROGRAM_CORNERS = 1024 /* what the list program lists at most */
};

#define GREATEST_A UINT64_C(65535)
#define GREATEST_B UINT64_C(8000000000000)
#define GREATEST_BLOCK_ERROR UINT64_C(4287184538175)

/* Wide enough for any price of a corner, of any still. */
__extension__ typedef unsigned __int128 Cost;
__extension__ typedef __int128 Signed;

/* The three slices that stand for a still. */
typedef struct {
    const int16_t *levels;
    size_t levels_len;
    const uint8_t *steps;
    size_t steps_len;
    const uint8_t *lengths;
    size_t lengths_len;
} Still;

/* One block of a still: 64 levels, 64 steps, 256 lengths. */
typedef struct {
    const int16_t *levels;
    const uint8_t *steps;
    const uint8_t *lengths;
} Block;

typedef struct {
    uint64_t bits, error;
} Pair;

typedef struct {
    Pair pair;
    uint64_t keep;
} Choice;

typedef struct {
    Choice *at;
    size_t count;
} Choices;

typedef struct {
    Pair *at;
    size_t count;
} Pairs;

typedef struct {
    uint64_t bits, error, kept;
} Point;

/* From this corner on, this block has this keep number. */
typedef struct {
    size_t corner, block;
    uint64_t keep;
} Move;

/* The corners of a still in rising bits, and the moves in rising corner that lead to each of them. */
typedef struct {
    Point *corners;
    size_t count, room;
    Move *moves;
    size_t move_count, move_room;
} Stops;

/* Four numbers: 0 and what the job answers, or the refusal's number and its two details. */
typedef struct {
    uint64_t number, first, second, third;
} Answer;

/* The two ways to work out what a still holds. */
typedef enum {
    BY_DEFINITION, /* all choices of every block; for small blocks */
    BY_PROGRAMME   /* a dynamic programme over kept positions; for any block */
} Way;

/* A still, and what has been worked out about it so far. */
typedef struct {
    Still still;
    Way way;
    Choices *choices; /* by definition: every codable choice, for each block; null until asked for */
    Stops stops;      /* empty until asked for */
    bool looked;      /* for a block without a codable choice: */
    Answer codable;   /* fine, or 7 */
} Plain;

/* plain.c: the checks in their order, and the four jobs. */
Plain plain_of(Still still, Way way);
void plain_done(Plain *plain);
Answer plain_price(Plain *plain, uint64_t a, uint64_t b, uint64_t *keep, size_t keep_len);
Answer plain_list(Plain *plain, uint64_t *list, size_t list_len);
Answer plain_fit(Plain *plain, uint32_t budget, uint64_t *keep, size_t keep_len);
Answer plain_thin(int16_t *levels, size_t levels_len, const uint64_t *keep, size_t keep_len);
const Stops *plain_stops(Plain *plain); /* of a still that no check refuses */
Block block_of(Still still, size_t block);
unsigned size_of(int level);
unsigned ones(uint64_t keep);
Cost cost_of(Pair pair, uint64_t a, uint64_t b);
bool before(Choice x, Choice y, uint64_t a, uint64_t b); /* cost, then bits, then keep number */
void *room_for(size_t count, size_t size);

/* stops.c: what both ways build their corners with. */
void stops_add(Stops *stops, Point corner);
void stops_move(Stops *stops, size_t block, uint64_t keep); /* at the corner to be added next */
void stops_keep(const Stops *stops, size_t corner, uint64_t *keep);
void stops_done(Stops *stops);

/* definition.c: all choices. */
bool choice_bits(Block block, uint64_t keep, uint64_t *bits); /* false: not codable */
uint64_t choice_error(Block block, uint64_t keep);
Choices choices_of(Block block);
Choice choices_best(Choices choices, uint64_t a, uint64_t b); /* choices are not empty */
Pairs attainable(const Choices *blocks, size_t count);
Pairs corners_of(Pairs pairs);
void corner_price(Pairs corners, size_t corner, uint64_t *a, uint64_t *b);
Stops stops_by_definition(const Choices *blocks, size_t count);

/* programme.c: the dynamic programme. */
bool programme_best(Block block, uint64_t a, uint64_t b, Choice *best); /* false: no codable choice */
Stops stops_by_programme(Still still);

/* packed.c: the packed still, the list program's text, the head-end's buffer. */
typedef struct {
    size_t blocks;
    uint8_t steps[POSITIONS], lengths[LENGTHS];
    int16_t levels[MOST_PACKED * POSITIONS];
} Unpacked;

Answer unpack(const uint8_t *packet, size_t packet_len, Unpacked *unpacked);
size_t pack(Still still, uint8_t *packet); /* 1 to 256 blocks; the length of the packet */
Still still_of(const Unpacked *unpacked);
void keep_bytes(const uint64_t *numbers, size_t blocks, uint8_t *keep); /* 8 a block, most significant first */
uint32_t plain_budget(const uint8_t *packet, size_t packet_len, uint32_t budget, uint8_t *keep, size_t keep_len);
void plain_print(const uint8_t *packet, size_t packet_len, FILE *out);

/* k5.c: Table K.5. */
void k5_lengths(uint8_t lengths[LENGTHS]);

#endif
