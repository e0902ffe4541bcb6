/* Stills to test with: random small ones, worst cases of any size, real ones from files. */
#ifndef STILLS_H
#define STILLS_H

#include "plain.h"
#include "random.h"

/* A still with its own memory. */
typedef struct {
    size_t blocks;
    int16_t *levels;
    uint8_t steps[POSITIONS], lengths[LENGTHS];
} Made;

/* The kinds of large still. */
typedef enum {
    LARGE_RANDOM,     /* 63 nonzero levels of any size, steps of any size */
    LARGE_FALLING,    /* 63 nonzero levels, falling */
    LARGE_ONES,       /* 63 levels of 1 and -1, equal steps */
    LARGE_GREATEST,   /* 63 levels of 1,023 and -1,023, steps 255: the greatest error */
    LARGE_LONGEST,    /* as before, every length 16: the most bits */
    LARGE_EQUAL,      /* the same block again and again, 24 nonzero levels: equal slopes */
    LARGE_PARALLEL,   /* one level a block, of equal slope but unequal size */
    LARGE_COLLINEAR,  /* every level adds the same bits and removes the same error */
    LARGE_GAPS,       /* a random table with codes missing */
    LARGE_FORCED,     /* the greatest levels have no code: great costs that differ by little */
    LARGE_PHOTOGRAPH, /* few nonzero levels, at the front, small */
    LARGE_KINDS
} Large;

extern const char *const large_names[LARGE_KINDS];

/* What small stills held, counted. */
typedef struct {
    uint64_t stills, blocks[5], k5, gaps, no_end, no_zeros, uncodable;
} Held;

/* What can be bad at a place of a still of 4 blocks: each has 256 places, of which the steps take each four times. */
typedef enum { BAD_LENGTH, BAD_STEP, BAD_LEVEL, BAD_KINDS } Bad;

enum { BAD_PLACES = 256 };

Still made_still(const Made *made);
Made made_zero(size_t blocks, uint8_t step); /* Table K.5, all levels 0 */
Made made_small(Random *random);             /* 1 to 4 blocks, at most 4,096 ways to choose */
Made made_sound(Random *random);             /* the same, and every block has a codable choice */
Made made_large(Large kind, size_t blocks, Random *random);
Made made_bad(Bad kind, unsigned place, Random *random); /* by a value that a packet can hold; a DC is never bad */
bool made_from_packet(const char *folder, const char *name, Made *made);
bool made_from_raw(const char *folder, const char *name, Made *made);
size_t read_file(const char *folder, const char *name, uint8_t *room, size_t size);
void held_add(Held *held, const Made *made);
bool sound(const Made *made); /* every block has a codable choice */
void made_done(Made *made);

#endif
