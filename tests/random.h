/* A small seeded source of random numbers, the same on every machine. */
#ifndef RANDOM_H
#define RANDOM_H

#include <stdbool.h>
#include <stddef.h>
#include <stdint.h>

typedef struct {
    uint64_t state;
} Random;

Random random_of(uint64_t seed, uint64_t serial); /* one source for each serial number of a case */
uint64_t draw(Random *random);                    /* 64 random bits */
uint64_t below(Random *random, uint64_t bound);   /* 0 to bound - 1; bound is at least 1 */
int64_t between(Random *random, int64_t least, int64_t greatest);
bool one_in(Random *random, uint64_t count);
uint64_t any_size(Random *random, uint64_t greatest); /* 0 to greatest, small and large ones alike */
void fill_randomly(Random *random, void *room, size_t size);

#endif
