/* A small seeded source of random numbers (splitmix64). */
#include "random.h"

uint64_t draw(Random *random)
{
    uint64_t z = random->state += UINT64_C(0x9e3779b97f4a7c15);
    z = (z ^ z >> 30) * UINT64_C(0xbf58476d1ce4e5b9);
    z = (z ^ z >> 27) * UINT64_C(0x94d049bb133111eb);
    return z ^ z >> 31;
}

Random random_of(uint64_t seed, uint64_t serial)
{
    Random random = {seed};
    random.state = draw(&random) ^ serial;
    random.state = draw(&random);
    return random;
}

/* A bias of one in 2^50 or less does not matter here. */
uint64_t below(Random *random, uint64_t bound)
{
    return draw(random) % bound;
}

int64_t between(Random *random, int64_t least, int64_t greatest)
{
    return least + (int64_t)below(random, (uint64_t)(greatest - least) + 1);
}

bool one_in(Random *random, uint64_t count)
{
    return below(random, count) == 0;
}

uint64_t any_size(Random *random, uint64_t greatest)
{
    uint64_t number = draw(random); /* drawn one after the other: C leaves open which operand comes first */
    number >>= below(random, 64);
    return greatest == UINT64_MAX ? number : number % (greatest + 1);
}

void fill_randomly(Random *random, void *room, size_t size)
{
    uint8_t *bytes = room;
    for (size_t i = 0; i < size; i++)
        bytes[i] = (uint8_t)draw(random);
}
