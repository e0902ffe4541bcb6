/* The arguments that every test program takes: [count [seed [samples]]]. */
#ifndef OPTIONS_H
#define OPTIONS_H

#include <stddef.h>
#include <stdint.h>
#include <stdio.h>
#include <stdlib.h>

typedef struct {
    uint64_t count, seed;
    const char *samples; /* the folder of the real stills */
} Options;

static inline Options options_of(int count, char **arguments, uint64_t default_count)
{
    Options options = {default_count, 1, "samples"};
    if (count > 1)
        options.count = strtoull(arguments[1], NULL, 10);
    if (count > 2)
        options.seed = strtoull(arguments[2], NULL, 10);
    if (count > 3)
        options.samples = arguments[3];
    printf("%s: %ju small stills, seed %ju, samples in %s\n", arguments[0], (uintmax_t)options.count,
           (uintmax_t)options.seed, options.samples);
    return options;
}

/* A short run leaves out the largest of the four sizes of large stills. */
static inline size_t large_sizes(Options options)
{
    return options.count < 1000 ? 3 : 4;
}

#endif
