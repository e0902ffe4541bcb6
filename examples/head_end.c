/* A small head-end: fits the packed still of a file into a budget of bits, and tells what is kept of each block, and the
   stops around the budget. Run as: head_end PACKET BUDGET. */
#include "anubeshogwi.h"

#include <errno.h>
#include <stdbool.h>
#include <stdio.h>
#include <stdlib.h>
#include <string.h>

enum {
    MOST_BLOCKS = 256,
    KEEP_BYTES = 8,
    PACKET_ROOM = 226 + 96 * MOST_BLOCKS + 1,
    MOST_BITS = 1638 * MOST_BLOCKS /* no still takes more */
};

typedef struct {
    uint8_t packet[PACKET_ROOM];
    size_t length, blocks;
} Sent;

typedef struct {
    uint8_t keep[KEEP_BYTES * MOST_BLOCKS];
    uint32_t bits;
} Stop;

static const char *in_words(uint32_t refusal)
{
    switch (refusal) {
    case ANB_BAD_STEP:
        return "a step of the quantizer is 0";
    case ANB_BAD_LENGTH:
        return "a code length is above 16";
    case ANB_BAD_KEEP:
        return "the buffer for the keep numbers has the wrong length";
    case ANB_BAD_LEVEL:
        return "a level is outside -1023 to 1023";
    case ANB_UNCODABLE:
        return "a block can't be coded with these code lengths";
    case ANB_OVER_BUDGET:
        return "the still takes more bits than the budget, whatever is dropped";
    case ANB_BAD_PACKET:
        return "this is no packet: wrong version or wrong length";
    default:
        return "a refusal that this program doesn't know";
    }
}

/* One byte of room more than any packet has, so that a file that is too long is refused and not cut. */
static void read_packet(const char *path, Sent *sent)
{
    FILE *file = fopen(path, "rb");
    if (file == NULL) {
        perror(path);
        exit(2);
    }
    sent->length = fread(sent->packet, 1, PACKET_ROOM, file);
    sent->blocks = sent->length < 2 ? 0 : (size_t)sent->packet[1] + 1;
    fclose(file);
}

static uint32_t read_budget(const char *argument)
{
    char *end;
    errno = 0;
    unsigned long long budget = strtoull(argument, &end, 10);
    if (argument[0] < '0' || argument[0] > '9' || *end != '\0' || errno != 0 || budget > UINT32_MAX) {
        fprintf(stderr, "%s: a budget is a number of bits, 0 to %ju\n", argument, (uintmax_t)UINT32_MAX);
        exit(2);
    }
    return (uint32_t)budget;
}

static uint32_t fit(const Sent *sent, uint32_t budget, uint8_t *keep)
{
    return anb_budget(sent->packet, sent->length, budget, keep, KEEP_BYTES * sent->blocks);
}

/* Whether a budget gives this stop and no other. */
static bool gives(const Sent *sent, uint32_t budget, const Stop *stop)
{
    static uint8_t keep[KEEP_BYTES * MOST_BLOCKS];
    return fit(sent, budget, keep) == ANB_ACCEPTED && memcmp(keep, stop->keep, KEEP_BYTES * sent->blocks) == 0;
}

/* The least budget from low to high that gives the stop, or that does not, if high is one: budgets that give it stand
   together. */
static uint32_t first_budget(const Sent *sent, const Stop *stop, bool given, uint32_t low, uint32_t high)
{
    while (low < high) {
        uint32_t middle = low + (high - low) / 2;
        if (gives(sent, middle, stop) == given)
            high = middle;
        else
            low = middle + 1;
    }
    return low;
}

/* The stop that a budget gives, with the bits it takes: the least budget that gives it. */
static uint32_t find_stop(const Sent *sent, uint32_t budget, Stop *stop)
{
    uint32_t refusal = fit(sent, budget, stop->keep);
    if (refusal == ANB_ACCEPTED)
        stop->bits = first_budget(sent, stop, true, 0, budget < MOST_BITS ? budget : MOST_BITS);
    return refusal;
}

/* The kept levels of one block: the ones in its 8 bytes. */
static unsigned kept_in(const uint8_t *keep)
{
    unsigned kept = 0;
    for (size_t i = 0; i < KEEP_BYTES; i++)
        for (unsigned byte = keep[i]; byte != 0; byte &= byte - 1)
            kept++;
    return kept;
}

static unsigned kept_of(const Sent *sent, const Stop *stop)
{
    unsigned kept = 0;
    for (size_t block = 0; block < sent->blocks; block++)
        kept += kept_in(stop->keep + KEEP_BYTES * block);
    return kept;
}

/* Sixteen blocks a line. */
static void print_kept(const Sent *sent, const Stop *stop)
{
    for (size_t block = 0; block < sent->blocks; block++) {
        if (block % 16 == 0)
            printf("block %3zu:", block);
        printf(" %2u%s", kept_in(stop->keep + KEEP_BYTES * block), block % 16 == 15 || block + 1 == sent->blocks ? "\n" : "");
    }
    printf("%u levels kept in %zu blocks\n", kept_of(sent, stop), sent->blocks);
}

static void print_stop(const char *which, const Sent *sent, const Stop *stop)
{
    printf("%s: %u bits, %u levels kept\n", which, (unsigned)stop->bits, kept_of(sent, stop));
}

/* The stop, the one before it and the one behind it, where there are such. */
static void print_stops(const Sent *sent, const Stop *stop)
{
    static Stop other;
    if (stop->bits > 0 && find_stop(sent, stop->bits - 1, &other) == ANB_ACCEPTED)
        print_stop("the stop before", sent, &other);
    print_stop("this stop", sent, stop);
    if (gives(sent, MOST_BITS, stop))
        return;
    find_stop(sent, first_budget(sent, stop, false, stop->bits, MOST_BITS), &other);
    print_stop("the stop behind", sent, &other);
}

int main(int count, char **arguments)
{
    static Sent sent;
    static Stop stop;
    if (count != 3) {
        fprintf(stderr, "usage: head_end PACKET BUDGET\n");
        return 2;
    }
    uint32_t budget = read_budget(arguments[2]);
    read_packet(arguments[1], &sent);
    uint32_t refusal = find_stop(&sent, budget, &stop);
    if (refusal != ANB_ACCEPTED) {
        printf("refused by %u: %s\n", (unsigned)refusal, in_words(refusal));
        return 1;
    }
    print_kept(&sent, &stop);
    print_stops(&sent, &stop);
    return 0;
}
