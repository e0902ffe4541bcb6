/* Buffers lent to the library: guard bytes around them, and a copy of what they held. */
#ifndef LENT_H
#define LENT_H

#include "plain.h"

typedef struct {
    void *at; /* what the library gets */
    size_t size;
    uint8_t *memory;
    void *was;
    size_t before, behind; /* guard bytes */
    void *mapping;         /* if it stands at a wall */
    size_t mapped;
} Lent;

Lent lend(const void *content, size_t size);
Lent lend_at_odd_place(const void *content, size_t size); /* for bytes, which may lie anywhere */
Lent lend_at_wall(const void *content, size_t size);      /* what lies behind it can't be read */
bool lent_unchanged(const Lent *lent);                    /* guards too */
bool lent_holds(const Lent *lent, const void *content);   /* guards unchanged, too */
void settle(const char *call, const Lent *answer, Answer expected, const Lent *stored, const void *content,
            bool rest_unchanged); /* the whole of what one call left behind, as one comparison */
void lent_done(Lent *lent);

/* The three slices of a still, lent. */
typedef struct {
    Lent levels, steps, lengths;
} LentStill;

LentStill lend_still(Still still);
LentStill lend_still_at_wall(Still still); /* what lies behind each slice can't be read */
bool lent_still_unchanged(const LentStill *lent);
void lent_still_done(LentStill *lent);

#endif
