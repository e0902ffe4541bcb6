/* Buffers lent to the library, watched. */
#include "lent.h"

#include "tally.h"

#include <stdlib.h>
#include <string.h>
#include <sys/mman.h>

enum { GUARD = 64, ODD = 3, PAGE = 65536 }; /* bytes; no machine has larger pages */

static uint8_t guard_byte(size_t i)
{
    return (uint8_t)(0xa5 ^ 7 * i);
}

static void fill_in(Lent *lent, const void *content)
{
    lent->at = lent->memory + lent->before;
    lent->was = room_for(lent->size, 1);
    for (size_t i = 0; i < lent->before; i++)
        lent->memory[i] = guard_byte(i);
    for (size_t i = 0; i < lent->behind; i++)
        lent->memory[lent->before + lent->size + i] = guard_byte(i);
    if (lent->size > 0) {
        memcpy(lent->at, content, lent->size);
        memcpy(lent->was, content, lent->size);
    }
}

static Lent lend_behind(const void *content, size_t size, size_t before)
{
    Lent lent = {.size = size, .before = before, .behind = GUARD};
    lent.memory = room_for(before + size + GUARD, 1);
    fill_in(&lent, content);
    return lent;
}

Lent lend(const void *content, size_t size)
{
    return lend_behind(content, size, GUARD);
}

Lent lend_at_odd_place(const void *content, size_t size)
{
    return lend_behind(content, size, GUARD + ODD);
}

Lent lend_at_wall(const void *content, size_t size)
{
    size_t open = ((size + GUARD) / PAGE + 1) * PAGE;
    Lent lent = {.size = size, .before = GUARD, .mapped = open + PAGE};
    lent.mapping = mmap(NULL, lent.mapped, PROT_READ | PROT_WRITE, MAP_PRIVATE | MAP_ANONYMOUS, -1, 0);
    lent.memory = (uint8_t *)lent.mapping + open - size - GUARD;
    if (lent.mapping == MAP_FAILED || mprotect((uint8_t *)lent.mapping + open, PAGE, PROT_NONE) != 0) {
        fputs("lent: no wall\n", stderr);
        exit(2);
    }
    fill_in(&lent, content);
    return lent;
}

static bool guards_stand(const Lent *lent)
{
    bool stand = true;
    for (size_t i = 0; i < lent->before; i++)
        stand &= lent->memory[i] == guard_byte(i);
    for (size_t i = 0; i < lent->behind; i++)
        stand &= lent->memory[lent->before + lent->size + i] == guard_byte(i);
    return stand;
}

bool lent_holds(const Lent *lent, const void *content)
{
    return guards_stand(lent) && (lent->size == 0 || memcmp(lent->at, content, lent->size) == 0);
}

bool lent_unchanged(const Lent *lent)
{
    return lent_holds(lent, lent->was);
}

void lent_done(Lent *lent)
{
    if (lent->mapping != NULL)
        munmap(lent->mapping, lent->mapped);
    else
        free(lent->memory);
    free(lent->was);
}

LentStill lend_still(Still still)
{
    return (LentStill){lend(still.levels, still.levels_len * sizeof *still.levels),
                       lend(still.steps, still.steps_len), lend(still.lengths, still.lengths_len)};
}

LentStill lend_still_at_wall(Still still)
{
    return (LentStill){lend_at_wall(still.levels, still.levels_len * sizeof *still.levels),
                       lend_at_wall(still.steps, still.steps_len), lend_at_wall(still.lengths, still.lengths_len)};
}

bool lent_still_unchanged(const LentStill *lent)
{
    return lent_unchanged(&lent->levels) && lent_unchanged(&lent->steps) && lent_unchanged(&lent->lengths);
}

void lent_still_done(LentStill *lent)
{
    lent_done(&lent->levels);
    lent_done(&lent->steps);
    lent_done(&lent->lengths);
}

void settle(const char *call, const Lent *answer, Answer expected, const Lent *stored, const void *content,
            bool rest_unchanged)
{
    Answer got;
    memcpy(&got, answer->at, sizeof got);
    bool answered = tally_answer(call, got, expected);
    if (answered && !lent_holds(stored, content))
        tally(false, "%s %s", call, expected.number == 0 ? "stored something else" : "stored although it refused");
    else if (answered && !rest_unchanged)
        tally(false, "%s changed what it only reads", call);
    else if (answered && !lent_holds(answer, &expected))
        tally(false, "%s wrote beyond its answer", call);
}
