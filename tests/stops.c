/* The corners of a still as they are gathered, and the keep numbers that belong to each. */
#include "plain.h"

#include <stdlib.h>
#include <string.h>

/* Doubles a full array. */
static void *grown(void *array, size_t count, size_t *room, size_t size)
{
    if (count < *room)
        return array;
    size_t wider = *room ? 2 * *room : 16;
    void *longer = room_for(wider, size);
    if (count > 0)
        memcpy(longer, array, count * size);
    free(array);
    *room = wider;
    return longer;
}

void stops_add(Stops *stops, Point corner)
{
    stops->corners = grown(stops->corners, stops->count, &stops->room, sizeof corner);
    stops->corners[stops->count++] = corner;
}

void stops_move(Stops *stops, size_t block, uint64_t keep)
{
    Move move = {stops->count, block, keep};
    stops->moves = grown(stops->moves, stops->move_count, &stops->move_room, sizeof move);
    stops->moves[stops->move_count++] = move;
}

void stops_keep(const Stops *stops, size_t corner, uint64_t *keep)
{
    for (size_t i = 0; i < stops->move_count && stops->moves[i].corner <= corner; i++)
        keep[stops->moves[i].block] = stops->moves[i].keep;
}

void stops_done(Stops *stops)
{
    free(stops->corners);
    free(stops->moves);
    memset(stops, 0, sizeof *stops);
}
