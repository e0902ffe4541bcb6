/* The three sides of the benchmark behind one call. */
#include "sides.h"

#include "../tests/probe.h"
#include "fast.h"

const char *const job_names[JOBS] = {"price", "list", "budget", "thinning"};
const char *const side_names[SIDES] = {"ours", "fast", "table", "independent"};

bool has(Side side, Job job)
{
    return side != TABLE || job == PRICE;
}

static Answer run_ours(const Call *call)
{
    Still still = call->still;
    Answer told;
    switch (call->job) {
    case PRICE:
        anb_price(still.levels, still.levels_len, still.steps, still.steps_len, still.lengths, still.lengths_len,
                  call->a, call->b, call->room, call->room_len, &told.number, 4);
        break;
    case LIST:
        anb_list(still.levels, still.levels_len, still.steps, still.steps_len, still.lengths, still.lengths_len,
                 call->room, call->room_len, &told.number, 4);
        break;
    case BUDGET:
        anb_fit(still.levels, still.levels_len, still.steps, still.steps_len, still.lengths, still.lengths_len,
                call->budget, call->room, call->room_len, &told.number, 4);
        break;
    default:
        anb_thin(call->levels, still.levels_len, call->room, call->room_len, &told.number, 4);
    }
    return told;
}

static Answer run_fast(const Call *call)
{
    switch (call->job) {
    case PRICE:
        return fast_price(call->still, call->a, call->b, call->room, call->room_len);
    case LIST:
        return fast_list(call->still, call->room, call->room_len);
    case BUDGET:
        return fast_fit(call->still, call->budget, call->room, call->room_len);
    default:
        return fast_thin(call->levels, call->still.levels_len, call->room, call->room_len);
    }
}

Answer run_plain(Plain *plain, const Call *call)
{
    switch (call->job) {
    case PRICE:
        return plain_price(plain, call->a, call->b, call->room, call->room_len);
    case LIST:
        return plain_list(plain, call->room, call->room_len);
    case BUDGET:
        return plain_fit(plain, call->budget, call->room, call->room_len);
    default:
        return plain_thin(call->levels, call->still.levels_len, call->room, call->room_len);
    }
}

Answer run(Side side, const Call *call)
{
    if (side == OURS)
        return run_ours(call);
    if (side == FAST)
        return run_fast(call);
    if (side == TABLE)
        return table_price(call->still, call->a, call->b, call->room, call->room_len);
    Plain plain = plain_of(call->still, BY_PROGRAMME);
    Answer told = run_plain(&plain, call);
    plain_done(&plain);
    return told;
}
