#include "groups.h"

#include "tally.h"

void on_large(const char *title, const size_t blocks[4], Options options, Try *try)
{
    tally_begin(title);
    for (size_t size = 0; size < large_sizes(options); size++)
        for (Large kind = 0; kind < LARGE_KINDS; kind++) {
            Random random = random_of(options.seed, 1000 * kind + blocks[size]);
            Made made = made_large(kind, blocks[size], &random);
            tally_case("%zu blocks, %s", blocks[size], large_names[kind]);
            try(&made, &random);
            made_done(&made);
        }
    tally_end();
}

void on_real(const char *title, Options options, Try *try)
{
    static const char *const names[] = {"camera_q50.pkt", "astronaut_q50.pkt", "camera_q90.pkt", "camera_q75.raw",
                                        "astronaut_q90.raw"};
    tally_begin(title);
    for (size_t i = 0; i < 5; i++) {
        Random random = random_of(options.seed, i);
        Made made;
        bool read = i < 3 ? made_from_packet(options.samples, names[i], &made)
                          : made_from_raw(options.samples, names[i], &made);
        tally_case("%s", names[i]);
        if (!tally(read, "can't be read"))
            continue;
        try(&made, &random);
        made_done(&made);
    }
    tally_end();
}

void on_bad(const char *title, Options options, Try *try)
{
    static const char *const names[BAD_KINDS] = {"length", "step", "level"};
    tally_begin(title);
    for (Bad kind = 0; kind < BAD_KINDS; kind++)
        for (unsigned place = 0; place < BAD_PLACES; place++) {
            Random random = random_of(options.seed, place);
            Made made = made_bad(kind, place, &random);
            tally_case("%s %u", names[kind], place);
            try(&made, &random);
            made_done(&made);
        }
    tally_end();
}
