/* Times the proved jobs against the fast ones and the independent implementation; prints a table and writes JSON.
   Run as: bench OUT [SAMPLES]. MACHINE in the environment names the machine, HOST tells its kind as `uname -m` does.
   Answers are compared before any time is taken. A time is the least CPU time of many runs, the sides in turn. */
#include "../tests/random.h"
#include "../tests/stills.h"
#include "sides.h"
#include "stack.h"

#include <stdlib.h>
#include <string.h>
#include <time.h>

enum {
    MOST_RUNS = 60,
    FEWEST_RUNS = 5,
    POINTS = 4,
    MOST_ROWS = 100,    /* of real stills, for one job */
    MOST_NOISES = 1000, /* rows in all */
    FINE_A = 16,        /* prices on error for the points, so that b can be told finely */
    GROWING_LEVELS = 10,
    GROWING_BLOCKS = 256
};

static const double shortest_run = 0.0005, allowance = 0.15, hopeless = 1.0; /* seconds */
static const unsigned hundredths[POINTS] = {100, 75, 50, 25};                /* of the bit range */

#if defined __x86_64__
static const char compiled_for[] = "x86_64";
#elif defined __aarch64__
static const char compiled_for[] = "aarch64";
#else
static const char compiled_for[] = "another machine";
#endif

#if defined __clang__
static const char compiler[] = __VERSION__;
#else
static const char compiler[] = "gcc " __VERSION__;
#endif

/* ---- Times. ---- */

/* ns a block; 0 where nothing was timed */
typedef struct {
    double least, median;
} Timed;

static double cpu_seconds(void)
{
    struct timespec now;
    clock_gettime(CLOCK_PROCESS_CPUTIME_ID, &now);
    return (double)now.tv_sec + 1e-9 * (double)now.tv_nsec;
}

static double time_calls(Side side, const Call *call, unsigned calls)
{
    double start = cpu_seconds();
    for (unsigned i = 0; i < calls; i++)
        run(side, call);
    return (cpu_seconds() - start) / calls;
}

static int by_size(const void *left, const void *right)
{
    const double *x = left, *y = right;
    return (*x > *y) - (*x < *y);
}

/* Runs the sides in turn, so that a disturbance falls on all of them. */
static void time_sides(const Call *call, const bool timed[SIDES], Timed times[SIDES])
{
    double seconds[SIDES][MOST_RUNS], spent[SIDES] = {0};
    unsigned calls[SIDES] = {0}, runs[SIDES] = {0};
    for (unsigned i = 0; i < MOST_RUNS; i++)
        for (Side side = 0; side < SIDES; side++) {
            unsigned fewest = side == INDEPENDENT ? 1 : FEWEST_RUNS;
            if (!timed[side] || (runs[side] >= fewest && spent[side] > allowance))
                continue;
            if (calls[side] == 0)
                calls[side] = 1 + (unsigned)(shortest_run / (time_calls(side, call, 1) + 1e-9));
            seconds[side][runs[side]] = time_calls(side, call, calls[side]);
            spent[side] += calls[side] * seconds[side][runs[side]++];
        }
    for (Side side = 0; side < SIDES; side++) {
        double block = 1e9 / ((double)call->still.levels_len / POSITIONS);
        if (runs[side] > 0)
            qsort(seconds[side], runs[side], sizeof **seconds, by_size);
        times[side] = runs[side] == 0 ? (Timed){0, 0}
                                      : (Timed){block * seconds[side][0], block * seconds[side][runs[side] / 2]};
    }
}

/* ---- Rows. ---- */

typedef struct {
    const char *group;
    char name[40];
    Made made;
    double nonzero;                  /* levels a block */
    Plain plain;                     /* what is known of it */
    bool slow;                       /* the independent implementation is, at corners */
    uint64_t least, most;            /* bits */
    uint64_t bits[POINTS], b[POINTS]; /* the points: bits, and the price that reaches them */
} Subject;

typedef struct {
    size_t stack[JOBS]; /* bytes that ours uses */
    double ratio[SIDES][JOBS][MOST_ROWS]; /* ours to the side, on real stills */
    unsigned count[SIDES][JOBS];
    double noise[MOST_NOISES]; /* the median run to the least, of ours */
    unsigned noises;
    unsigned wrong; /* answers */
    FILE *json;
    bool first;
} Record;

static bool same(const Call *call, Side side, Plain *plain, Record *record, const char *name)
{
    size_t room = call->room_len * sizeof *call->room, levels = call->still.levels_len * sizeof *call->levels;
    uint64_t *expected = room_for(call->room_len, sizeof *expected);
    int16_t *thinned = room_for(call->still.levels_len, sizeof *thinned);
    Call reference = *call;
    if (call->job == THINNING)
        memcpy(expected, call->room, room);
    memcpy(thinned, call->still.levels, levels);
    memcpy(call->levels, call->still.levels, levels);
    reference.room = expected;
    reference.levels = thinned;
    Answer told = run(side, call), wanted = run_plain(plain, &reference);
    bool equal = memcmp(&told, &wanted, sizeof told) == 0 && memcmp(call->room, expected, room) == 0 &&
                 memcmp(call->levels, thinned, levels) == 0;
    if (!equal) {
        fprintf(stderr, "bench: %s, %s: %s answered %ju %ju %ju %ju, expected %ju %ju %ju %ju\n", name,
                job_names[call->job], side_names[side], (uintmax_t)told.number, (uintmax_t)told.first,
                (uintmax_t)told.second, (uintmax_t)told.third, (uintmax_t)wanted.number, (uintmax_t)wanted.first,
                (uintmax_t)wanted.second, (uintmax_t)wanted.third);
        record->wrong++;
    }
    free(expected);
    free(thinned);
    return equal;
}

static void print_time(double time)
{
    if (time > 0)
        printf(" %9.0f", time);
    else
        printf(" %9s", "-");
}

static void print_ratio(double x, double y)
{
    if (x > 0 && y > 0)
        printf(" %8.2f", x / y);
    else
        printf(" %8s", "-");
}

static void print_row(const Subject *subject, Job job, const char *point, const Timed times[SIDES])
{
    printf("%-18s %6zu %7.1f  %-8s %-5s", subject->name, subject->made.blocks, subject->nonzero, job_names[job], point);
    for (Side side = 0; side < SIDES; side++)
        print_time(times[side].least);
    print_ratio(times[OURS].least, times[FAST].least);
    print_ratio(times[OURS].least, times[TABLE].least);
    putchar('\n');
    fflush(stdout);
}

static void write_row(Record *record, const Subject *subject, const Call *call, const char *point, uint64_t bits,
                      const Timed times[SIDES])
{
    fprintf(record->json,
            "%s\n    {\"group\": \"%s\", \"still\": \"%s\", \"blocks\": %zu, \"nonzero\": %.2f, \"job\": \"%s\", "
            "\"point\": \"%s\", \"a\": %ju, \"b\": %ju, \"budget\": %ju, \"bits\": %ju",
            record->first ? "" : ",", subject->group, subject->name, subject->made.blocks, subject->nonzero,
            job_names[call->job], point, (uintmax_t)call->a, (uintmax_t)call->b, (uintmax_t)call->budget,
            (uintmax_t)bits);
    record->first = false;
    for (Side side = 0; side < SIDES; side++)
        if (times[side].least > 0)
            fprintf(record->json, ", \"%s\": %.1f, \"%s_median\": %.1f", side_names[side], times[side].least,
                    side_names[side], times[side].median);
    fputs("}", record->json);
}

static void *run_ours(void *call)
{
    run(OURS, call);
    return NULL;
}

static void row(Record *record, Subject *subject, Call call, const char *point, uint64_t bits)
{
    bool timed[SIDES];
    Timed times[SIDES];
    for (Side side = 0; side < SIDES; side++) {
        timed[side] = has(side, call.job);
        if (timed[side] && side != INDEPENDENT && !same(&call, side, &subject->plain, record, subject->name))
            return;
    }
    if (timed[OURS]) {
        size_t used = stack_used(run_ours, &call);
        record->stack[call.job] = used > record->stack[call.job] ? used : record->stack[call.job];
    }
    timed[INDEPENDENT] = !(subject->slow && (call.job == LIST || call.job == BUDGET));
    time_sides(&call, timed, times);
    print_row(subject, call.job, point, times);
    write_row(record, subject, &call, point, bits, times);
    if (times[OURS].least > 0 && record->noises < MOST_NOISES)
        record->noise[record->noises++] = times[OURS].median / times[OURS].least;
    for (Side side = 0; side < SIDES; side++)
        if (strcmp(subject->group, "sample") == 0 && times[OURS].least > 0 && times[side].least > 0)
            record->ratio[side][call.job][record->count[side][call.job]++] = times[OURS].least / times[side].least;
}

/* ---- Points. ---- */

static uint64_t bits_at(Subject *subject, uint64_t a, uint64_t b)
{
    uint64_t keep[MOST_BLOCKS];
    Call call = {.job = PRICE, .still = made_still(&subject->made), .a = a, .b = b, .room = keep,
                 .room_len = subject->made.blocks};
    return run(FAST, &call).first;
}

/* The lowest price on bits that brings the still down to so many bits. */
static uint64_t price_for(Subject *subject, uint64_t bits)
{
    uint64_t low = 0, high = GREATEST_B;
    while (low < high) {
        uint64_t middle = low + (high - low) / 2;
        if (bits_at(subject, FINE_A, middle) <= bits)
            high = middle;
        else
            low = middle + 1;
    }
    return low;
}

static void find_points(Subject *subject)
{
    subject->most = bits_at(subject, 1, 0);
    subject->least = bits_at(subject, 1, GREATEST_B);
    for (unsigned i = 0; i < POINTS; i++) {
        subject->bits[i] = subject->least + (subject->most - subject->least) * hundredths[i] / 100;
        subject->b[i] = i == 0 ? 0 : price_for(subject, subject->bits[i]);
    }
}

/* ---- One still. ---- */

static void time_prices(Record *record, Subject *subject, Call call)
{
    call.job = PRICE;
    for (unsigned i = 0; i < POINTS; i++) {
        char point[12];
        snprintf(point, sizeof point, i == 0 ? "free" : "%u", hundredths[i]);
        call.a = i == 0 ? 1 : FINE_A;
        call.b = subject->b[i];
        row(record, subject, call, point, bits_at(subject, call.a, call.b));
    }
}

static void time_budgets(Record *record, Subject *subject, Call call)
{
    call.job = BUDGET;
    for (unsigned i = 0; i < POINTS; i++) {
        char point[12];
        snprintf(point, sizeof point, "%u", hundredths[i]);
        call.budget = (uint32_t)subject->bits[i];
        row(record, subject, call, point, run(FAST, &call).first);
    }
}

static void time_list(Record *record, Subject *subject, Call call, size_t corners)
{
    call.job = LIST;
    call.room_len = 3 * corners;
    call.room = room_for(call.room_len, sizeof *call.room);
    row(record, subject, call, "", subject->most);
    free(call.room);
}

/* Thinned by the keep numbers of the last budget. */
static void time_still(Record *record, Subject *subject)
{
    size_t blocks = subject->made.blocks;
    Call call = {.still = made_still(&subject->made), .room_len = blocks};
    call.room = room_for(blocks, sizeof *call.room);
    call.levels = room_for(POSITIONS * blocks, sizeof *call.levels);
    double start = cpu_seconds();
    size_t corners = plain_stops(&subject->plain)->count;
    subject->slow = cpu_seconds() - start > hopeless;
    find_points(subject);
    time_prices(record, subject, call);
    time_list(record, subject, call, corners);
    time_budgets(record, subject, call);
    call.job = THINNING;
    row(record, subject, call, "", subject->bits[POINTS - 1]);
    free(call.room);
    free(call.levels);
}

static void time_made(Record *record, const char *group, const char *name, Made made)
{
    Subject subject = {.group = group, .made = made, .plain = plain_of(made_still(&made), BY_PROGRAMME)};
    snprintf(subject.name, sizeof subject.name, "%s", name);
    size_t nonzero = 0;
    for (size_t i = 0; i < POSITIONS * made.blocks; i++)
        nonzero += i % POSITIONS != 0 && made.levels[i] != 0;
    subject.nonzero = (double)nonzero / (double)made.blocks;
    time_still(record, &subject);
    plain_done(&subject.plain);
    made_done(&made);
}

/* ---- All stills. ---- */

/* As a photograph has them: falling, some positions apart. */
static Made growing(size_t blocks, unsigned count)
{
    Random random = random_of(1, 64 * blocks + count);
    Made made = made_zero(blocks, 1);
    for (unsigned k = 0; k < POSITIONS; k++)
        made.steps[k] = (uint8_t)(10 + k);
    for (size_t block = 0; block < blocks; block++) {
        unsigned reach = 2 * count + 4 < LAST ? 2 * count + 4 : LAST, left = count;
        for (unsigned k = 1; k <= reach; k++)
            if (below(&random, reach - k + 1) < left) {
                int64_t level = (int64_t)any_size(&random, 60) / k + 1;
                made.levels[POSITIONS * block + k] = (int16_t)(one_in(&random, 2) ? level : -level);
                left--;
            }
    }
    return made;
}

static void time_samples(Record *record, const char *samples)
{
    static const char *const names[] = {"camera_q75.raw", "astronaut_q90.raw", "camera_q50.pkt", "astronaut_q50.pkt",
                                        "camera_q90.pkt"};
    for (unsigned i = 0; i < sizeof names / sizeof *names; i++) {
        Made made;
        if (i < 2 ? made_from_raw(samples, names[i], &made) : made_from_packet(samples, names[i], &made)) {
            time_made(record, "sample", names[i], made);
        } else {
            fprintf(stderr, "bench: %s/%s can't be read\n", samples, names[i]);
            record->wrong++;
        }
    }
}

static void time_growing(Record *record)
{
    static const unsigned counts[] = {2, 4, 6, 8, 10, 12, 16, 20, 24, 32, 40, 48, 56, 63};
    char name[40];
    for (size_t blocks = 16; blocks <= MOST_BLOCKS; blocks *= 2) {
        snprintf(name, sizeof name, "%zu blocks", blocks);
        time_made(record, "blocks", name, growing(blocks, GROWING_LEVELS));
    }
    for (unsigned i = 0; i < sizeof counts / sizeof *counts; i++) {
        snprintf(name, sizeof name, "%u levels", counts[i]);
        time_made(record, "levels", name, growing(GROWING_BLOCKS, counts[i]));
    }
}

static void time_worst(Record *record)
{
    static const Large worst[] = {LARGE_RANDOM, LARGE_FALLING, LARGE_ONES, LARGE_GREATEST};
    for (unsigned i = 0; i < sizeof worst / sizeof *worst; i++) {
        Random random = random_of(1, i);
        char name[40];
        snprintf(name, sizeof name, "63 %s", large_names[worst[i]]);
        time_made(record, "worst", name, made_large(worst[i], MOST_BLOCKS, &random));
    }
}

/* ---- The record. ---- */

static const char *environment(const char *name, const char *otherwise)
{
    const char *value = getenv(name);
    return value != NULL ? value : otherwise;
}

static void begin(Record *record)
{
    const char *host = environment("HOST", compiled_for), *machine = environment("MACHINE", "not named");
    const char *emulator = strcmp(host, compiled_for) == 0 ? "none" : "yes";
    printf("machine: %s, %s; compiled for %s; emulator: %s\n", machine, host, compiled_for, emulator);
    printf("ns a block, the least CPU time of up to %d runs; points in hundredths of the bit range\n\n", MOST_RUNS);
    printf("%-18s %6s %7s  %-8s %-5s %9s %9s %9s %9s %8s %8s\n", "still", "blocks", "nonzero", "job", "point", "ours",
           "fast", "table", "indep.", "ours/f.", "ours/t.");
    fprintf(record->json,
            "{\n  \"machine\": \"%s\", \"kind\": \"%s\", \"compiled_for\": \"%s\", \"emulator\": \"%s\",\n"
            "  \"compiler\": \"%s\",\n  \"unit\": \"ns a block, least CPU time\",\n  \"rows\": [",
            machine, host, compiled_for, emulator, compiler);
    record->first = true;
}

/* All corners of a sample, for the plot of error against bits. */
static void write_stops(Record *record, const char *samples, const char *name)
{
    Made made;
    fprintf(record->json, "\n  ],\n  \"stops\": {\"still\": \"%s\", \"corners\": [", name);
    if (made_from_raw(samples, name, &made)) {
        Plain plain = plain_of(made_still(&made), BY_PROGRAMME);
        const Stops *stops = plain_stops(&plain);
        for (size_t i = 0; i < stops->count; i++)
            fprintf(record->json, "%s\n    [%ju, %ju]", i ? "," : "", (uintmax_t)stops->corners[i].bits,
                    (uintmax_t)stops->corners[i].error);
        plain_done(&plain);
        made_done(&made);
    }
    fputs("\n  ]}", record->json);
}

/* The median of ours to each side over the real stills, every point of every still counted. */
static void print_medians(Record *record)
{
    for (Side side = FAST; side < SIDES; side++) {
        printf("\nours to %s, median over the real stills:", side_names[side]);
        for (Job job = 0; job < JOBS; job++) {
            unsigned count = record->count[side][job];
            qsort(record->ratio[side][job], count, sizeof ***record->ratio, by_size);
            if (count > 0)
                printf(" %s %.2f", job_names[job], record->ratio[side][job][count / 2]);
        }
    }
}

static int finish(Record *record)
{
    const char *comma = "";
    print_medians(record);
    qsort(record->noise, record->noises, sizeof *record->noise, by_size);
    if (record->noises > 0)
        printf("\nnoise: the median run of ours to its least is %.3f in half of the rows, %.3f at most in 95 of 100",
               record->noise[record->noises / 2], record->noise[record->noises * 95 / 100]);
    printf("\nstack of ours, bytes at most:");
    fprintf(record->json, ",\n  \"stack\": {");
    for (Job job = 0; job < JOBS; job++)
        if (record->stack[job] > 0) {
            printf(" %s %zu", job_names[job], record->stack[job]);
            fprintf(record->json, "%s\"%s\": %zu", comma, job_names[job], record->stack[job]);
            comma = ", ";
        }
    fputs("}\n}\n", record->json);
    printf("\n%u wrong\n", record->wrong);
    return fclose(record->json) == 0 && record->wrong == 0 ? 0 : 1;
}

int main(int count, char **arguments)
{
    static Record record;
    const char *samples = count > 2 ? arguments[2] : "samples";
    if (count < 2 || (record.json = fopen(arguments[1], "w")) == NULL) {
        fputs("usage: bench OUT [SAMPLES]\n", stderr);
        return 2;
    }
    begin(&record);
    time_samples(&record, samples);
    time_growing(&record);
    time_worst(&record);
    write_stops(&record, samples, "camera_q75.raw");
    return finish(&record);
}
