/* Counts what was compared, group by group, and tells what failed. */
#include "tally.h"

#include <stdarg.h>
#include <string.h>

enum { TOLD = 5, NUMBERS = 12, NOTES = 16 }; /* failures told in each group; refusal numbers, with 0 for accepted */

static const char *group;
static char at_hand[200];
static uint64_t compared, failed, refusals[NUMBERS];
static struct {
    const char *what;
    uint64_t count;
} notes[NOTES];
static size_t note_count;
static unsigned groups_passed, groups_failed;

void tally_begin(const char *name)
{
    group = name;
    compared = failed = note_count = 0;
    memset(refusals, 0, sizeof refusals);
    at_hand[0] = '\0';
}

void tally_case(const char *format, ...)
{
    va_list arguments;
    va_start(arguments, format);
    vsnprintf(at_hand, sizeof at_hand, format, arguments);
    va_end(arguments);
}

bool tally(bool holds, const char *format, ...)
{
    compared++;
    if (holds)
        return true;
    if (failed++ < TOLD) {
        va_list arguments;
        printf("      %s, %s: ", group, at_hand);
        va_start(arguments, format);
        vprintf(format, arguments);
        va_end(arguments);
        putchar('\n');
    }
    return false;
}

bool tally_answer(const char *call, Answer got, Answer expected)
{
    bool same = got.number == expected.number && got.first == expected.first && got.second == expected.second &&
                got.third == expected.third;
    if (expected.number < NUMBERS)
        refusals[expected.number]++;
    return tally(same, "%s answered %ju %ju %ju %ju, expected %ju %ju %ju %ju", call, (uintmax_t)got.number,
                 (uintmax_t)got.first, (uintmax_t)got.second, (uintmax_t)got.third, (uintmax_t)expected.number,
                 (uintmax_t)expected.first, (uintmax_t)expected.second, (uintmax_t)expected.third);
}

uint64_t tally_refusals(uint64_t number)
{
    return refusals[number];
}

void tally_note(const char *what, uint64_t count)
{
    tally(count > 0 && note_count < NOTES, "%s: never", what);
    if (note_count < NOTES) {
        notes[note_count].what = what;
        notes[note_count++].count = count;
    }
}

/* On lines of their own, of some hundred characters. */
static void print_notes(void)
{
    int column = 100;
    for (size_t i = 0; i < note_count; i++) {
        if (i > 0)
            column += printf(",");
        column = column < 100 ? column + printf(" ") : printf("\n      ");
        column += printf("%s: %ju", notes[i].what, (uintmax_t)notes[i].count);
    }
}

static void print_refusals(void)
{
    const char *before = "; refused by ";
    if (refusals[0] > 0)
        printf("; accepted %ju", (uintmax_t)refusals[0]);
    for (unsigned number = 1; number < NUMBERS; number++)
        if (refusals[number] > 0) {
            printf("%s%u: %ju", before, number, (uintmax_t)refusals[number]);
            before = ", ";
        }
}

/* A group in which nothing was compared has not passed. */
void tally_end(void)
{
    bool pass = failed == 0 && compared > 0;
    if (pass)
        groups_passed++;
    else
        groups_failed++;
    printf("%s  %s: %ju compared", pass ? "pass" : "FAIL", group, (uintmax_t)compared);
    if (failed > 0)
        printf(", %ju failed", (uintmax_t)failed);
    print_refusals();
    print_notes();
    putchar('\n');
    fflush(stdout);
}

int tally_finish(void)
{
    printf("%u passed, %u failed\n", groups_passed, groups_failed);
    return groups_failed > 0;
}
