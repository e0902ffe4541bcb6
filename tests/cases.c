/* What the program `cases` has to print: reads its cases on standard input, a line each, makes the calls of the
   independent implementation, and prints the case, the answer and what was lent, afterwards. */
#include "plain.h"

#include <inttypes.h>
#include <stdlib.h>
#include <string.h>

enum {
    MOST_LEVELS = (MOST_BLOCKS + 1) * POSITIONS,
    MOST_PLACES = 12300,
    FEW_LEVELS = 12, /* nonzero ones, all of whose choices can be looked at */
    SHORT = 24       /* as many numbers are told one by one */
};

typedef struct {
    int16_t levels[MOST_LEVELS];
    uint8_t steps[POSITIONS + 1], lengths[LENGTHS + 1];
    uint64_t a, b, out[MOST_PLACES]; /* the list or the keep slice */
    uint32_t budget;
    size_t levels_len, steps_len, lengths_len, list_len, keep_len;
} Call;

/* The still whose whole list document 01 prints, with room for one corner more. The numbers in `out` are odd, as no
   keep number is; but a thinning keeps two of the three levels. */
static void start(Call *call, bool thinning)
{
    *call = (Call){.levels_len = 128, .steps_len = 64, .lengths_len = 256, .list_len = 15, .keep_len = 2};
    call->a = call->b = 1;
    call->levels[1] = call->levels[64 + 1] = call->levels[64 + 17] = 1;
    memset(call->steps, 10, sizeof call->steps);
    call->steps[1] = 2;
    k5_lengths(call->lengths);
    for (size_t i = 2; i < MOST_PLACES; i++)
        call->out[i] = 9;
    call->out[0] = thinning ? 1 << 1 : 5;
    call->out[1] = thinning ? 1 << 17 : 7;
}

/* ---- The words of a case. ---- */

static bool set_number(Call *call, const char *name, uint64_t number)
{
    if (strcmp(name, "levels") == 0)
        call->levels_len = number;
    else if (strcmp(name, "steps") == 0)
        call->steps_len = number;
    else if (strcmp(name, "entries") == 0)
        call->lengths_len = number;
    else if (strcmp(name, "places") == 0)
        call->list_len = number;
    else if (strcmp(name, "keeps") == 0)
        call->keep_len = number;
    else if (strcmp(name, "n") == 0)
        call->levels_len = POSITIONS * (call->keep_len = number);
    else if (strcmp(name, "a") == 0)
        call->a = number;
    else if (strcmp(name, "b") == 0)
        call->b = number;
    else if (strcmp(name, "budget") == 0)
        call->budget = (uint32_t)number;
    else
        return false;
    return true;
}

/* The square of i, reduced to a level from -most to most. */
static int16_t mixed(size_t i, size_t most)
{
    size_t range = 2 * most + 1, rest = i * i % range;
    return (int16_t)(rest > most ? (long)rest - (long)range : (long)rest);
}

/* What stands everywhere in a slice. */
static bool set_all(Call *call, const char *name, long number)
{
    if (strcmp(name, "fill") == 0)
        for (size_t i = 0; i < MOST_LEVELS; i++)
            call->levels[i] = (int16_t)(i % 2 == 1 ? number : -number);
    else if (strcmp(name, "mixed") == 0)
        for (size_t i = 0; i < MOST_LEVELS; i++)
            call->levels[i] = mixed(i, (size_t)number);
    else if (strcmp(name, "quantizer") == 0)
        memset(call->steps, (int)number, sizeof call->steps);
    else if (strcmp(name, "rise") == 0)
        for (size_t k = 0; k <= POSITIONS; k++)
            call->steps[k] = (uint8_t)((size_t)number + k);
    else if (strcmp(name, "table") == 0)
        memset(call->lengths, (int)number, sizeof call->lengths);
    else
        return false;
    return true;
}

static bool set_element(Call *call, const char *name, size_t index, const char *value)
{
    if (strcmp(name, "level") == 0)
        call->levels[index] = (int16_t)strtol(value, NULL, 10);
    else if (strcmp(name, "position") == 0)
        for (size_t block = 0; block <= MOST_BLOCKS; block++)
            call->levels[POSITIONS * block + index] = (int16_t)strtol(value, NULL, 10);
    else if (strcmp(name, "step") == 0)
        call->steps[index] = (uint8_t)strtoul(value, NULL, 10);
    else if (strcmp(name, "entry") == 0)
        call->lengths[index] = (uint8_t)strtoul(value, NULL, 10);
    else if (strcmp(name, "keep") == 0)
        call->out[index] = strtoull(value, NULL, 10);
    else
        return false;
    return true;
}

static bool set(Call *call, const char *word)
{
    char name[16], value[32];
    size_t index;
    if (sscanf(word, "%15[a-z][%zu]=%31s", name, &index, value) == 3)
        return set_element(call, name, index, value);
    if (sscanf(word, "%15[a-z]=%31s", name, value) == 2)
        return set_number(call, name, strtoull(value, NULL, 10)) || set_all(call, name, strtol(value, NULL, 10));
    return false;
}

/* ---- What is printed behind a case. ---- */

static void tell_numbers(const uint64_t *numbers, size_t from, size_t to)
{
    for (size_t i = from; i < to; i++)
        printf(" %" PRIu64, numbers[i]);
}

/* A number that each place and the order of the places count for. */
static uint64_t sum_of(const uint64_t *numbers, size_t count)
{
    const uint64_t range = 1000000007;
    uint64_t sum = 0;
    for (size_t i = 0; i < count; i++)
        sum = (31 * sum + numbers[i] % range) % range;
    return sum;
}

/* All of a short slice. Of a longer one the first six numbers; three before and three behind the end of what is
   stored; the sum. */
static void tell_slice(const uint64_t *numbers, size_t count, size_t end)
{
    size_t from = end < 3 ? 0 : end - 3;
    if (count <= SHORT) {
        tell_numbers(numbers, 0, count);
        return;
    }
    tell_numbers(numbers, 0, 6);
    printf(";");
    tell_numbers(numbers, from, count < from + 6 ? count : from + 6);
    printf("; %" PRIu64, sum_of(numbers, count));
}

static void tell_levels(const Call *call)
{
    printf(", levels");
    for (size_t i = 0; i < call->levels_len; i++)
        if (call->levels[i] != 0)
            printf(" %zu/%zu=%d", i / POSITIONS, i % POSITIONS, call->levels[i]);
}

/* Its name and one or three numbers, or the refusal's number and two details. */
static void tell_answer(const char *name, size_t count, Answer answer)
{
    const uint64_t numbers[3] = {answer.first, answer.second, answer.third};
    if (answer.number != 0) {
        printf(": refused %" PRIu64 " %" PRIu64 " %" PRIu64, answer.number, answer.first, answer.second);
    } else {
        printf(": %s", name);
        tell_numbers(numbers, 0, count);
    }
}

static void tell_keep(const Call *call)
{
    printf(", keep");
    tell_slice(call->out, call->keep_len, call->keep_len);
}

/* ---- The jobs. ---- */

/* By all choices, where they are few. */
static Plain plain_of_call(const Call *call)
{
    size_t nonzero = 0;
    for (size_t i = 0; i < call->levels_len; i++)
        nonzero += i % POSITIONS != 0 && call->levels[i] != 0;
    return plain_of((Still){call->levels, call->levels_len, call->steps, call->steps_len, call->lengths,
                            call->lengths_len},
                    nonzero <= FEW_LEVELS ? BY_DEFINITION : BY_PROGRAMME);
}

static void price(Call *call)
{
    Plain plain = plain_of_call(call);
    tell_answer("point", 3, plain_price(&plain, call->a, call->b, call->out, call->keep_len));
    tell_keep(call);
    plain_done(&plain);
}

static void fit(Call *call)
{
    Plain plain = plain_of_call(call);
    tell_answer("point", 3, plain_fit(&plain, call->budget, call->out, call->keep_len));
    tell_keep(call);
    plain_done(&plain);
}

static void list(Call *call)
{
    Plain plain = plain_of_call(call);
    Answer answer = plain_list(&plain, call->out, call->list_len);
    tell_answer("corners", 1, answer);
    printf(", list");
    tell_slice(call->out, call->list_len, answer.number == 0 ? 3 * answer.first : 0);
    plain_done(&plain);
}

static void thin(Call *call)
{
    tell_answer("kept", 1, plain_thin(call->levels, call->levels_len, call->out, call->keep_len));
    tell_keep(call);
    tell_levels(call);
}

/* The first word names the job; the budget job's has the budget with it. */
static bool run(Call *call, char *line)
{
    char *first = strtok(line, " "), *word = strtok(NULL, " ");
    bool budget = first != NULL && strncmp(first, "budget=", 7) == 0;
    void (*job)(Call *) = first == NULL                 ? NULL
                          : budget                      ? fit
                          : strcmp(first, "list") == 0  ? list
                          : strcmp(first, "price") == 0 ? price
                          : strcmp(first, "thin") == 0  ? thin
                                                        : NULL;
    bool known = job != NULL;
    start(call, job == thin);
    if (budget)
        known = set(call, first);
    for (; known && word != NULL; word = strtok(NULL, " "))
        known = set(call, word);
    if (known)
        job(call);
    return known;
}

int main(void)
{
    static Call call;
    char line[256], words[256];
    while (fgets(line, sizeof line, stdin) != NULL) {
        line[strcspn(line, "\n")] = '\0';
        strcpy(words, line);
        printf("%s", line);
        if (line[0] != '#' && !run(&call, words)) {
            fprintf(stderr, "cases: %s?\n", line);
            return 2;
        }
        printf("\n");
    }
    return 0;
}
