/* The fast jobs behind the probe's calls, so that the tests of the proved jobs test them too. */
#include "../tests/probe.h"
#include "fast.h"

static void tell(Answer told, uint64_t *answer)
{
    answer[0] = told.number;
    answer[1] = told.first;
    answer[2] = told.second;
    answer[3] = told.third;
}

void anb_price(const int16_t *levels, size_t levels_len, const uint8_t *steps, size_t steps_len,
               const uint8_t *lengths, size_t lengths_len, uint64_t a, uint64_t b, uint64_t *keep, size_t keep_len,
               uint64_t *answer, size_t answer_len)
{
    if (answer_len == 4)
        tell(fast_price((Still){levels, levels_len, steps, steps_len, lengths, lengths_len}, a, b, keep, keep_len),
             answer);
}

void anb_list(const int16_t *levels, size_t levels_len, const uint8_t *steps, size_t steps_len,
              const uint8_t *lengths, size_t lengths_len, uint64_t *list, size_t list_len, uint64_t *answer,
              size_t answer_len)
{
    if (answer_len == 4)
        tell(fast_list((Still){levels, levels_len, steps, steps_len, lengths, lengths_len}, list, list_len), answer);
}

void anb_fit(const int16_t *levels, size_t levels_len, const uint8_t *steps, size_t steps_len,
             const uint8_t *lengths, size_t lengths_len, uint32_t budget, uint64_t *keep, size_t keep_len,
             uint64_t *answer, size_t answer_len)
{
    if (answer_len == 4)
        tell(fast_fit((Still){levels, levels_len, steps, steps_len, lengths, lengths_len}, budget, keep, keep_len),
             answer);
}

void anb_thin(int16_t *levels, size_t levels_len, const uint64_t *keep, size_t keep_len, uint64_t *answer,
              size_t answer_len)
{
    if (answer_len == 4)
        tell(fast_thin(levels, levels_len, keep, keep_len), answer);
}
