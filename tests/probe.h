/* The probe: C calls on all four jobs, for tests and benchmarks only. The head-end's call is in anubeshogwi.h.

   A slice is a pointer and the number of its elements. `answer` is 4 long and gets four numbers always:

     accepted   anb_price, anb_fit   0, bits, error, kept
                anb_list             0, corners, 0, 0
                anb_thin             0, kept, 0, 0
     refused                         number, first detail, second detail, 0

   Everything else that is lent follows the job's own rules: a refused call stores nothing in it. With an `answer`
   of another length nothing at all is done. */
#ifndef PROBE_H
#define PROBE_H

#include <stddef.h>
#include <stdint.h>

#ifdef __cplusplus
extern "C" {
#endif

/* Prices the still: the best choice of every block at a on error and b on bits. */
void anb_price(const int16_t *levels, size_t levels_len, const uint8_t *steps, size_t steps_len,
               const uint8_t *lengths, size_t lengths_len, uint64_t a, uint64_t b, uint64_t *keep, size_t keep_len,
               uint64_t *answer, size_t answer_len);

/* Lists the corners: bits, error, kept for each. */
void anb_list(const int16_t *levels, size_t levels_len, const uint8_t *steps, size_t steps_len,
              const uint8_t *lengths, size_t lengths_len, uint64_t *list, size_t list_len, uint64_t *answer,
              size_t answer_len);

/* Fits the still into a budget: the corner with most bits not above it. */
void anb_fit(const int16_t *levels, size_t levels_len, const uint8_t *steps, size_t steps_len,
             const uint8_t *lengths, size_t lengths_len, uint32_t budget, uint64_t *keep, size_t keep_len,
             uint64_t *answer, size_t answer_len);

/* Thins the still: sets the levels that the keep numbers drop to 0. */
void anb_thin(int16_t *levels, size_t levels_len, const uint64_t *keep, size_t keep_len, uint64_t *answer,
              size_t answer_len);

#ifdef __cplusplus
}
#endif

#endif
