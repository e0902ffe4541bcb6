/* The four jobs without proofs, as fast as we can write them: what the proved jobs are timed against. The answers,
   refusals included, are those of tests/plain.c. */
#ifndef FAST_H
#define FAST_H

#include "../tests/plain.h"

Answer fast_price(Still still, uint64_t a, uint64_t b, uint64_t *keep, size_t keep_len);
Answer table_price(Still still, uint64_t a, uint64_t b, uint64_t *keep, size_t keep_len); /* by a plain table search */
Answer fast_list(Still still, uint64_t *list, size_t list_len);
Answer fast_fit(Still still, uint32_t budget, uint64_t *keep, size_t keep_len);
Answer fast_thin(int16_t *levels, size_t levels_len, const uint64_t *keep, size_t keep_len);

#endif
