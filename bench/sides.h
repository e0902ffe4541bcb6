/* The three sides of the benchmark behind one call. */
#ifndef SIDES_H
#define SIDES_H

#include "../tests/plain.h"

typedef enum { PRICE, LIST, BUDGET, THINNING, JOBS } Job;
typedef enum {
    OURS,        /* the proved archive */
    FAST,        /* bench/fast.c */
    TABLE,       /* its plain table search, of the price job alone */
    INDEPENDENT, /* tests/plain.c */
    SIDES
} Side;

extern const char *const job_names[JOBS];
extern const char *const side_names[SIDES];

/* One call of a job, and what it is lent. */
typedef struct {
    Job job;
    Still still;
    uint64_t a, b;
    uint32_t budget;
    uint64_t *room; /* keep numbers or list */
    size_t room_len;
    int16_t *levels; /* of a thinning, whose keep numbers are in the room */
} Call;

bool has(Side side, Job job);
Answer run(Side side, const Call *call);
Answer run_plain(Plain *plain, const Call *call); /* with what is known of the still already */

#endif
