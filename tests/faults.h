/* Calls with faults in them: a sound call, into which any set of the refusals' reasons can be put. */
#ifndef FAULTS_H
#define FAULTS_H

#include "plain.h"
#include "random.h"

/* Everything that the jobs take. */
typedef struct {
    size_t blocks; /* of the sound still */
    int16_t *levels;
    size_t levels_len;
    uint8_t steps[2 * POSITIONS];
    size_t steps_len;
    uint8_t lengths[2 * LENGTHS];
    size_t lengths_len;
    uint64_t a, b;
    size_t keep_len, list_len;
    uint32_t budget;
    uint64_t keep[8]; /* of a thinning */
    size_t corners;   /* of the sound still */
    uint64_t least;   /* its least bits */
} Call;

/* A set of refusal numbers: bit k stands for k. */
typedef unsigned Faults;

Call call_sound(Random *random);
void call_spoil(Call *call, Faults faults, bool packed, Random *random); /* packed: only what a packet can say */
Still call_still(const Call *call);
void call_done(Call *call);
unsigned lowest(Faults faults); /* 0 for none; 11 comes first */

#endif
