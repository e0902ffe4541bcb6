/* The stills that every job is tried on, a group of the tally each. */
#ifndef GROUPS_H
#define GROUPS_H

#include "options.h"
#include "stills.h"

typedef void Try(Made *made, Random *random);

/* Every kind of large still, in four sizes; a short run leaves out the last of them. */
void on_large(const char *title, const size_t blocks[4], Options options, Try *try);

/* The samples. */
void on_real(const char *title, Options options, Try *try);

/* A still with one bad number, at every place that a length, a step or a level has. */
void on_bad(const char *title, Options options, Try *try);

#endif
