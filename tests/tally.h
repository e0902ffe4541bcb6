/* Counts what was compared, group by group, and tells what failed. */
#ifndef TALLY_H
#define TALLY_H

#include "plain.h"

void tally_begin(const char *group);
void tally_case(const char *format, ...); /* names the case at hand, for messages */
bool tally(bool holds, const char *format, ...);  /* one comparison */
bool tally_answer(const char *call, Answer got, Answer expected); /* one comparison, and counts the refusal */
uint64_t tally_refusals(uint64_t number); /* how often this group saw this refusal; 0 counts acceptances */
void tally_note(const char *what, uint64_t count); /* one comparison: it came up in this group; told behind it */
void tally_end(void);
int tally_finish(void); /* prints the last line; the exit status */

#endif
