/* How much stack a function uses. */
#ifndef STACK_H
#define STACK_H

#include <stddef.h>

size_t stack_used(void *(*function)(void *), void *argument); /* bytes, beyond what calling nothing uses; 0: not known */

#endif
