/* How much stack a function uses: it runs on a painted stack of its own, and what lost its paint is counted. */
#include "stack.h"

#include <pthread.h>
#include <stdint.h>
#include <string.h>
#include <sys/mman.h>

enum { ROOM = 1 << 22, PAINT = 0xa5 };

static void *nothing(void *argument)
{
    return argument;
}

static size_t run_painted(void *(*function)(void *), void *argument, uint8_t *stack)
{
    pthread_attr_t attributes;
    pthread_t thread;
    size_t clean = 0;
    memset(stack, PAINT, ROOM);
    pthread_attr_init(&attributes);
    if (pthread_attr_setstack(&attributes, stack, ROOM) == 0 &&
        pthread_create(&thread, &attributes, function, argument) == 0)
        pthread_join(thread, NULL);
    pthread_attr_destroy(&attributes);
    while (clean < ROOM && stack[clean] == PAINT)
        clean++;
    return ROOM - clean;
}

size_t stack_used(void *(*function)(void *), void *argument)
{
    uint8_t *stack = mmap(NULL, ROOM, PROT_READ | PROT_WRITE, MAP_PRIVATE | MAP_ANONYMOUS, -1, 0);
    if (stack == MAP_FAILED)
        return 0;
    size_t idle = run_painted(nothing, NULL, stack), used = run_painted(function, argument, stack);
    munmap(stack, ROOM);
    return used > idle ? used - idle : 0;
}
