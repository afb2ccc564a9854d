/* How much native stack a call of a service takes: the call has a thread of its own, whose stack is painted before it. */
#define _POSIX_C_SOURCE 200809L
#include "fickle.h"

#include <pthread.h>
#include <stdio.h>
#include <stdlib.h>
#include <string.h>

/* More stack than any service needs, and its paint. */
enum { STACK = 16 << 20, PAINT = 0xAA };

/* The answer of the last call, and how many calls went wrong. */
static uint64_t answer;
static int failures;

/* A service, with what it needs by the header and what it took at most, by shape of its input. */
enum { DEEP, WIDE, SHAPES };
struct service {
    const char *name;
    void *(*task)(void *);
    size_t needed, took[SHAPES];
};

/* Returns how much of a painted stack a task wrote on. */
static size_t used(void *(*task)(void *))
{
    unsigned char *stack = aligned_alloc(4096, STACK);
    pthread_attr_t attributes;
    pthread_t thread;
    size_t clean = 0;
    memset(stack, PAINT, STACK);
    pthread_attr_init(&attributes);
    pthread_attr_setstack(&attributes, stack, STACK);
    if (pthread_create(&thread, &attributes, task, NULL) != 0)
        abort();
    pthread_join(thread, NULL);
    while (clean < STACK && stack[clean] == PAINT)
        clean++;
    free(stack);
    return STACK - clean;
}

/* Returns how many bytes of stack a service takes for the input at hand. Fails where its answer has another number. */
static size_t measure(struct service *service, int shape, uint32_t number)
{
    size_t bytes = used(service->task);
    if (FICKLE_NUMBER(answer) != number || bytes > service->needed) {
        printf("%s: number %u, expected %u; %zu bytes\n", service->name, FICKLE_NUMBER(answer), number, bytes);
        failures++;
    }
    if (bytes > service->took[shape])
        service->took[shape] = bytes;
    return bytes;
}
