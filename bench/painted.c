#define _POSIX_C_SOURCE 200112L

#include "painted.h"

#include <pthread.h>
#include <stdlib.h>
#include <string.h>

#define STACK ((size_t)1 << 20)
#define PAGE 4096
#define PAINT 0xA5

struct painted {
    unsigned char *stack;
    void (*call)(void *);
    void *argument;
    size_t used;
};

/* Frames lie one below the other, so the lowest byte that is no paint is the deepest. */
static void *run(void *of_thread)
{
    struct painted *painted = of_thread;
    unsigned char frame = 0;
    size_t paint = 0;

    painted->call(painted->argument);
    while (painted->stack[paint] == PAINT)
        paint++;
    painted->used = (size_t)(&frame - painted->stack) - paint;
    return NULL;
}

static int run_in_thread(struct painted *painted)
{
    pthread_attr_t attributes;
    pthread_t thread;
    int status;

    if (pthread_attr_init(&attributes) != 0)
        return -1;
    status = pthread_attr_setstack(&attributes, painted->stack, STACK);
    if (status == 0)
        status = pthread_create(&thread, &attributes, run, painted);
    pthread_attr_destroy(&attributes);
    return status != 0 ? -1 : pthread_join(thread, NULL);
}

size_t stack_of(void (*call)(void *), void *argument)
{
    struct painted painted = {NULL, call, argument, 0};
    void *stack;

    if (posix_memalign(&stack, PAGE, STACK) != 0)
        return 0;
    memset(stack, PAINT, STACK);
    painted.stack = stack;
    if (run_in_thread(&painted) != 0)
        painted.used = 0;
    free(stack);
    return painted.used;
}
