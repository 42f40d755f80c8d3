/* How much of its stack a call uses, by running it on a stack that was painted before. */
#ifndef PAINTED_H
#define PAINTED_H

#include <stddef.h>

/* The bytes below its caller's frame that a call has written; 0 where no thread can be had. */
size_t stack_of(void (*call)(void *), void *argument);

#endif
