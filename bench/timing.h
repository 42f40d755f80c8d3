/* The clock, and what is made of many times. */
#ifndef TIMING_H
#define TIMING_H

#include <stddef.h>

/* Nanoseconds of a clock that only goes forward. */
double now(void);

/* Both sort the times. */
double minimum(double *times, size_t count);
double median(double *times, size_t count);

#endif
