/* Measures each call of the archive beside the best that there is in C. */
#ifndef MEASURE_H
#define MEASURE_H

/* Gives 1 where a book cannot be made. */
int measure(void);

#endif
