/* Times in microseconds. */
#ifndef TIMING_H
#define TIMING_H

#include <stddef.h>

/* The processor's time of this process. */
double processor_time(void);

/* The median of the numbers, which are sorted by it. */
double median_of(double *numbers, size_t count);

#endif
