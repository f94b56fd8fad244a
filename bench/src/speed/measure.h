/* Time, and what many rounds of it come to. */
#ifndef MEASURE_H
#define MEASURE_H

#include <stddef.h>

/* How much is measured: rounds, and packets in each. */
typedef struct {
    size_t rounds;
    size_t packets;
} effort;

enum { MOST_ROUNDS = 101 };

typedef struct {
    double low;
    double median;
    double high;
} spread;

/* Nanoseconds that this thread has run: other programs' turns are not counted. */
double thread_time(void);

/* Sorts the values. */
spread spread_of(double *values, size_t count);

#endif
