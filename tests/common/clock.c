/* The time, in a file of its own because C99 has no clocks as fine as these. */
#define _POSIX_C_SOURCE 200809L

#include "basics.h"

#include <time.h>

static double seconds_of(clockid_t clock)
{
    struct timespec t;

    clock_gettime(clock, &t);
    return (double)t.tv_sec + 1e-9 * (double)t.tv_nsec;
}

double now(void)
{
    return seconds_of(CLOCK_MONOTONIC);
}

double processor_time(void)
{
    return seconds_of(CLOCK_PROCESS_CPUTIME_ID);
}
