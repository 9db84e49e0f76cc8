/*
 * What is timed: a job, and one run of it by the library or by the C beside it. bench/run links both four times, in places 16 bytes
 * apart, and each place has a run_once of its own.
 */
#ifndef TIMED_H
#define TIMED_H

#include "../tests/common/call.h"

#define POSITIONS 5000                  /* heights or slopes in one run, at most */

enum { LIBRARY, C, SIDES };

/* A call, how often one run makes it, how it must end, and for heights and slopes the positions that it is made at. */
typedef struct {
    call call;
    size_t calls;
    uint64_t number;
    size_t x[POSITIONS], y[POSITIONS];
} job;

/* One run of a job by one side: something of its answers, so that no call is dropped. */
typedef uint64_t one_run(const job *j, int side);

one_run run_once;

#endif
