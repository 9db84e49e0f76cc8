/*
 * What the tests and the benchmark share: the length of a table, memory that is always there, the time.
 */
#ifndef BASICS_H
#define BASICS_H

#include <stdio.h>
#include <stdlib.h>

#define COUNT(table) (sizeof(table) / sizeof *(table))

/* Zeroed memory for so many places, never NULL. */
static inline void *room(size_t places, size_t size)
{
    void *memory = calloc(places + 1, size);
    if (memory == NULL) {
        fprintf(stderr, "no memory\n");
        exit(2);
    }
    return memory;
}

/* Seconds since some moment; and those of them that the processor spent on this process. */
double now(void);
double processor_time(void);

#endif
