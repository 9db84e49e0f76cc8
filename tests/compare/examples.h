/*
 * How an example is run: a trial whose answer and results are held to known values.
 */
#ifndef EXAMPLES_H
#define EXAMPLES_H

#include "inputs.h"

/* Names the example, and counts it. */
void begin(const char *name);

/* Ends the process if the example's result is not as it should be. */
void need(const draft *d, int holds);

/* Runs the call, whose answer must be these two numbers and these first two fields. */
void expect(const draft *d, uint64_t number, uint64_t place, uint64_t first, uint64_t second);

const int64_t *values_of(const draft *d, role r);

/* A fit of 1 by 1 coarsest cells, with a confidence of 1 in every point. */
draft fit_of(size_t h, const uint16_t *x, const uint16_t *y, const int64_t *z, size_t points);

/* A lattice of m by 1 cells of unit 16, with this control value (i, j) and others 0. */
draft single_value(function f, size_t m, int i, int j, int64_t value);

/* The examples of confidence.c: fits of points with unlike confidences, refusal 17, and point files of both kinds. */
void confidence_examples(void);

/* Those of negation.c: halves wherever a result is rounded, each with its negation, and refusals. */
void negation_examples(void);

/* Those of demand3.c: fits with a height at exactly the distance that is allowed. */
void distance_examples(void);

#endif
