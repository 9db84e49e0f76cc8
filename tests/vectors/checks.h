/*
 * What the checks of the outside vectors share: a line's call, its slices and its answer.
 */
#ifndef CHECKS_H
#define CHECKS_H

#include "lines.h"

/* A call with the line's first field as its numbers, which the files give in the header's order. */
call call_of(function f, list head);

void lend_slice(call *c, role r, void *at, size_t length);

/* Ends the process if the line has fewer fields, or not so many numbers in its first. */
void check_line(const numbers *line, const char *text, size_t least_lists, size_t head);

int accepted(answer got);

/* Whether the answer is the line's: a refusal's number and place alone, or 0 0, so many fields and so many results. */
int same_answer(answer got, list expected, size_t fields, size_t results);

/* The lines of fit.txt and of points.txt, in points.c. */
line_check fit_line, points_line;

#endif
