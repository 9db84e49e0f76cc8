/*
 * Runs one call on the library and on the reference and compares everything: the answers, every slice whole, the guard
 * zones around it, and what the header itself says of refusals, of scratch and of places that never change. An accepted
 * slope is also held to its bound, by the reference's exact sums; refusal 17 to the first confidence of 0; a stage for a
 * wanted storage, and each refusal of one, to the library's own storages.
 * At the first difference it prints the call and ends the process with status 1.
 */
#ifndef TRIAL_H
#define TRIAL_H

#include "../common/call.h"

/* The most elements of each slice that a trial can lend: the largest that the header asks for, and some. */
extern const size_t capacity[SLICES];

/* How many calls of each function were compared, by the number of the answer. */
extern size_t compared[FUNCTIONS][MOST_NUMBER + 1];

/* How many fits a level refused, by the number and the level. */
#define LEVELS 6
extern size_t refused_in_level[MOST_NUMBER + 1][LEVELS];

/* Names the calls that follow, for the report, and settles where their slices lie between the fences. */
void trial_name(const char *name, uint64_t seed);

/* Runs both and compares. The call's own slices are the contents to lend; afterwards they hold what the library left. */
answer trial(const call *c);

/* Ends the process with status 1, after saying why and printing the call. */
void trial_failed(const call *c, const char *why);

/* Reports a signal inside a call, such as a touch of a fence or an abort, as a difference. */
void trial_catch_signals(void);

#endif
