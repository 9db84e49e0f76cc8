/*
 * The kinds of cases that compare draws from. Each makes one random case, runs it as one or more trials, and ends the
 * process at a difference.
 */
#ifndef CASES_H
#define CASES_H

#include "inputs.h"

typedef void test_case(generator *g, size_class size);

/*
 * The surface engine. Those of scaled_case are fitted again with more confidence in all points alike; the fits of range_end_case are
 * the last that are accepted and the first that is refused; those of leap_case are refused in late levels too; those of tie_case
 * have quotients that are exact halves. slope_case also asks for the height, which is refused in the same way.
 */
test_case fit_case, scaled_case, range_end_case, leap_case, tie_case, height_case, slope_case, refine_case, raster_case;

/* Ground turned upside down: fits of a point list and of its negation, and calls on a lattice and on its negation. */
test_case negated_fit_case, negated_surface_case;

/*
 * Runs a fit, or a height, slope, refinement or raster, and then its negation, which must be accepted with every result negated, or
 * refused alike. The answer and what the draft's slices hold are the negation's.
 */
answer both_ways(generator *g, draft *d);

/* What the negated calls answered. */
void print_negated(void);

/* The ground above a stage: a few stages on one lattice, each answered or refused as a scan of the raster of the same nodes. */
test_case above_case;

/* The same with one or two high control values, in all places of a lattice, or with few nodes and in some. */
void every_peak(int few);

/* The same on the most nodes there are, by known answers. */
void largest_above(void);

/* What the stages' calls answered. */
void print_above(void);

/*
 * Pond storage: of any heights, where a higher stage must not store less, and of the heights that a raster has left, of which none
 * may be refused.
 */
test_case storage_case, sampled_case;

/* The stage for a wanted storage, mostly for what the heights store at some stage, give or take a litre; sampled_case asks too. */
test_case wanted_case;

/* The storage of the largest raster, and the stage for one, by known answers. */
void largest_storage(void);

/* A raster's call, with no trouble; its parts: a lattice to be read with a unit, and a position of it; and a refinement's. */
draft some_sampling(generator *g, size_class size);
draft some_surface(generator *g, function f, size_class size);
draft some_refinement(generator *g, size_class size);

/* Columns or rows: most often as many as fit from start to far, sometimes one too many, sometimes none. */
size_t some_nodes(generator *g, size_t start, size_t far, size_t step, size_t most);

/* One trouble of a call with a lattice that is read with a unit, and of one on a raster's nodes. */
void height_trouble(generator *g, draft *d);
void raster_trouble(generator *g, draft *d);

/* The two files: written, then read back whole or damaged; point files of PT records, PQ records or both. */
test_case lattice_file_case, point_file_case;

/*
 * Fits whose heights are held to demand 3: of small grids at every position; such that refine without rounding; and of
 * faint heights where many roundings are halves.
 */
test_case demand3_case, exact_case, half_case;

/* A fit's call, with no trouble; and one at or beside the end of the range, one with a leap, one with quotients that are halves. */
draft some_fit(generator *g, size_class size);
draft range_end_fit(generator *g);
draft leap_fit(generator *g);
draft tie_fit(generator *g);

/* Makes a fit of the draft's grid and points, with nothing too short. */
void lend_fit(generator *g, draft *d);

/* A copy of what a call left in the places that it asks for, until the next one of that role. */
const int64_t *kept_values(const draft *d, role r);

/* The number of points that suits a size. */
size_t some_point_count(generator *g, size_class size);

/* Every cut of small files, and every byte of them changed to every value, or to a few; points in every mixture of the two kinds. */
void every_file_damage(int few_values);

/*
 * The examples of documents 01 and 02 by their printed values, slopes, bases, stages, storages, stages for a wanted storage,
 * confidences, both kinds of point file, halves and their negatives, and the most distance of demand 3 by known ones, a fit refused
 * for each figure, and each value of some lattices and rasters out of range in turn; returns how many examples there are.
 */
size_t run_examples(void);

/* What the demand 3 cases saw. */
void print_demand3(void);

#endif
