/*
 * Random inputs for the calls: cell counts, lattices and point lists as the header allows them, slices full of noise,
 * and the troubles that make a refusal.
 */
#ifndef INPUTS_H
#define INPUTS_H

#include "../common/basics.h"
#include "../common/call.h"
#include "../common/random.h"

#define LIMIT INT64_C(4000000000)       /* the range's end */
#define MOST_NODES 8193                 /* columns or rows */
#define MOST_STEP 8192

/* Most cases are small, so that many run; a few are larger, or as large as the header allows. */
typedef enum { SMALL, MEDIUM, LARGEST } size_class;

/* A call in the making, with what holds of it before any trouble. Its slices' memory is shared by all drafts. */
typedef struct {
    call call;
    size_t exact[SLICES];       /* the lengths that the header asks for */
    size_t far_x, far_y;        /* the far edges of its grid */
} draft;

draft new_draft(function f);

/* Lends so many places or a few more, full of noise: in f64 with NaN and infinities. */
void lend(generator *g, draft *d, role r, size_t exact);

/* Noise again in every slice that the call may write, of the length that it has. */
void lend_again(generator *g, draft *d);

/* ---- what the header allows */

/* Cells a side, up to most, and for fits h. */
void some_cells(generator *g, draft *d, size_class size);
void some_fit_grid(generator *g, draft *d, size_class size);
size_t some_unit(generator *g);

/* Lends a lattice of the draft's cells in range; its tail, which no call may look at, is noise. */
void some_lattice(generator *g, draft *d);

/* Lends a raster of the draft's columns and rows in range; its tail is noise too. */
void some_raster(generator *g, draft *d);

/* Lends lists of so many points of the draft's grid in range: on grid lines, at edges, at equal positions too; of any confidence. */
void some_points(generator *g, draft *d, size_t points);

/* Settles the far edges from the draft's numbers; some_points does so too. */
void set_far_edges(draft *d);

/* ---- what it does not */

/* A number that is out of place almost everywhere: ends of the types, and a valid one plus a power of two. */
size_t wrong_number(generator *g, size_t valid);

/* One trouble that any call may have: cell counts, a value out of range, a slice too short. */
void some_trouble(generator *g, draft *d);

/* One trouble of a call with point lists: the above, h, the lists' lengths, a position outside, a confidence of 0, a wide spread. */
void points_trouble(generator *g, draft *d);

size_t wrong_unit(generator *g);
int64_t wrong_value(generator *g);

/* Mostly no trouble, else one, else several at once, so that the order of the checks shows. */
void some_troubles(generator *g, draft *d, void (*trouble)(generator *g, draft *d));

/* Puts a value out of range in the slice, or a few: the first of them counts. */
void spoil(generator *g, draft *d, role r);

/* Shortens a slice: by one, to a part, to nothing. */
void shorten(generator *g, draft *d, role r);

/* One of the roles of a bit set. */
role some_role(generator *g, unsigned set);

#endif
