/*
 * Random cases of the surface engine: fits, heights, slopes, refinements, rasters.
 */
#include "cases.h"
#include "trial.h"

#include "../../include/curlewtable.h"

#include <string.h>

/* ---- fits ---- */

size_t some_point_count(generator *g, size_class size)
{
    if (size == LARGEST)
        return 65535;
    if (size == MEDIUM)
        return once_in(g, 16) ? 65535 : below(g, 2000);
    return once_in(g, 10) ? below(g, 80) : below(g, 12);
}

void lend_fit(generator *g, draft *d)
{
    const size_t *v = d->call.number, points = d->exact[Z];

    lend(g, d, LATTICE, CURLEW_FIT_LATTICE(v[M], v[N], v[H]));
    lend(g, d, RESIDUAL, points);
    lend(g, d, WHOLE, CURLEW_FIT_WHOLE(v[M], v[N], v[H], points));
    lend(g, d, FLOATS, CURLEW_FIT_FLOATS(v[M], v[N], v[H]));
}

draft some_fit(generator *g, size_class size)
{
    draft d = new_draft(FIT);

    some_fit_grid(g, &d, size);
    some_points(g, &d, some_point_count(g, size));
    lend_fit(g, &d);
    return d;
}

void fit_case(generator *g, size_class size)
{
    draft d = some_fit(g, size);

    some_troubles(g, &d, points_trouble);
    trial(&d.call);
}

/* ---- fits with more confidence in all points ---- */

const int64_t *kept_values(const draft *d, role r)
{
    static int64_t *kept[SLICES];

    if (kept[r] == NULL)
        kept[r] = room(capacity[r], sizeof(int64_t));
    memcpy(kept[r], d->call.slice[r].at, d->exact[r] * sizeof(int64_t));
    return kept[r];
}

static int same_results(const draft *d, role r, const int64_t *before)
{
    return memcmp(d->call.slice[r].at, before, d->exact[r] * sizeof(int64_t)) == 0;
}

/*
 * Every confidence times the same power of two: both sums of a control value grow by just that power, and nothing else may change.
 * With every confidence 1 that is the fit without confidences.
 */
void scaled_case(generator *g, size_class size)
{
    const unsigned shift = 1 + (unsigned)below(g, 7);
    const int64_t *lattice, *residual;
    draft d = new_draft(FIT);
    uint8_t *q = d.call.slice[Q].at;
    answer before, after;
    size_t at;

    some_fit_grid(g, &d, size);
    some_points(g, &d, some_point_count(g, size));
    for (at = 0; at < d.exact[Q]; at++)
        q[at] = (uint8_t)(1 + q[at] % (255u >> shift));
    lend_fit(g, &d);
    before = trial(&d.call);
    lattice = kept_values(&d, LATTICE);
    residual = kept_values(&d, RESIDUAL);
    for (at = 0; at < d.exact[Q]; at++)
        q[at] = (uint8_t)(q[at] << shift);
    lend_fit(g, &d);                            /* noise again */
    after = trial(&d.call);
    if (memcmp(&before, &after, sizeof before) != 0
        || (after.field[NUMBER] == 0 && !(same_results(&d, LATTICE, lattice) && same_results(&d, RESIDUAL, residual))))
        trial_failed(&d.call, "another fit, where all confidences grew alike");
}

/* ---- fits at the very end of the range ---- */

#define MOST_SHARES 6

/* Each height is its share, so many eighths, of the size. */
static void set_heights(draft *d, const int64_t share[MOST_SHARES], int64_t size)
{
    int64_t *z = d->call.slice[Z].at;
    size_t at;

    for (at = 0; at < d->exact[Z]; at++)
        z[at] = size * share[at] / 8;
}

/* A size whose fit is accepted while the next one's is refused; LIMIT if none was found. */
static int64_t last_accepted(draft *d, const int64_t share[MOST_SHARES])
{
    int64_t accepted = 0, refused = LIMIT + 1;

    while (refused - accepted > 1) {
        const int64_t size = accepted + (refused - accepted) / 2;
        set_heights(d, share, size);
        if (run_reference(&d->call).field[NUMBER] == 0)
            accepted = size;
        else
            refused = size;
    }
    return accepted;
}

/* A fit whose heights are such shares of a size, and the last size that is accepted. */
static draft shared_fit(generator *g, int64_t share[MOST_SHARES], int64_t *last)
{
    draft d = new_draft(FIT);
    size_t at;

    some_fit_grid(g, &d, SMALL);
    some_points(g, &d, 2 + below(g, MOST_SHARES - 1));         /* one alone is accepted at any height */
    for (at = 0; at < MOST_SHARES; at++)
        share[at] = at == 0 ? 8 : between(g, -8, 8);
    lend_fit(g, &d);
    *last = last_accepted(&d, share);
    return d;
}

draft range_end_fit(generator *g)
{
    int64_t share[MOST_SHARES], last, size;
    draft d = shared_fit(g, share, &last);

    size = last + between(g, -1, 2);
    set_heights(&d, share, size < LIMIT ? size : LIMIT);
    lend_fit(g, &d);
    return d;
}

void range_end_case(generator *g, size_class size)
{
    int64_t share[MOST_SHARES], last, near;
    draft d = shared_fit(g, share, &last);

    (void)size;
    for (near = last - 1; near <= last + 2 && near <= LIMIT; near++) {
        set_heights(&d, share, near);
        lend_fit(g, &d);                        /* noise again */
        trial(&d.call);
    }
}

/* ---- fits that are refused late ---- */

/* A position at most reach from near, on its far side if that is inside. */
static uint16_t beside(generator *g, size_t near, size_t reach, size_t far)
{
    const size_t at = near + below(g, reach + 1);
    return (uint16_t)(at <= far ? at : far);
}

/*
 * Points beside each other, by turns high and low: a level whose cells don't tell them apart sees little of them, so that
 * the fit comes to a level that does, and is often refused there.
 */
draft leap_fit(generator *g)
{
    draft d = new_draft(FIT);
    const size_t points = 2 + below(g, 3), reach = (size_t)1 << below(g, 9);
    uint16_t *x = d.call.slice[X].at, *y = d.call.slice[Y].at;
    int64_t *z = d.call.slice[Z].at;
    size_t at;

    d.call.number[M] = d.call.number[N] = 1;
    d.call.number[H] = below(g, LEVELS);
    some_points(g, &d, points);
    for (at = 0; at < points; at++) {
        x[at] = beside(g, x[0], at == 0 ? 0 : reach, d.far_x);
        y[at] = beside(g, y[0], at == 0 ? 0 : reach, d.far_y);
        z[at] = between(g, LIMIT / 3, LIMIT) * (at % 2 == 0 ? 1 : -1);
    }
    lend_fit(g, &d);
    return d;
}

void leap_case(generator *g, size_class size)
{
    const draft d = leap_fit(g);

    (void)size;
    trial(&d.call);
}

/* ---- fits whose quotients are halves ---- */

/*
 * Points of one place, so many sixteenths into a cell of the coarsest grid. With so many of them, and differences that are
 * such multiples, quotients of level 0 are whole numbers and halves. So the last bit of the f64 arithmetic decides how they
 * round, and any other order of its operations shows. (The order of S shows at 12 sixteenths, not at 0 and 8.) As many points
 * again, four cells away, where they touch no control value of the first ones, stand as far below the base as these above it.
 * Confidences go by pairs, 1 and one less than a power of two: the weighted mean of the differences is then over the points'
 * number times half that power, by which the multiples are taken.
 */
static const struct {
    size_t x, y, points;
    int64_t multiple;
} ties[] = {
    { 0, 0, 2, 9 }, { 0, 8, 8, 265 }, { 8, 0, 8, 265 }, { 8, 8, 32, 70225 },
    { 0, 12, 64, 17649 }, { 12, 0, 64, 17649 }, { 8, 12, 256, 519665 }, { 12, 8, 256, 519665 },
};

#define MOST_DIFFERENCE (LIMIT / 4)

/*
 * Random multiples for differences. Some of the faint lists sum to one multiple, each as often as its confidence says, so that the
 * faintest quotient is 1/2 or beside it: just below 1/2, adding 1/2 in f64 would give 1.
 */
static void set_multiples(generator *g, int64_t *z, const uint8_t *q, size_t points, int64_t multiple)
{
    const int faint = once_in(g, 2);
    const int64_t fitting = MOST_DIFFERENCE / multiple, most = faint ? 2 : fitting < 1000 ? fitting : 1000;
    int64_t sum = 0, first;
    size_t at;

    for (at = 0; at < points; at++) {
        z[at] = multiple * between(g, -most, most);
        sum += q[at] * z[at];
    }
    first = z[0] + multiple - sum;              /* its confidence is 1 */
    if (faint && once_in(g, 2) && first >= -MOST_DIFFERENCE && first <= MOST_DIFFERENCE)
        z[0] = first;
}

/* Confidences by pairs that sum to a power of two, which is returned. */
static int64_t pair_confidences(generator *g, uint8_t *q, size_t points)
{
    const unsigned power = once_in(g, 3) ? 1 : 1 + (unsigned)below(g, 8);
    size_t at;

    for (at = 0; at < points; at++)
        q[at] = at % 2 == 0 ? 1 : (uint8_t)((1u << power) - 1);
    return INT64_C(1) << power;
}

draft tie_fit(generator *g)
{
    const size_t tie = below(g, COUNT(ties)), points = ties[tie].points;
    const int64_t base = between(g, -LIMIT / 4, LIMIT / 4);
    draft d = new_draft(FIT);
    uint16_t *x = d.call.slice[X].at, *y = d.call.slice[Y].at;
    int64_t *z = d.call.slice[Z].at;
    uint8_t *q = d.call.slice[Q].at;
    size_t unit, at;

    some_fit_grid(g, &d, SMALL);
    d.call.number[M] = 5 + below(g, 3);
    some_points(g, &d, 2 * points);
    unit = (size_t)16 << d.call.number[H];
    x[0] = (uint16_t)(unit * below(g, d.call.number[M] - 4) + ties[tie].x * unit / 16);
    y[0] = (uint16_t)(unit * below(g, d.call.number[N]) + ties[tie].y * unit / 16);
    set_multiples(g, z, q, points, ties[tie].multiple * pair_confidences(g, q, 2 * points) / 2);
    for (at = 0; at < 2 * points; at++) {
        x[at] = (uint16_t)(x[0] + (at < points ? 0 : 4 * unit));
        y[at] = y[0];
        z[at] = at < points ? base + z[at] : 2 * base - z[at - points];
    }
    lend_fit(g, &d);
    return d;
}

void tie_case(generator *g, size_class size)
{
    const draft d = tie_fit(g);

    (void)size;
    trial(&d.call);
}

/* ---- heights ---- */

/* A position, often on a grid line, in the middle of a cell or at an edge. */
static size_t some_place(generator *g, size_t far, size_t unit)
{
    switch (below(g, 6)) {
    case 0:
        return far;
    case 1:
        return unit * below(g, far / unit + 1);
    case 2:
        return once_in(g, 2) ? 0 : far - 1;
    case 3:
        return unit * below(g, far / unit) + unit / 2;
    default:
        return below(g, far + 1);
    }
}

/* Moves the position of a height or slope, or a raster's first node, outside. */
static void place_outside(generator *g, draft *d)
{
    const int along_x = once_in(g, 2);
    const size_t far = along_x ? d->far_x : d->far_y;

    d->call.number[along_x ? AT_X : AT_Y] = once_in(g, 2) ? far + 1 : wrong_number(g, below(g, far + 1));
}

void height_trouble(generator *g, draft *d)
{
    switch (below(g, 5)) {
    case 0:
        d->call.number[UNIT] = wrong_unit(g);
        break;
    case 1:
        place_outside(g, d);
        break;
    default:
        some_trouble(g, d);
        break;
    }
}

draft some_surface(generator *g, function f, size_class size)
{
    draft d = new_draft(f);
    size_t *v = d.call.number;

    some_cells(g, &d, size);
    some_lattice(g, &d);
    v[UNIT] = some_unit(g);
    set_far_edges(&d);
    v[AT_X] = some_place(g, d.far_x, v[UNIT]);
    v[AT_Y] = some_place(g, d.far_y, v[UNIT]);
    return d;
}

void height_case(generator *g, size_class size)
{
    draft d = some_surface(g, HEIGHT_AT, size);

    some_troubles(g, &d, height_trouble);
    trial(&d.call);
}

/* ---- slopes ---- */

/* The ends of the range on both sides of a cell's middle, along x or y: there, at the new position, no slope is steeper. */
static void make_cliff(generator *g, draft *d)
{
    const int along_x = once_in(g, 2);
    size_t *v = d->call.number;
    const size_t across = v[M] + 3, cell = below(g, v[along_x ? M : N]);
    const int64_t first = once_in(g, 2) ? LIMIT : -LIMIT;
    int64_t *values = d->call.slice[LATTICE].at;
    size_t at;

    for (at = 0; at < d->exact[LATTICE]; at++)
        values[at] = (along_x ? at % across : at / across) < cell + 2 ? first : -first;
    v[along_x ? AT_X : AT_Y] = v[UNIT] * cell + v[UNIT] / 2;
}

/* Control values whose sums at grid nodes are multiples of U/8: slopes there are multiples of 62.5, half of them halves. */
static void make_halves(generator *g, draft *d)
{
    size_t *v = d->call.number, at;
    const int64_t multiple = 3 * (int64_t)v[UNIT] / 4;
    int64_t *values = d->call.slice[LATTICE].at;

    for (at = 0; at < d->exact[LATTICE]; at++)
        values[at] = multiple * between(g, -1000, 1000);
    v[AT_X] = v[UNIT] * below(g, v[M] + 1);
    v[AT_Y] = v[UNIT] * below(g, v[N] + 1);
}

/* The height at the same position is refused in the same way, or accepted as well. */
void slope_case(generator *g, size_class size)
{
    draft d = some_surface(g, SLOPE_AT, size);
    answer slope, height;

    if (once_in(g, 8))
        make_cliff(g, &d);
    else if (once_in(g, 8))
        make_halves(g, &d);
    some_troubles(g, &d, height_trouble);
    slope = trial(&d.call);
    d.call.function = HEIGHT_AT;
    height = trial(&d.call);
    if (slope.field[NUMBER] != height.field[NUMBER] || slope.field[PLACE] != height.field[PLACE])
        trial_failed(&d.call, "not refused as the slope is");
}

/* ---- refinements ---- */

draft some_refinement(generator *g, size_class size)
{
    draft d = new_draft(REFINE);

    some_cells(g, &d, size);
    some_lattice(g, &d);
    lend(g, &d, VALUES, CURLEW_CONTROLS(2 * d.call.number[M], 2 * d.call.number[N]));
    return d;
}

void refine_case(generator *g, size_class size)
{
    draft d = some_refinement(g, size);

    some_troubles(g, &d, some_trouble);
    trial(&d.call);
}

/* ---- rasters ---- */

static size_t some_step(generator *g, size_t unit)
{
    const size_t steps[] = { 0, 1, 2, 3, 7, CURLEW_DEFAULT_STEP, 16, unit, unit / 2, unit + 1, MOST_STEP, MOST_STEP - 1 };
    return once_in(g, 4) ? below(g, MOST_STEP + 1) : steps[below(g, COUNT(steps))];
}

size_t some_nodes(generator *g, size_t start, size_t far, size_t step, size_t most)
{
    const size_t fit = (far - start) / step_of(step) + 1;
    const size_t nodes = fit < most ? fit : most;

    switch (below(g, 12)) {
    case 0:
        return 0;
    case 1:
        return nodes < MOST_NODES ? nodes + 1 : nodes;
    case 2:
    case 3:
    case 4:
    case 5:
        return nodes;
    default:
        return 1 + below(g, nodes);
    }
}

void raster_trouble(generator *g, draft *d)
{
    size_t *v = d->call.number;

    switch (below(g, 7)) {
    case 0:
        v[STEP] = once_in(g, 2) ? MOST_STEP + 1 : wrong_number(g, v[STEP]);
        break;
    case 1:
        v[once_in(g, 2) ? COLUMNS : ROWS] = once_in(g, 2) ? MOST_NODES + 1 : wrong_number(g, 1);
        break;
    case 2:                                     /* allowed, but more nodes than are lent */
        v[COLUMNS] = v[ROWS] = MOST_NODES;
        break;
    case 3:                                     /* so far outside that a later node comes round to the grid again */
        v[once_in(g, 2) ? AT_X : AT_Y] = (size_t)0 - step_of(v[STEP]) * below(g, 3);
        break;
    default:
        height_trouble(g, d);
        break;
    }
}

draft some_sampling(generator *g, size_class size)
{
    const size_t most = size == SMALL ? 12 : MOST_NODES;
    draft d = some_surface(g, RASTER, size);
    size_t *v = d.call.number, room;

    v[STEP] = some_step(g, v[UNIT]);
    if (size != SMALL && once_in(g, 2))         /* the most nodes that there are along one axis */
        v[STEP] = v[AT_X] = v[AT_Y] = 1;
    v[COLUMNS] = some_nodes(g, v[AT_X], d.far_x, v[STEP], most);
    room = (capacity[VALUES] - 200) / (v[COLUMNS] + 1) - 1;
    if (size == MEDIUM)
        room = room / 10 + 1;
    v[ROWS] = some_nodes(g, v[AT_Y], d.far_y, v[STEP], room < most ? room : most);
    lend(g, &d, VALUES, v[COLUMNS] * v[ROWS]);
    return d;
}

void raster_case(generator *g, size_class size)
{
    draft d = some_sampling(g, size);

    some_troubles(g, &d, raster_trouble);
    trial(&d.call);
}
