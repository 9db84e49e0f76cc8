/*
 * Random cases of the ground above a stage, each beside a scan of the raster of the same nodes; one or two high values in all places
 * of a lattice; and the most nodes there are.
 */
#include "cases.h"
#include "trial.h"

#include "../../include/curlewtable.h"

#define STAGES 3                        /* tried on one lattice */
#define STRIP 64                        /* columns that a walk may take together */
#define WIDE 230                        /* nodes along an axis: over three strips */
#define WIDE_ROOM 3000                  /* and in all */

/* What the answers were, and what decided them. */
static struct {
    size_t yes, by_one_node, no, not_by_values;
} seen;

/* ---- the nodes ---- */

/* A step that takes about so many nodes from edge to edge: cells have many nodes, or one, or few of them have any. */
static size_t wide_step(generator *g, const draft *d)
{
    const size_t far = d->far_x > d->far_y ? d->far_x : d->far_y, step = 1 + far / (1 + below(g, WIDE));

    return once_in(g, 8) ? 0 : step < MOST_STEP ? step : MOST_STEP;
}

/* Strips that end inside a cell, at its edge or past many, the last of them full, or with a column more or less; likewise rows. */
static draft wide_sampling(generator *g)
{
    draft d = some_surface(g, RASTER, once_in(g, 3) ? SMALL : MEDIUM);
    const size_t most = once_in(g, 2) ? WIDE : STRIP * (1 + below(g, 3)) - 1 + below(g, 3);
    size_t *v = d.call.number;

    if (once_in(g, 2)) {
        v[AT_X] = below(g, v[UNIT]);
        v[AT_Y] = below(g, v[UNIT]);
    }
    v[STEP] = wide_step(g, &d);
    v[COLUMNS] = some_nodes(g, v[AT_X], d.far_x, v[STEP], most);
    v[ROWS] = some_nodes(g, v[AT_Y], d.far_y, v[STEP], 1 + WIDE_ROOM / (v[COLUMNS] + 1));
    lend(g, &d, VALUES, v[COLUMNS] * v[ROWS]);
    return d;
}

/* ---- the ground ---- */

static const int64_t rises[] = { 1, 2, 36, 1000, 1000000, LIMIT / 2 };

/*
 * Level ground, give or take a micrometre or two, with a few values that are about as high: few cells decide, and others may not be
 * passed over. From one to the next it is a few rows, so that they share strips.
 */
static void make_peaks(generator *g, draft *d)
{
    const int64_t level = between(g, 2 - LIMIT, LIMIT / 2), noise = between(g, 0, 2), rise = rises[below(g, COUNT(rises))];
    const size_t count = d->exact[LATTICE], few_rows = 6 * (d->call.number[M] + 3);
    size_t at, peaks = 1 + below(g, 8), peak = below(g, count);
    int64_t *values = d->call.slice[LATTICE].at;

    for (at = 0; at < count; at++)
        values[at] = level + between(g, -noise, 0);
    for (; peaks > 0; peaks--, peak = (peak + below(g, few_rows)) % count)
        values[peak] = level + rise - between(g, 0, rise / 8);
}

/* A plateau with a hollow, and perhaps one value a micrometre higher: many heights are exactly the greatest, or round to it. */
static void make_hollow(generator *g, draft *d)
{
    const int64_t level = between(g, -LIMIT / 2, LIMIT / 2), depth = rises[below(g, COUNT(rises))];
    const size_t across = d->call.number[M] + 3, left = below(g, across), count = d->exact[LATTICE], first = below(g, count);
    int64_t *values = d->call.slice[LATTICE].at;
    size_t at;

    for (at = 0; at < count; at++)
        values[at] = at >= first && at % across >= left ? level - depth : level;
    if (once_in(g, 2))
        values[below(g, count)] = level + 1;
}

/* ---- the stage ---- */

/* The greatest and the least of so many values, of which there is one at least. */
static int64_t greatest(const int64_t *values, size_t count)
{
    int64_t most = values[0];

    while (count-- > 0)
        most = values[count] > most ? values[count] : most;
    return most;
}

static int64_t least(const int64_t *values, size_t count)
{
    int64_t lowest = values[0];

    while (count-- > 0)
        lowest = values[count] < lowest ? values[count] : lowest;
    return lowest;
}

/* In range: at or beside the greatest height, a height, the greatest or the least control value; between these; or anywhere. */
static int64_t some_stage(generator *g, const draft *d, size_t nodes)
{
    const int64_t *heights = d->call.slice[VALUES].at, *values = d->call.slice[LATTICE].at;
    const int64_t high = greatest(values, d->exact[LATTICE]), low = least(values, d->exact[LATTICE]);
    int64_t stage;

    switch (below(g, nodes > 0 ? 8 : 4)) {
    case 0:
        stage = high + between(g, -1, 1);
        break;
    case 1:
        stage = low + between(g, -1, 1);
        break;
    case 2:
        stage = between(g, low, high);
        break;
    case 3:
        stage = once_in(g, 3) ? (once_in(g, 2) ? LIMIT : -LIMIT) : between(g, -LIMIT, LIMIT);
        break;
    case 4:
        stage = heights[below(g, nodes)] + between(g, -1, 1);
        break;
    default:
        stage = greatest(heights, nodes) + between(g, -1, 1);
        break;
    }
    return stage < -LIMIT ? -LIMIT : stage > LIMIT ? LIMIT : stage;
}

/* ---- cases ---- */

static size_t nodes_above(const draft *d, size_t nodes, int64_t stage)
{
    const int64_t *heights = d->call.slice[VALUES].at;
    size_t at, above = 0;

    for (at = 0; at < nodes; at++)
        above += heights[at] > stage;
    return above;
}

/* The answer is that of the raster's heights, or the raster's refusal: no output is lent, and the raster's was long enough. */
static void expect_scan(const draft *d, answer raster, answer got)
{
    const int64_t stage = (int64_t)d->call.number[STAGE];
    const size_t above = nodes_above(d, (size_t)raster.field[FIRST], stage);

    if (got.field[NUMBER] != raster.field[NUMBER] || got.field[PLACE] != raster.field[PLACE] || got.field[FIRST] != (above > 0))
        trial_failed(&d->call, "not what a scan of the raster finds");
    seen.yes += above > 0;
    seen.by_one_node += above == 1;
    if (got.field[NUMBER] == 0 && above == 0) {
        seen.no++;
        seen.not_by_values += greatest(d->call.slice[LATTICE].at, d->exact[LATTICE]) > stage;
    }
}

static void above_trouble(generator *g, draft *d)
{
    if (once_in(g, 4))
        d->call.number[STAGE] = (size_t)wrong_value(g);
    else
        raster_trouble(g, d);
}

/* A raster, some stages on its nodes, and the last of them once more with troubles. */
void above_case(generator *g, size_class size)
{
    draft d = size == SMALL && once_in(g, 3) ? wide_sampling(g) : some_sampling(g, size);
    size_t stages;
    answer raster;

    if (once_in(g, 3))
        make_peaks(g, &d);
    else if (once_in(g, 3))
        make_hollow(g, &d);
    raster = trial(&d.call);
    d.call.function = ANY_ABOVE;
    for (stages = 0; stages < STAGES; stages++) {
        d.call.number[STAGE] = (size_t)some_stage(g, &d, (size_t)raster.field[FIRST]);
        expect_scan(&d, raster, trial(&d.call));
    }
    some_troubles(g, &d, above_trouble);
    trial(&d.call);
}

/* ---- high values in all places ---- */

/* So many columns so far apart, from edge to edge or less: strips end at a cell's edge or inside one, the last one full or not. */
static const struct {
    size_t step, columns;
} walks[] = { { 1, 145 }, { 1, 128 }, { 2, 65 }, { 3, 49 }, { 7, 21 }, { 16, 10 }, { 21, 7 }, { 40, 4 } };

#define FEW_FROM 4                      /* those with few nodes */
#define CELL_WALK 5                     /* a node at every cell's corner */

/* The raster of 9 by 5 cells, level but for these two values, the second a little lower; one alone if the places are the same. */
static draft high_values(generator *g, size_t walk, size_t first, size_t second)
{
    draft d = new_draft(RASTER);
    size_t *v = d.call.number, at;
    int64_t *values = d.call.slice[LATTICE].at;

    v[M] = 9;
    v[N] = 5;
    v[UNIT] = 16;
    v[STEP] = walks[walk].step;
    v[COLUMNS] = walks[walk].columns;
    v[ROWS] = v[UNIT] * v[N] / v[STEP] + 1;
    lend(g, &d, LATTICE, CURLEW_CONTROLS(v[M], v[N]));
    for (at = 0; at < d.exact[LATTICE]; at++)
        values[at] = at == first ? 2000000 : at == second ? 1900000 : 1000000;
    lend(g, &d, VALUES, v[COLUMNS] * v[ROWS]);
    return d;
}

/* The stage at the greatest height that they make, and just below. */
static void try_high(generator *g, size_t walk, size_t first, size_t second)
{
    draft d = high_values(g, walk, first, second);
    const answer raster = trial(&d.call);
    const int64_t highest = greatest(d.call.slice[VALUES].at, d.exact[VALUES]);
    int64_t lower;

    d.call.function = ANY_ABOVE;
    for (lower = 0; lower <= 1; lower++) {
        d.call.number[STAGE] = (size_t)(highest - lower);
        expect_scan(&d, raster, trial(&d.call));
    }
}

void every_peak(int few)
{
    const size_t places = CURLEW_CONTROLS(9, 5);
    generator g = { 7 };
    size_t walk, first, second;

    trial_name("high values in all places", 1);
    for (walk = few ? FEW_FROM : 0; walk < COUNT(walks); walk++)
        for (first = 0; first < places; first++)
            try_high(&g, walk, first, first);
    for (first = 0; first < places; first++)
        for (second = 0; second < places; second += few ? 7 : 1)
            try_high(&g, CELL_WALK, first, second);
}

/* ---- the most nodes ---- */

static void expect_largest(const draft *d, uint64_t number, uint64_t place, uint64_t above)
{
    const answer a = trial(&d->call);

    if (a.field[NUMBER] != number || a.field[PLACE] != place || a.field[FIRST] != above)
        trial_failed(&d->call, "a stage on the most nodes");
}

/* The last of 8,193 by 8,193 nodes has a 36th of the last control value, and all others less; then the last row is outside. */
void largest_above(void)
{
    generator g = { 8 };
    draft d = new_draft(ANY_ABOVE);
    size_t *v = d.call.number, at;
    int64_t *values = d.call.slice[LATTICE].at;

    v[M] = v[N] = 512;
    v[UNIT] = 16;
    v[STEP] = 1;
    v[COLUMNS] = v[ROWS] = MOST_NODES;
    v[STAGE] = 999999;
    lend(&g, &d, LATTICE, CURLEW_CONTROLS(v[M], v[N]));
    for (at = 0; at < d.exact[LATTICE]; at++)
        values[at] = at + 1 < d.exact[LATTICE] ? 0 : 36000000;
    trial_name("the most nodes", 1);
    expect_largest(&d, 0, 0, 1);
    v[STAGE]++;
    expect_largest(&d, 0, 0, 0);
    v[STAGE] = (size_t)-LIMIT;
    v[AT_Y] = 1;
    expect_largest(&d, 5, (uint64_t)MOST_NODES * (MOST_NODES - 1), 0);
}

void print_above(void)
{
    printf("any_above answers yes %zu times, %zu by one node alone, and no %zu times, %zu with a control value above the stage\n",
           seen.yes, seen.by_one_node, seen.no, seen.not_by_values);
}
