/*
 * The examples of document 01 ("Table of checked examples"), as document 02 leaves them, and a few more with known answers,
 * among them slopes, ground above a stage, storages, stages for a wanted one and a fit refused for each figure, each as a trial
 * whose answer and results are held to those values. Those of confidences are in confidence.c, those of halves and negations in
 * negation.c.
 */
#include "cases.h"
#include "examples.h"
#include "trial.h"

#include "../../include/curlewtable.h"

#include <string.h>

static generator g = { 1 };
static size_t examples;

void begin(const char *name)
{
    trial_name(name, 1);
    examples++;
}

void need(const draft *d, int holds)
{
    if (!holds)
        trial_failed(&d->call, "not the example's result");
}

void expect(const draft *d, uint64_t number, uint64_t place, uint64_t first, uint64_t second)
{
    const answer a = trial(&d->call);
    need(d, a.field[NUMBER] == number && a.field[PLACE] == place && a.field[FIRST] == first && a.field[SECOND] == second);
}

const int64_t *values_of(const draft *d, role r)
{
    return d->call.slice[r].at;
}

/* ---- fits ---- */

draft fit_of(size_t h, const uint16_t *x, const uint16_t *y, const int64_t *z, size_t points)
{
    draft d = new_draft(FIT);

    d.call.number[M] = d.call.number[N] = 1;
    d.call.number[H] = h <= 5 ? h : 5;          /* the lengths for h = 5 do for an h that is refused */
    some_points(&g, &d, points);
    memcpy(d.call.slice[X].at, x, points * sizeof *x);
    memcpy(d.call.slice[Y].at, y, points * sizeof *y);
    memcpy(d.call.slice[Z].at, z, points * sizeof *z);
    memset(d.call.slice[Q].at, 1, points);
    lend_fit(&g, &d);
    d.call.number[H] = h;
    return d;
}

static draft fit_of_one(size_t h, uint16_t x, int64_t z)
{
    const uint16_t y = 0;
    return fit_of(h, &x, &y, &z, 1);
}

static void fit_example(const char *name, size_t h, uint16_t x, int64_t z, uint64_t number)
{
    const draft d = fit_of_one(h, x, z);
    const uint64_t cells = number == 0 ? UINT64_C(1) << h : 0;

    begin(name);
    expect(&d, number, 0, cells, cells);
}

/* "The lone point (0,0,9) now gives 9 throughout, and the lone point at 2,300,000,000 is accepted." */
static void lone_point(const char *name, size_t h, uint16_t x, int64_t z)
{
    const draft d = fit_of_one(h, x, z);
    const size_t places = CURLEW_FIT_LATTICE(1, 1, h);
    size_t at;

    begin(name);
    expect(&d, 0, 0, UINT64_C(1) << h, UINT64_C(1) << h);
    for (at = 0; at < places; at++)
        need(&d, values_of(&d, LATTICE)[at] == z);
    need(&d, values_of(&d, RESIDUAL)[0] == 0);
}

/* Points on the diagonal, and how their fit is refused, with its negation. */
static void refused_example(const char *name, size_t h, const uint16_t *at, const int64_t *z, size_t points, uint64_t number, uint64_t place)
{
    draft d = fit_of(h, at, at, z, points);

    begin(name);
    expect(&d, number, place, 0, 0);
    both_ways(&g, &d);
}

/* One for each figure. */
static void figure_examples(void)
{
    static const uint16_t one_place[] = { 8, 8, 8 }, corners[] = { 0, 16 }, line[] = { 0, 4, 8 }, near[] = { 16, 0 };
    static const int64_t far[] = { 4000000000, -4000000000, -4000000000 }, past[] = { 4000000000, -4000000000, -4000000001 };
    static const int64_t steep[] = { 3000000000, -2000000000 }, pit[] = { 3000000000, -3000000000, 3000000000 };
    static const int64_t sum[] = { 2600000000, -2400000000 }, crest[] = { 4000000000, 2000000000 };

    refused_example("fit with a difference out of range", 0, one_place, far, COUNT(far), DIFFERENCE_OUT, 0);
    refused_example("fit with a height out of range after a difference", 0, one_place, past, COUNT(past), 6, 2);
    refused_example("fit with a quotient out of range", 0, corners, steep, COUNT(steep), QUOTIENT_OUT, 0);
    refused_example("fit with a residual out of range", 0, line, pit, COUNT(pit), RESIDUAL_OUT, 0);
    refused_example("fit with a sum out of range, which the base would bring back", 1, near, sum, COUNT(sum), SUM_OUT, 1);
    refused_example("fit with a final sum out of range", 0, corners, crest, COUNT(crest), SUM_OUT, 0);
}

/* A residual and a sum that both leave the range in level 1. */
static void residual_before_sum(void)
{
    static const uint16_t x[] = { 11, 14, 30, 20, 14, 14 }, y[] = { 24, 18, 16, 20, 14, 28 };
    static const int64_t z[] = { 3541000000, -3299000000, 2810000000, 1215000000, -2242000000, -3710000000 };
    draft d = fit_of(1, x, y, z, COUNT(z));

    begin("fit with a residual and a sum out of range");
    expect(&d, RESIDUAL_OUT, 1, 0, 0);
    both_ways(&g, &d);
}

/* Heights half a micrometre from their mean: the base is the even one of the two. */
static void base_examples(void)
{
    static const uint16_t at[] = { 8, 8 };
    static const int64_t z[][2] = { { 0, 1 }, { -1, 0 }, { 2, 1 }, { -1, -2 }, { 2, 3 }, { -3, -2 },
                                    { 4000000000, 3999999999 }, { -3999999999, -4000000000 } };
    size_t i;

    for (i = 0; i < COUNT(z); i++) {
        const draft d = fit_of(0, at, at, z[i], 2);
        const int64_t even = z[i][0] % 2 == 0 ? z[i][0] : z[i][1];

        begin("base between two heights");
        expect(&d, 0, 0, 1, 1);
        need(&d, values_of(&d, LATTICE)[3] == even);            /* touched by the points, with nothing to speak of */
    }
}

static void no_points(void)
{
    static const int64_t zero[25];
    static const uint16_t position;
    const draft d = fit_of(1, &position, &position, zero, 0);

    begin("fit of no points");
    expect(&d, 0, 0, 2, 2);
    need(&d, memcmp(values_of(&d, LATTICE), zero, sizeof zero) == 0);
}

static void fit_examples(void)
{
    lone_point("fit of the lone point (0, 0, 9)", 0, 0, 9);
    lone_point("fit of z 2,300,000,000", 0, 0, 2300000000);
    lone_point("fit of a lone point in 6 levels", 5, 77, -3999999999);
    fit_example("fit of x 16", 0, 16, 9, 0);
    fit_example("fit of x 17", 0, 17, 9, 5);
    fit_example("fit of h 5", 5, 0, 9, 0);
    fit_example("fit of h 6", 6, 0, 9, 2);
    figure_examples();
    residual_before_sum();
    base_examples();
    no_points();
}

/* ---- heights, refinements, rasters: a lattice with one control value that is not 0 ---- */

draft single_value(function f, size_t m, int i, int j, int64_t value)
{
    draft d = new_draft(f);
    int64_t *lattice = d.call.slice[LATTICE].at;

    d.call.number[M] = m;
    d.call.number[N] = 1;
    d.call.number[UNIT] = 16;
    some_lattice(&g, &d);
    memset(lattice, 0, CURLEW_CONTROLS(m, 1) * sizeof *lattice);
    lattice[(size_t)(j + 1) * (m + 3) + (size_t)(i + 1)] = value;
    return d;
}

static void height_example(const char *name, int i, int j, int64_t value, size_t at, uint64_t height)
{
    draft d = single_value(HEIGHT_AT, 1, i, j, value);

    begin(name);
    d.call.number[AT_X] = d.call.number[AT_Y] = at;
    expect(&d, 0, 0, height, 0);
}

/* New control values (i, i) of the refinement, and how many are not 0 if that is known. */
static draft refined(const char *name, int64_t value)
{
    draft d = single_value(REFINE, 1, 0, 0, value);

    begin(name);
    lend(&g, &d, VALUES, CURLEW_CONTROLS(2, 2));
    expect(&d, 0, 0, 2, 2);
    return d;
}

static int64_t refined_at(const draft *d, int i, int j)
{
    return values_of(d, VALUES)[(j + 1) * 5 + (i + 1)];
}

static void refine_examples(void)
{
    draft d = refined("E6", 64);
    int at, others = 0;

    need(&d, refined_at(&d, 0, 0) == 36 && refined_at(&d, 1, 0) == 24 && refined_at(&d, 1, 1) == 16
             && refined_at(&d, 2, 2) == 1 && refined_at(&d, 3, 3) == 0);
    d = refined("E7", 1);
    for (at = 0; at < 25; at++)
        others += values_of(&d, VALUES)[at] != 0;
    need(&d, refined_at(&d, 0, 0) == 1 && others == 1);
    d = refined("E8", -32);
    need(&d, refined_at(&d, 2, 2) == 0);
}

/* Two nodes of a row, one at each edge of 16 cells of 512 positions. */
static void raster_example(const char *name, size_t step, uint64_t number)
{
    draft d = single_value(RASTER, 16, 0, 0, 36);
    size_t *v = d.call.number;

    begin(name);
    v[UNIT] = 512;
    v[STEP] = step;
    v[COLUMNS] = 2;
    v[ROWS] = 1;
    lend(&g, &d, VALUES, 2);
    expect(&d, number, 0, number == 0 ? 2 : 0, 0);
    need(&d, number != 0 || (values_of(&d, VALUES)[0] == 16 && values_of(&d, VALUES)[1] == 0));
}

/* A raster of 1 by 1 cells, edge to edge with so many nodes a side. */
static draft cell_raster(const char *name, size_t step, size_t side)
{
    draft d = single_value(RASTER, 1, 0, 0, 36);
    size_t *v = d.call.number;

    begin(name);
    v[STEP] = step;
    v[COLUMNS] = v[ROWS] = side;
    lend(&g, &d, VALUES, side * side);
    expect(&d, 0, 0, side * side, 0);
    return d;
}

/* Step 0 stands for 8: E1, E3 and E2 are its nodes from corner to corner. With a given 16 the corners alone are nodes. */
static void default_step_examples(void)
{
    draft d = cell_raster("raster of step 0", 0, 3);

    need(&d, values_of(&d, VALUES)[0] == 16 && values_of(&d, VALUES)[4] == 8 && values_of(&d, VALUES)[8] == 1);
    d = cell_raster("raster of step 16", 16, 2);
    need(&d, values_of(&d, VALUES)[0] == 16 && values_of(&d, VALUES)[3] == 1);
}

static void lattice_examples(void)
{
    height_example("E1", 0, 0, 36, 0, 16);
    height_example("E2", 0, 0, 36, 16, 1);
    height_example("E3", 0, 0, 36, 8, 8);
    height_example("E4", -1, 0, 3, 0, 0);
    height_example("E5", -1, 0, -3, 0, 0);
    refine_examples();
    raster_example("raster of step 8,192", 8192, 0);
    raster_example("raster of step 8,193", 8193, 8);
    default_step_examples();
}

/* ---- slopes: 1 by 1 cells, the same four control values in so many rows from the first on, 0 in the others ---- */

static draft rows_of(const int64_t row[4], size_t rows)
{
    draft d = single_value(SLOPE_AT, 1, 0, 0, 0);
    int64_t *lattice = d.call.slice[LATTICE].at;
    size_t at;

    for (at = 0; at < rows; at++)
        memcpy(lattice + 4 * at, row, 4 * sizeof *row);
    return d;
}

static void transpose(draft *d)
{
    int64_t *lattice = d->call.slice[LATTICE].at, transposed[16];
    size_t at;

    for (at = 0; at < COUNT(transposed); at++)
        transposed[at] = lattice[at % 4 * 4 + at / 4];
    memcpy(lattice, transposed, sizeof transposed);
}

static void expect_at(draft *d, size_t x, size_t y, int64_t along_x, int64_t along_y)
{
    d->call.number[AT_X] = x;
    d->call.number[AT_Y] = y;
    expect(d, 0, 0, (uint64_t)along_x, (uint64_t)along_y);
}

/* Once as given and once with x and y exchanged, so that what is said of one slope is tried on the other too. */
static void expect_slopes(draft *d, size_t x, size_t y, int64_t along_x, int64_t along_y)
{
    expect_at(d, x, y, along_x, along_y);
    transpose(d);
    expect_at(d, y, x, along_y, along_x);
    transpose(d);
}

/* The same slope along x at every position, and none along y. */
static void plane_example(const char *name, const int64_t row[4], int64_t along_x)
{
    draft d = rows_of(row, 4);
    size_t at;

    begin(name);
    for (at = 0; at < 17 * 17; at++)
        expect_slopes(&d, at % 17, at / 17, along_x, 0);
}

static void slope_example(const char *name, const int64_t row[4], size_t rows, size_t x, int64_t along_x, int64_t along_y)
{
    draft d = rows_of(row, rows);

    begin(name);
    expect_slopes(&d, x, 0, along_x, along_y);
}

static void slope_examples(void)
{
    static const int64_t level[] = { 1234567, 1234567, 1234567, 1234567 }, plane[] = { -1000, 0, 1000, 2000 };
    static const int64_t rise[] = { 0, 0, 2, 0 }, fall[] = { 2, 0, 0, 0 }, cliff[] = { -LIMIT, -LIMIT, LIMIT, LIMIT };
    static const int64_t halves[] = { 51, 3, -3, -3 }, corner[] = { 9, 0, 0, 0 };

    plane_example("slopes of level ground", level, 0);
    plane_example("slopes of a plane, a millimetre a cell", plane, 62500);
    slope_example("slope of 62 and a half", rise, 4, 0, 62, 0);
    slope_example("slope of minus 62 and a half", fall, 4, 0, -62, 0);
    slope_example("the steepest slope", cliff, 4, 8, INT64_C(375000000000), 0);
    slope_example("slopes over column sums that are halves", halves, 1, 8, -62, -31);
    /* near of its column and of its row is 2; were the first step not rounded, or the slope the first step, it would be -47 */
    slope_example("slopes over one sum that is a half", corner, 1, 0, -62, -62);
}

/* ---- lattices with values out of range ---- */

/* Each value out of range in turn, alone or with the last one: the first of the two is refused with its place. */
static void first_offender(size_t m, size_t n, int64_t value, int with_last)
{
    const size_t count = CURLEW_CONTROLS(m, n);
    draft d = new_draft(HEIGHT_AT);
    int64_t *lattice = d.call.slice[LATTICE].at;
    size_t place;

    d.call.number[M] = m;
    d.call.number[N] = n;
    d.call.number[UNIT] = 16;
    some_lattice(&g, &d);
    if (with_last)
        lattice[count - 1] = value;
    for (place = count; place-- > 0;) {
        const int64_t kept = lattice[place];

        lattice[place] = value;
        expect(&d, 6, place, 0, 0);
        lattice[place] = kept;
    }
}

/* Lattices of 16, 63, 64, 65, 128, 511, 512, 529 and 576 values: with and without values past the last multiple of 64. */
static void offender_examples(void)
{
    static const size_t cells[][2] = { { 1, 1 },  { 4, 6 },   { 5, 5 },   { 2, 10 }, { 5, 13 },
                                       { 4, 70 }, { 13, 29 }, { 20, 20 }, { 21, 21 } };
    size_t at;

    begin("every value out of range in turn");
    for (at = 0; at < COUNT(cells); at++) {
        first_offender(cells[at][0], cells[at][1], LIMIT + 1, 0);
        first_offender(cells[at][0], cells[at][1], -LIMIT - 1, 1);
        first_offender(cells[at][0], cells[at][1], INT64_MAX, 1);
        first_offender(cells[at][0], cells[at][1], INT64_MIN, 0);
    }
}

/* ---- ground above a stage: the lattice of E1, E2 and E3, or level ground ---- */

/* So many columns and rows from (0, 0) on at the default step. */
static draft stage_on(int64_t value, size_t columns, size_t rows, int64_t stage)
{
    draft d = single_value(ANY_ABOVE, 1, 0, 0, value);
    size_t *v = d.call.number;

    v[COLUMNS] = columns;
    v[ROWS] = rows;
    v[STAGE] = (size_t)stage;
    return d;
}

/* As many rows as columns, from (at, at) on. */
static void above_example(const char *name, int64_t value, size_t at, size_t columns, int64_t stage, uint64_t above)
{
    draft d = stage_on(value, columns, columns, stage);

    begin(name);
    d.call.number[AT_X] = d.call.number[AT_Y] = at;
    expect(&d, 0, 0, above, 0);
}

static void level_example(const char *name, int64_t level, int64_t stage, uint64_t above)
{
    draft d = stage_on(level, 3, 3, stage);
    int64_t *lattice = d.call.slice[LATTICE].at;
    size_t at;

    begin(name);
    for (at = 0; at < d.exact[LATTICE]; at++)
        lattice[at] = level;
    expect(&d, 0, 0, above, 0);
}

/* Faults put right one by one: 1, 2, 8, 4, then 6 of the stage and of the last control value, then 5 twice, and then accepted. */
static void above_refusals(void)
{
    draft d = stage_on(36, 4, 4, -LIMIT - 1);
    size_t *v = d.call.number;
    int64_t *lattice = d.call.slice[LATTICE].at;

    begin("the refusals of a stage, in their order");
    v[M] = 0;
    v[UNIT] = 24;
    v[STEP] = MOST_STEP + 1;
    d.call.slice[LATTICE].length = 15;
    lattice[15] = LIMIT + 1;
    expect(&d, 1, 0, 0, 0);
    v[M] = 1;
    expect(&d, 2, 0, 0, 0);
    v[UNIT] = 16;
    expect(&d, 8, 0, 0, 0);
    v[STEP] = 0;
    expect(&d, 4, 0, 0, 0);
    d.call.slice[LATTICE].length = 16;
    expect(&d, 6, 0, 0, 0);
    v[STAGE] = (size_t)-LIMIT;
    expect(&d, 6, 15, 0, 0);
    lattice[15] = 0;
    expect(&d, 5, 3, 0, 0);                     /* though the first node stands above, as all do */
    v[COLUMNS] = 3;
    expect(&d, 5, 9, 0, 0);
    v[ROWS] = 3;
    expect(&d, 0, 0, 1, 0);
}

/* No columns: the first node would be outside, but there is none. The stage and the lattice are still asked. */
static void empty_rectangle(void)
{
    draft d = stage_on(36, 0, 4, -LIMIT);
    int64_t *lattice = d.call.slice[LATTICE].at;

    begin("ground above a stage in an empty rectangle");
    d.call.number[AT_X] = d.call.number[AT_Y] = 17;
    expect(&d, 0, 0, 0, 0);
    lattice[0] = LIMIT + 1;
    expect(&d, 6, 0, 0, 0);
    d.call.number[STAGE] = (size_t)(LIMIT + 1);
    expect(&d, 6, 0, 0, 0);
    lattice[0] = 0;
    expect(&d, 6, 0, 0, 0);
}

static void above_examples(void)
{
    above_example("E1's 16 is above 15", 36, 0, 3, 15, 1);
    above_example("it is not above 16, though the control value of 36 is", 36, 0, 3, 16, 0);
    above_example("E2's 1 is not above 1", 36, 16, 1, 1, 0);
    above_example("it is above 0", 36, 16, 1, 0, 1);
    above_example("a height of 1/36 is 0, and not above 0", 1, 16, 1, 0, 0);
    above_example("ground at the datum is above -1", 0, 0, 3, -1, 1);
    level_example("level ground at the stage", 9, 9, 0);
    level_example("level ground a micrometre above it", 9, 8, 1);
    level_example("the highest ground there is, at the highest stage", LIMIT, LIMIT, 0);
    level_example("the lowest, at the lowest", -LIMIT, -LIMIT, 0);
    above_refusals();
    empty_rectangle();
}

/* ---- storages: heights in one row ---- */

static draft row_of_heights(const int64_t *heights, size_t columns, int64_t stage, size_t side)
{
    draft d = new_draft(STORAGE_AT);
    size_t *v = d.call.number;

    v[COLUMNS] = columns;
    v[ROWS] = 1;
    v[STAGE] = (size_t)stage;
    v[NODE_SIDE] = side;
    lend(&g, &d, VALUES, columns);
    memcpy(d.call.slice[VALUES].at, heights, columns * sizeof *heights);
    return d;
}

static void storage_example(const char *name, int64_t first, int64_t second, int64_t stage, size_t side, uint64_t litres)
{
    const int64_t heights[] = { first, second };
    const draft d = row_of_heights(heights, 2, stage, side);

    begin(name);
    expect(&d, 0, 0, litres, 0);
}

/* Faults put right one by one: 8, 4, 16, then 6 of the stage and of the second height, and then accepted. */
static void storage_refusals(void)
{
    const int64_t heights[] = { -LIMIT, LIMIT + 1 };
    draft d = row_of_heights(heights, 2, -LIMIT - 1, 101);
    size_t *v = d.call.number;
    int64_t *values = d.call.slice[VALUES].at;

    begin("the refusals of a storage, in their order");
    v[ROWS] = MOST_NODES + 1;
    d.call.slice[VALUES].length = 1;
    expect(&d, 8, 0, 0, 0);
    v[ROWS] = 1;
    expect(&d, 4, 0, 0, 0);
    d.call.slice[VALUES].length = 2;
    expect(&d, 16, 0, 0, 0);
    v[NODE_SIDE] = 0;
    expect(&d, 16, 0, 0, 0);
    v[NODE_SIDE] = 100;
    expect(&d, 6, 0, 0, 0);
    v[STAGE] = (size_t)LIMIT;
    expect(&d, 6, 2, 0, 0);
    values[1] = LIMIT;
    expect(&d, 0, 0, 800000000, 0);
    v[COLUMNS] = 0;                             /* and with no heights at all the stage is still asked */
    expect(&d, 0, 0, 0, 0);
    v[STAGE] = (size_t)(LIMIT + 1);
    expect(&d, 6, 0, 0, 0);
}

static const size_t row_lengths[] = { 1, 2, 63, 64, 65, 127, 128, 129, 130 };
static const int64_t level_row[130];

/*
 * Each height of a level row out of range in turn, by itself or with the last, in rows about as long as a block of the scan: its
 * place is one more than its index. The row as it is has this answer.
 */
static void try_offenders(const draft *d, uint64_t answered, int with_last)
{
    const size_t columns = d->call.number[COLUMNS];
    int64_t *heights = d->call.slice[VALUES].at;
    size_t at;

    expect(d, 0, 0, answered, 0);
    if (with_last)
        heights[columns - 1] = INT64_MAX;
    for (at = columns; at-- > 0;) {
        const int64_t kept = heights[at];

        heights[at] = at % 2 == 0 ? LIMIT + 1 : INT64_MIN;
        expect(d, 6, at + 1, 0, 0);
        heights[at] = kept;
    }
}

/* A tenth of a litre over each node. */
static void storage_offenders(size_t columns, int with_last)
{
    const draft d = row_of_heights(level_row, columns, 1, 100);

    try_offenders(&d, columns / 10, with_last);
}

static void storage_examples(void)
{
    size_t at;

    storage_example("two half litres", 0, 0, 50000, 1, 1);
    storage_example("a litre less a micrometre", 1, 100001, 100000, 1, 0);
    storage_example("a litre beside a dry node", 0, 100001, 100000, 1, 1);
    storage_example("a litre a millimetre deep", 1000, 0, 1000, 10, 1);
    storage_example("a storage below the datum", -300000, -200001, -200000, 1, 1);
    storage_example("the deepest two nodes", -LIMIT, -LIMIT, LIMIT, 100, UINT64_C(1600000000));
    storage_refusals();
    begin("every height out of range in turn");
    for (at = 0; at < COUNT(row_lengths); at++) {
        storage_offenders(row_lengths[at], 0);
        storage_offenders(row_lengths[at], 1);
    }
}

/* ---- stages for a wanted storage: the same rows; a node at LIMIT is dry at every stage ---- */

static draft row_to_fill(const int64_t *heights, size_t columns, uint64_t wanted, size_t side)
{
    draft d = row_of_heights(heights, columns, 0, side);

    d.call.function = STAGE_FOR;
    d.call.number[WANTED] = (size_t)wanted;
    return d;
}

static void stage_example(const char *name, int64_t first, int64_t second, uint64_t wanted, size_t side, int64_t stage)
{
    const int64_t heights[] = { first, second };
    const draft d = row_to_fill(heights, 2, wanted, side);

    begin(name);
    expect(&d, 0, 0, (uint64_t)stage, 0);
}

static void no_stage_example(const char *name, int64_t first, int64_t second, uint64_t wanted, size_t side)
{
    const int64_t heights[] = { first, second };
    const draft d = row_to_fill(heights, 2, wanted, side);

    begin(name);
    expect(&d, NO_STAGE, 0, 0, 0);
}

/* A micrometre over a hundred nodes is ten litres, so one stage does for any of the ten. */
static void at_least_example(void)
{
    draft d = row_to_fill(level_row, 100, 1, 100);
    size_t *wanted = &d.call.number[WANTED];

    begin("a stage that stores at least what is wanted");
    for (; *wanted <= 10; ++*wanted)
        expect(&d, 0, 0, 1, 0);
    expect(&d, 0, 0, 2, 0);
}

/* Faults put right one by one: 8, 4, 16, then 6 of the second height, then 18, and then accepted. */
static void stage_refusals(void)
{
    const int64_t heights[] = { -LIMIT, LIMIT + 1 };
    draft d = row_to_fill(heights, 2, UINT64_MAX, 101);
    size_t *v = d.call.number;
    int64_t *values = d.call.slice[VALUES].at;

    begin("the refusals of a stage for a storage, in their order");
    v[ROWS] = MOST_NODES + 1;
    d.call.slice[VALUES].length = 1;
    expect(&d, 8, 0, 0, 0);
    v[ROWS] = 1;
    expect(&d, 4, 0, 0, 0);
    d.call.slice[VALUES].length = 2;
    expect(&d, 16, 0, 0, 0);
    v[NODE_SIDE] = 0;
    expect(&d, 16, 0, 0, 0);
    v[NODE_SIDE] = 100;
    expect(&d, 6, 2, 0, 0);
    v[WANTED] = 0;                              /* which every stage stores, but the heights are still asked */
    expect(&d, 6, 2, 0, 0);
    values[1] = LIMIT;
    expect(&d, 0, 0, (uint64_t)-LIMIT, 0);
    v[WANTED] = 800000001;
    expect(&d, NO_STAGE, 0, 0, 0);
    v[WANTED]--;
    expect(&d, 0, 0, LIMIT, 0);
}

/* No columns, or no rows, and no heights: nothing is stored at any stage. */
static void empty_raster(void)
{
    draft d = row_to_fill(level_row, 0, 0, 1);
    size_t *v = d.call.number;

    begin("a stage for a storage of no nodes");
    expect(&d, 0, 0, (uint64_t)-LIMIT, 0);
    v[WANTED] = 1;
    expect(&d, NO_STAGE, 0, 0, 0);
    v[NODE_SIDE] = 101;
    expect(&d, 16, 0, 0, 0);
    v[COLUMNS] = MOST_NODES;
    v[ROWS] = 0;
    expect(&d, 16, 0, 0, 0);
    v[NODE_SIDE] = 100;
    expect(&d, NO_STAGE, 0, 0, 0);
    v[WANTED] = 0;
    expect(&d, 0, 0, (uint64_t)-LIMIT, 0);
    v[COLUMNS]++;
    expect(&d, 8, 0, 0, 0);
}

/* A litre over all nodes together. */
static void stage_offenders(size_t columns, int with_last)
{
    const draft d = row_to_fill(level_row, columns, 1, 100);

    try_offenders(&d, columns < 10 ? 10 / columns : 1, with_last);
}

static void stage_examples(void)
{
    size_t at;

    stage_example("the stage for nothing is the lowest", 7, -7, 0, 1, -LIMIT);
    stage_example("a stage for a litre on one node", 0, LIMIT, 1, 1, 100000);
    stage_example("and for two", 0, LIMIT, 2, 1, 200000);
    stage_example("a litre on nine square decimetres, to the next micrometre", 0, LIMIT, 1, 3, 11112);
    stage_example("a stage for two half litres", 0, 0, 1, 1, 50000);
    stage_example("a second node that has the last micrometre", 0, 99998, 1, 1, 99999);
    stage_example("one that is dry, by a micrometre", 0, 100000, 1, 1, 100000);
    stage_example("a stage at the second node's height", 1, 100001, 1, 1, 100001);
    stage_example("a stage below the datum", -300000, -200001, 1, 1, -200000);
    stage_example("a stage for a litre in the deepest pit", -LIMIT, LIMIT, 1, 100, 10 - LIMIT);
    stage_example("the highest stage just suffices", 0, LIMIT, 40000, 1, LIMIT);
    no_stage_example("no stage for a litre more", 0, LIMIT, 40001, 1);
    stage_example("it does over the deepest two nodes", -LIMIT, -LIMIT, UINT64_C(1600000000), 100, LIMIT);
    no_stage_example("and not for a litre more", -LIMIT, -LIMIT, UINT64_C(1600000001), 100);
    stage_example("the stage for nothing over the highest ground", LIMIT, LIMIT, 0, 100, -LIMIT);
    no_stage_example("no stage for a litre over it", LIMIT, LIMIT, 1, 100);
    no_stage_example("nor for all that can be asked for", -LIMIT, -LIMIT, UINT64_MAX, 100);
    /* times 100,000 it is 48,384 more than 2^64 */
    no_stage_example("nor for litres that are few if 64 bits are cut off", -LIMIT, -LIMIT, UINT64_C(184467440737096), 1);
    at_least_example();
    stage_refusals();
    empty_raster();
    begin("every height out of range in turn, of a stage for a storage");
    for (at = 0; at < COUNT(row_lengths); at++) {
        stage_offenders(row_lengths[at], 0);
        stage_offenders(row_lengths[at], 1);
    }
}

/* ---- files: the lattice file of 1 by 1 zero cells, whole and with its rows tampered with ---- */

static size_t zero_lattice_file(uint8_t *file, size_t rows)
{
    uint8_t *at = file;
    size_t row;

    memcpy(at, "LH\1\0\1\0", 6);
    at += 6;
    for (row = 0; row < rows; row++, at += 36) {
        memset(at, 0, 36);
        memcpy(at, "LR", 2);
        at[2] = (uint8_t)row;
    }
    memcpy(at, "LE\4\0", 4);
    return (size_t)(at + 4 - file);
}

static void read_example(const char *name, size_t rows, uint64_t number, uint64_t place)
{
    draft d = new_draft(READ_LATTICE);
    const uint64_t cells = number == 0;

    begin(name);
    lend(&g, &d, VALUES, 16);
    d.call.slice[BYTES].length = zero_lattice_file(d.call.slice[BYTES].at, rows);
    expect(&d, number, place, cells, cells);
}

static void write_example(void)
{
    draft d = single_value(WRITE_LATTICE, 1, 0, 0, 0);
    uint8_t file[154];

    begin("the zero lattice's file of 154 bytes");
    lend(&g, &d, BYTES, sizeof file);
    expect(&d, 0, 0, sizeof file, 0);
    need(&d, zero_lattice_file(file, 4) == sizeof file && memcmp(d.call.slice[BYTES].at, file, sizeof file) == 0);
}

static void empty_example(const char *name, function reader)
{
    const draft d = new_draft(reader);

    begin(name);
    expect(&d, 9, 0, 0, 0);
}

static void file_examples(void)
{
    write_example();
    read_example("a lattice file", 4, 0, 0);
    read_example("a row missing", 3, 9, 114);
    read_example("a row too many", 5, 10, 150);
    empty_example("an empty lattice file", READ_LATTICE);
    empty_example("an empty point file", READ_POINTS);
}

size_t run_examples(void)
{
    fit_examples();
    lattice_examples();
    slope_examples();
    offender_examples();
    above_examples();
    storage_examples();
    stage_examples();
    confidence_examples();
    negation_examples();
    distance_examples();
    file_examples();
    return examples;
}
