/*
 * Ground turned upside down: a fit beside that of the negated heights, a call on a lattice beside that on the negated one. What is
 * accepted is accepted with every result negated, and what is refused is refused with the same number and place. That fails at a half
 * that goes to one side, so many values are small, and at a range with unlike ends, so others are large. By known values: halves between
 * numbers of either parity wherever a result is rounded, the quotients a half past the range's ends, and refusals.
 */
#include "cases.h"
#include "examples.h"
#include "trial.h"

#include "../../include/curlewtable.h"

#include <string.h>

/* How many of either kind were accepted and refused both ways. */
static struct {
    size_t fits, fits_refused, calls, calls_refused;
} seen;

/* ---- both ways ---- */

/* -2^63 has no negative in 64 bits; 2^63 - 1 takes its place, which is out of range as well. */
static int64_t negative(int64_t value)
{
    return value == INT64_MIN ? INT64_MAX : -value;
}

static void negate(const draft *d, role r)
{
    int64_t *values = d->call.slice[r].at;
    size_t at;

    for (at = 0; at < d->call.slice[r].length; at++)
        values[at] = negative(values[at]);
}

static int opposite_values(const int64_t *left, const int64_t *right, size_t count)
{
    size_t at;
    for (at = 0; at < count; at++)
        if (left[at] != -right[at])
            return 0;
    return 1;
}

/* Heights and slopes change their sign, all other fields are the same. */
static int opposite_answers(function f, answer before, answer after)
{
    const size_t turned = f == HEIGHT_AT ? 1 : f == SLOPE_AT ? 2 : 0;
    size_t at;

    for (at = FIRST; at < FIRST + turned; at++)
        after.field[at] = 0 - after.field[at];
    return memcmp(&before, &after, sizeof before) == 0;
}

/* What is lent for results and not for scratch. */
static int is_result(function f, role r)
{
    return writes(f, r) && r != WHOLE && r != FLOATS;
}

static void count_pair(function f, int refused)
{
    if (f == FIT)
        *(refused ? &seen.fits_refused : &seen.fits) += 1;
    else
        *(refused ? &seen.calls_refused : &seen.calls) += 1;
}

answer both_ways(generator *g, draft *d)
{
    const function f = d->call.function;
    const answer before = trial(&d->call);
    const int64_t *kept[SLICES] = { NULL };
    answer after;
    role r;

    for (r = X; r < SLICES; r++)
        if (is_result(f, r))
            kept[r] = kept_values(d, r);
    negate(d, f == FIT ? Z : LATTICE);
    lend_again(g, d);
    after = trial(&d->call);
    if (!opposite_answers(f, before, after))
        trial_failed(&d->call, "not answered as the call that it negates");
    for (r = X; r < SLICES; r++)
        if (after.field[NUMBER] == 0 && is_result(f, r) && !opposite_values(d->call.slice[r].at, kept[r], d->exact[r]))
            trial_failed(&d->call, "other results than those of the call that it negates, negated");
    count_pair(f, after.field[NUMBER] != 0);
    return after;
}

void print_negated(void)
{
    printf("negated, %zu fits and %zu calls on lattices have every result negated, %zu and %zu are refused alike\n",
           seen.fits, seen.calls, seen.fits_refused, seen.calls_refused);
}

/* ---- random fits ---- */

/* Small values in place of those that are there. */
static void make_faint(generator *g, draft *d, role r)
{
    const int64_t most = once_in(g, 2) ? 9 : 1 + (int64_t)below(g, 40);
    int64_t *values = d->call.slice[r].at;
    size_t at;

    for (at = 0; at < d->exact[r]; at++)
        values[at] = between(g, -most, most);
}

/*
 * The heights of range_end_quotient, below, with a base of 0 or less, at any node of the coarsest grid: the quotient there is a half
 * past the range's end, or an eighteenth less or more.
 */
static draft end_quotient_fit(generator *g)
{
    static const uint8_t q[] = { 30, 1, 1 };
    const int64_t base = once_in(g, 2) ? 0 : between(g, -LIMIT / 4, 0), over = between(g, -1, 1);
    const int64_t z[] = { base + 2482758621, base - 1241379310, base - 1241379311 + over };
    draft d = new_draft(FIT);
    uint16_t *x = d.call.slice[X].at, *y = d.call.slice[Y].at;
    size_t *v = d.call.number, unit;

    some_fit_grid(g, &d, SMALL);
    some_points(g, &d, COUNT(z));
    unit = (size_t)16 << v[H];
    x[0] = x[1] = x[2] = (uint16_t)(unit * below(g, v[M] + 1));
    y[0] = y[1] = y[2] = (uint16_t)(unit * below(g, v[N] + 1));
    memcpy(d.call.slice[Z].at, z, sizeof z);
    memcpy(d.call.slice[Q].at, q, sizeof q);
    lend_fit(g, &d);
    return d;
}

/* Any points, often with small heights; points whose quotients are halves; points that a late level refuses, or the end of the range. */
static draft some_list(generator *g, size_class size)
{
    draft d;

    switch (size == LARGEST ? 15 : below(g, 16)) {
    case 0:
        return range_end_fit(g);
    case 1:
    case 2:
        return leap_fit(g);
    case 3:
        return end_quotient_fit(g);
    case 4:
    case 5:
        return tie_fit(g);
    default:
        d = some_fit(g, size);
        if (once_in(g, 2))
            make_faint(g, &d, Z);
        return d;
    }
}

void negated_fit_case(generator *g, size_class size)
{
    draft d = some_list(g, size);

    some_troubles(g, &d, points_trouble);
    both_ways(g, &d);
}

/* ---- random calls on a lattice ---- */

typedef void trouble(generator *g, draft *d);

static const struct {
    function function;
    trouble *trouble;
} surfaces[] = { { HEIGHT_AT, height_trouble }, { SLOPE_AT, height_trouble }, { REFINE, some_trouble }, { RASTER, raster_trouble } };

static draft some_call(generator *g, function f, size_class size)
{
    return f == REFINE ? some_refinement(g, size) : f == RASTER ? some_sampling(g, size) : some_surface(g, f, size);
}

/* A grid node, where small values have the most halves. */
static void place_at_node(generator *g, draft *d)
{
    size_t *v = d->call.number;

    v[AT_X] = v[UNIT] * below(g, v[M] + 1);
    v[AT_Y] = v[UNIT] * below(g, v[N] + 1);
}

void negated_surface_case(generator *g, size_class size)
{
    const size_t kind = below(g, COUNT(surfaces));
    const function f = surfaces[kind].function;
    draft d = some_call(g, f, size);

    if (once_in(g, 2))
        make_faint(g, &d, LATTICE);
    if ((f == HEIGHT_AT || f == SLOPE_AT) && once_in(g, 2))
        place_at_node(g, &d);
    some_troubles(g, &d, surfaces[kind].trouble);
    both_ways(g, &d);
}

/* ---- known values: the negation has the negative of each, so the call itself has the value ---- */

static generator g = { 9 };

/* near of 1/2, 3/2, 5/2 and 7/2 */
static const int64_t even[] = { 0, 2, 2, 4 };

static void expect_opposite(draft *d, int64_t first, int64_t second)
{
    const answer a = both_ways(&g, d);
    need(d, a.field[NUMBER] == 0 && a.field[FIRST] == (uint64_t)-first && a.field[SECOND] == (uint64_t)-second);
}

/* One value in four places of the sixteen of a cell: a column with a stride of 4, a row with one of 1. */
static draft four_values(function f, size_t first, size_t stride, int64_t value)
{
    draft d = single_value(f, 1, 0, 0, 0);
    int64_t *lattice = d.call.slice[LATTICE].at;
    size_t at;

    for (at = 0; at < 4; at++)
        lattice[first + at * stride] = value;
    return d;
}

/* At (0, 0) the first column weighs a sixth in each row sum, and the first row a sixth in the sum of those. */
static void height_halves(int64_t half)
{
    draft d = four_values(HEIGHT_AT, 0, 4, 6 * half + 3);

    begin("a height whose row sums are halves");
    expect_opposite(&d, even[half], 0);
    d = four_values(HEIGHT_AT, 0, 1, 6 * half + 3);
    begin("a height whose last sum is a half");
    expect_opposite(&d, even[half], 0);
}

/* The new (2, 2) has a 64th of the old (0, 0). */
static void refinement_half(int64_t half)
{
    draft d = single_value(REFINE, 1, 0, 0, 64 * half + 32);

    begin("a refinement that is a half");
    lend(&g, &d, VALUES, CURLEW_CONTROLS(2, 2));
    both_ways(&g, &d);
    need(&d, values_of(&d, VALUES)[18] == -even[half]);
}

/*
 * At (0, 0) a slope is 31.25 times the sum of the third column or row less that of the first. A value in the corner has a sixth in the
 * first sums of both slopes.
 */
static void slope_halves(int64_t half)
{
    static const int64_t steps[] = { 62, 188, 312, 438 }, corner[] = { 0, -62, -62, -125 };
    draft d = four_values(SLOPE_AT, 2, 4, 4 * half + 2);

    begin("a slope that is a half along x");
    expect_opposite(&d, steps[half], 0);
    d = four_values(SLOPE_AT, 8, 1, 4 * half + 2);
    begin("a slope that is a half along y");
    expect_opposite(&d, 0, steps[half]);
    d = single_value(SLOPE_AT, 1, -1, -1, 6 * half + 3);
    begin("slopes over first sums that are halves");
    expect_opposite(&d, corner[half], corner[half]);
}

/* Two heights a micrometre apart: a place that they hardly touch is as high as their base. */
static void base_half(int64_t half)
{
    static const uint16_t middle[] = { 8, 8 };
    const int64_t z[] = { half + 1, half };
    draft d = fit_of(0, middle, middle, z, 2);

    begin("a base that is a half");
    both_ways(&g, &d);
    need(&d, values_of(&d, LATTICE)[3] == -even[half]);
}

static draft at_origin(const int64_t *z, const uint8_t *q, size_t points)
{
    static const uint16_t origin[3];
    draft d = fit_of(0, origin, origin, z, points);

    memcpy(d.call.slice[Q].at, q, points);
    return d;
}

/* The base is 0, and the mean by confidence (7 - 1) / 8 of the height, of which place 0 has a ninth: a half, in f64 too. */
static void quotient_half(int64_t half)
{
    static const uint8_t q[] = { 7, 1 };
    const int64_t z[] = { 12 * half + 6, -12 * half - 6 };
    draft d = at_origin(z, q, 2);

    begin("a quotient that is a half");
    both_ways(&g, &d);
    need(&d, values_of(&d, LATTICE)[0] == -even[half]);
}

/* Heights 0 and 1: a basin of a micrometre, and its mound. */
static void faint_mound(void)
{
    static const int64_t z[] = { 0, 1 };
    static const uint8_t q[] = { 1, 1 };
    draft d = at_origin(z, q, 2);
    size_t at;

    begin("a mound of a micrometre");
    both_ways(&g, &d);
    for (at = 0; at < CURLEW_CONTROLS(1, 1); at++)
        need(&d, values_of(&d, LATTICE)[at] == (at == 5 ? -1 : 0));
    need(&d, values_of(&d, RESIDUAL)[0] == 1 && values_of(&d, RESIDUAL)[1] == 0);
}

/*
 * The base is 0, and the quotient of place 5 exactly 4,000,000,000.5: near takes it to 4,000,000,000, which is in range. With a
 * micrometre more it is refused.
 */
static void range_end_quotient(void)
{
    static const int64_t z[] = { 2482758621, -1241379310, -1241379311 }, residual[] = { 232758621, -3491379310, -3491379311 };
    static const int64_t rows[] = { 1, 4, 1, 0, 4, 16, 4, 0, 1, 4, 1, 0, 0, 0, 0, 0 };
    static const uint8_t q[] = { 30, 1, 1 };
    draft d = at_origin(z, q, 3);
    answer a;
    size_t at;

    begin("a quotient a half past the end of the range");
    both_ways(&g, &d);
    for (at = 0; at < COUNT(rows); at++)
        need(&d, values_of(&d, LATTICE)[at] == -250000000 * rows[at]);
    for (at = 0; at < COUNT(residual); at++)
        need(&d, values_of(&d, RESIDUAL)[at] == -residual[at]);
    ((int64_t *)d.call.slice[Z].at)[0] -= 1;
    a = both_ways(&g, &d);
    need(&d, a.field[NUMBER] == QUOTIENT_OUT && a.field[PLACE] == 0);
}

/* Refused before any level, or in one; a height of -2^63 too. */
static void refusals_both_ways(void)
{
    static const struct {
        int64_t z[3];
        uint8_t q[3];
        uint64_t number, place;
    } lists[] = {
        { { 0, LIMIT + 1, 0 }, { 1, 1, 0 }, 6, 1 },
        { { 0, 0, INT64_MIN }, { 1, 1, 1 }, 6, 2 },
        { { 0, 0, INT64_MAX }, { 1, 1, 1 }, 6, 2 },
        { { LIMIT, LIMIT, -LIMIT }, { 1, 0, 1 }, NO_CONFIDENCE, 1 },
        { { LIMIT, LIMIT, -LIMIT }, { 1, 1, 1 }, DIFFERENCE_OUT, 2 },
        { { 3000000000, 0, -3000000000 }, { 255, 1, 1 }, QUOTIENT_OUT, 0 },
    };
    size_t i;

    for (i = 0; i < COUNT(lists); i++) {
        draft d = at_origin(lists[i].z, lists[i].q, 3);
        answer a;

        begin("a refusal, and that of the negated list");
        a = both_ways(&g, &d);
        need(&d, a.field[NUMBER] == lists[i].number && a.field[PLACE] == lists[i].place);
    }
}

void negation_examples(void)
{
    int64_t half;

    for (half = 0; half < (int64_t)COUNT(even); half++) {
        height_halves(half);
        refinement_half(half);
        slope_halves(half);
        base_half(half);
        quotient_half(half);
    }
    faint_mound();
    range_end_quotient();
    refusals_both_ways();
}
