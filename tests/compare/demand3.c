/*
 * Demand 3 on the library's own fits and heights, position by position, in exact whole numbers.
 *
 * T and V are D times the exact sum of the level surfaces and the exact surface of the lattice (see reference.h), and S below
 * is T + base D. Besides the distance that demand 3 allows, V = S is held to where no refinement rounds: where every value of
 * level lattice k is a multiple of 64^(h-k), at h = 0 above all.
 */
#include "cases.h"
#include "examples.h"
#include "trial.h"

#include "../../include/curlewtable.h"
#include "../reference/reference.h"

#include <stdio.h>

#define MOST_LEVELS 6
#define MOST_PLACES CURLEW_CONTROLS(32, 32)
#define MOST_POINTS 100

static struct {
    size_t fits, exact, exact_not_level;        /* accepted; where no refinement rounds; of these, not level ground */
    size_t positions, equal, at_bound;          /* checked; where V = S; at exactly the distance allowed */
} seen;

void print_demand3(void)
{
    printf("demand 3 holds of %zu fits at %zu positions, V = T + base D at %zu, the most distance at %zu\n",
           seen.fits, seen.positions, seen.equal, seen.at_bound);
    printf("  no refinement rounds in %zu of the fits, %zu of them not level ground: V = T + base D at every position\n",
           seen.exact, seen.exact_not_level);
}

/* ---- level lattices ---- */

static int64_t level_values[MOST_LEVELS][MOST_PLACES];
static int64_t *const levels[MOST_LEVELS] = {
    level_values[0], level_values[1], level_values[2], level_values[3], level_values[4], level_values[5]
};

/* The level lattices of an accepted fit, by the reference. */
static void fit_again(const call *c)
{
    static int64_t lattice[MOST_PLACES], residual[MOST_POINTS], whole[3 * MOST_PLACES + MOST_POINTS];
    static double floats[2 * MOST_PLACES];
    const size_t *v = c->number, points = c->slice[Z].length;

    ref_fit_levels(v[M], v[N], v[H], c->slice[X].at, points, c->slice[Y].at, points, c->slice[Z].at, points,
                   c->slice[Q].at, points, lattice, MOST_PLACES, residual, MOST_POINTS, whole, 3 * MOST_PLACES + MOST_POINTS,
                   floats, 2 * MOST_PLACES, levels);
}

static int multiples_of(const int64_t *values, size_t count, int64_t divisor)
{
    size_t at;
    for (at = 0; at < count; at++)
        if (values[at] % divisor != 0)
            return 0;
    return 1;
}

/* Whether every value of level lattice k is a multiple of 64^(h-k): then each refinement divides by 64 exactly. */
static int refines_exactly(const size_t *v)
{
    int64_t divisor = 1;
    size_t k;

    for (k = v[H] + 1; k-- > 0; divisor *= 64)
        if (!multiples_of(levels[k], ref_level_places(v[M], v[N], k), divisor))
            return 0;
    return 1;
}

/* Whether every level lattice is 0, so that the ground is as high as the base throughout. */
static int level_ground(const size_t *v)
{
    size_t k;
    for (k = 0; k <= v[H]; k++)
        if (!multiples_of(levels[k], ref_level_places(v[M], v[N], k), INT64_MAX))
            return 0;
    return 1;
}

/* ---- positions ---- */

static void failed_at(const call *c, size_t x, size_t y, const char *what)
{
    char why[200];

    snprintf(why, sizeof why, "%s at (%zu, %zu)", what, x, y);
    trial_failed(c, why);
}

/* The library's height of the lattice that the fit left. */
static ref_height height_at(const call *fit, size_t x, size_t y)
{
    const size_t *v = fit->number;
    call c = { HEIGHT_AT, { CURLEW_CELLS(v[M], v[H]), CURLEW_CELLS(v[N], v[H]), 16, x, y, 0, 0, 0 }, { { NULL, 0 } } };
    ref_height height;
    answer a;

    c.slice[LATTICE] = fit->slice[LATTICE];
    a = run_library(&c);
    height.number = a.field[NUMBER];
    height.place = a.field[PLACE];
    height.height = (int64_t)a.field[FIRST];
    return height;
}

static ref_wide distance(ref_wide left, ref_wide right)
{
    return left < right ? right - left : left - right;
}

static void check_position(const call *c, size_t x, size_t y, int exact)
{
    const size_t *v = c->number;
    const int64_t base = ref_base(c->slice[Z].at, c->slice[Z].length);
    const ref_height height = height_at(c, x, y);
    ref_wide big_d, big_t, big_v, big_s;

    if (!ref_demand3_holds(v[M], v[N], v[H], levels, base, c->slice[LATTICE].at, x, y, height))
        failed_at(c, x, y, "demand 3 does not hold");
    ref_demand3(v[M], v[N], v[H], levels, c->slice[LATTICE].at, x, y, &big_d, &big_t, &big_v);
    big_s = big_t + base * big_d;
    if (exact && big_v != big_s)
        failed_at(c, x, y, "no refinement rounds, but V is not T + base D");
    if (distance(big_d * height.height, big_v) > big_d)
        failed_at(c, x, y, "the height is over 1 from the exact surface");
    seen.positions++;
    seen.equal += big_v == big_s;
    seen.at_bound += distance(2 * big_d * height.height, 2 * big_s) == (ref_wide)(v[H] + 2) * big_d;
}

/* Runs the fit, and holds it to demand 3 at every stride-th position from the first on. */
static void check_fit(generator *g, draft *d, size_t first, size_t stride)
{
    size_t x, y;
    int exact;

    lend_fit(g, d);
    if (trial(&d->call).field[NUMBER] != 0)
        return;
    fit_again(&d->call);
    exact = refines_exactly(d->call.number);
    seen.fits++;
    seen.exact += (size_t)exact;
    seen.exact_not_level += exact && !level_ground(d->call.number);
    for (y = first; y <= d->far_y; y += stride)
        for (x = first; x <= d->far_x; x += stride)
            check_position(&d->call, x, y, exact);
}

/* ---- cases ---- */

static draft some_grid(generator *g, size_t most_cells, size_t most_h)
{
    draft d = new_draft(FIT);

    d.call.number[M] = 1 + below(g, most_cells);
    d.call.number[N] = 1 + below(g, most_cells);
    d.call.number[H] = below(g, most_h + 1);
    return d;
}

void demand3_case(generator *g, size_class size)
{
    draft d = size == SMALL ? some_grid(g, 1, 2) : size == MEDIUM ? some_grid(g, 3, 1) : some_grid(g, 1, 5);

    some_points(g, &d, below(g, once_in(g, 4) ? MOST_POINTS : 8));
    if (size == LARGEST)
        check_fit(g, &d, below(g, 3), 3);
    else
        check_fit(g, &d, 0, 1);
}

static void set_point(draft *d, size_t at, size_t x, size_t y, int64_t z)
{
    ((uint16_t *)d->call.slice[X].at)[at] = (uint16_t)x;
    ((uint16_t *)d->call.slice[Y].at)[at] = (uint16_t)y;
    ((int64_t *)d->call.slice[Z].at)[at] = z;
}

/*
 * Two points at nodes of the coarsest grid, three cells apart or more, as far above their base as below it. Neither touches the
 * other's control values: those of level 0 are the difference times 1, 4 and 16 over 9, and the residuals 0.
 */
static void two_nodes(generator *g, draft *d)
{
    size_t *v = d->call.number, unit, first;
    int64_t power, base, difference;

    v[M] = 3 + below(g, 2);
    unit = (size_t)16 << v[H];
    power = INT64_C(1) << 6 * v[H];
    base = between(g, -LIMIT / 2, LIMIT / 2);
    difference = 9 * power * between(g, 0, LIMIT / (32 * power));
    some_points(g, d, 2);
    first = below(g, v[M] - 2);
    set_point(d, 0, unit * first, unit * below(g, v[N] + 1), base + difference);
    set_point(d, 1, unit * (first + 3 + below(g, v[M] - 2 - first)), unit * below(g, v[N] + 1), base - difference);
}

/*
 * Two opposite heights close together, of one confidence: too faint for the coarse levels, which stay 0, but not for the finest.
 */
static void opposite_pair(generator *g, draft *d)
{
    const int64_t z = between(g, -3, 3);
    uint8_t *q = d->call.slice[Q].at;
    size_t x, y;

    d->call.number[H] = 3;
    some_points(g, d, 2);
    x = below(g, d->far_x - 7);
    y = below(g, d->far_y + 1);
    set_point(d, 0, x, y, z);
    set_point(d, 1, x + 8, y, -z);
    q[1] = q[0];
}

void exact_case(generator *g, size_class size)
{
    draft d = some_grid(g, 2, size == SMALL ? 1 : 3);

    if (size == SMALL || once_in(g, 2))
        two_nodes(g, &d);
    else
        opposite_pair(g, &d);
    check_fit(g, &d, 0, d.call.number[H] > 2 ? 3 : 1);
}

/* Grid nodes, where a sum is a half once in six times, and the middles between them. */
void half_case(generator *g, size_class size)
{
    draft d = some_grid(g, size == SMALL ? 1 : 3, 0);
    const size_t points = below(g, 8);
    size_t at;

    some_points(g, &d, points);
    for (at = 0; at < points; at++)
        ((int64_t *)d.call.slice[Z].at)[at] = between(g, -40, 40);
    check_fit(g, &d, 0, 8);
}

/* ---- the most distance that is allowed ---- */

/*
 * Heights 19 and -21 beside each other. At (0, 8) the sums of the four rows are -1.5, -13.5, -13.5 and -1.5, which go to -2 and -14; the
 * sum of those is -13.5 and goes to -14, where the exact surface is -13. All five halves go one way, and so do the negated ones.
 */
void distance_examples(void)
{
    static const uint16_t x[] = { 15, 4 }, y[] = { 8, 8 };
    generator g = { 3 };
    int64_t sign;

    for (sign = -1; sign <= 1; sign += 2) {
        const int64_t z[] = { 19 * sign, -21 * sign };
        const size_t before = seen.at_bound;
        draft d = fit_of(0, x, y, z, 2);

        begin("the most distance that demand 3 allows");
        check_fit(&g, &d, 0, 1);
        need(&d, seen.at_bound > before && height_at(&d.call, 0, 8).height == -14 * sign);
    }
}
