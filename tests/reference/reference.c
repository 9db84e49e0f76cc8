/*
 * A second implementation of document 01 and of document 02's jobs 1 and 3 to 10, written from
 * their text: its author had document 01 and the interface reference.h, the later author of the
 * slopes that job's text too, and this file as it stood, and the authors of refusals 13 and 14,
 * of the base, of the finer default step, of the pond storage, of the ground above a stage, of the
 * confidence of a point, of the halves to even and of the stage for a wanted storage documents 01
 * and 02, the interface, this file and README.md as they stood. None had the definitions, nor the
 * library's code, nor any paper that explains them. README.md says how they read what the text
 * leaves open.
 *
 * Compile with
 *     gcc -std=c99 -Wall -Wextra -pedantic -O3 -ffp-contract=off
 * Document 01 wants the level fit "in f64, each operation rounded once, in this
 * order". So a multiplication and an addition may not be contracted into one
 * fused operation, sums may not be regrouped (no -ffast-math), and f64
 * operations may not be carried out in a wider format.
 */
#include "reference.h"

#include <float.h>
#include <inttypes.h>
#include <stdio.h>
#include <string.h>

#if !defined(FLT_EVAL_METHOD) || FLT_EVAL_METHOD != 0 || defined(__FAST_MATH__)
#error "document 01: all in f64, each operation rounded once, in this order"
#endif

#define BOUND INT64_C(4000000000)   /* heights, control values, residuals: -BOUND to BOUND */
#define MAX_COARSEST 16             /* coarsest cells a side of a fit */
#define MAX_REFINED 256             /* cells a side of refine's input */
#define MAX_CELLS 512               /* cells a side of any other lattice */
#define MAX_H 5
#define MAX_POINTS 65535
#define MAX_STEP 8192
#define DEFAULT_STEP 8              /* what step 0 stands for at every U; 16 before job 5 */
#define MAX_NODES 8193              /* columns or rows of a raster */
#define MAX_SIDE 100                /* a node's side, in decimetres */
#define PER_LITRE 100000            /* micrometres times square decimetres in a litre */
#define NODES_AT_ONCE 8             /* whose depths are added in one step of a sum */
#define FINEST_SHIFT 4              /* U is 1 << shift: 16 at the finest level, 512 at most */
#define WIDEST_SHIFT 9

#define LATTICE_HEADER_BYTES 6
#define LATTICE_CLOSING_BYTES 4
#define POINT_HEADER_BYTES 8
#define PT_BYTES 14
#define PQ_BYTES 15                 /* those of a PT record, then q */

#define PROGRAM_BYTES 7508
#define PROGRAM_POINTS ((PROGRAM_BYTES - POINT_HEADER_BYTES) / PT_BYTES)   /* 535; as PQ records only 500 fit */
#define PROGRAM_CELLS 16
#define PROGRAM_PLACES ((PROGRAM_CELLS + 3) * (PROGRAM_CELLS + 3))
#define PROGRAM_OUTPUT 2974

/* A refusal's number and place; number 0 for none. */
typedef struct { uint64_t number, place; } verdict;

static int in_range(int64_t v)
{
    return v >= -BOUND && v <= BOUND;
}

static int cells_allowed(size_t m, size_t n, size_t most)
{
    return m >= 1 && m <= most && n >= 1 && n <= most;
}

/* Control values of a lattice of m by n cells. */
static size_t lattice_places(size_t m, size_t n)
{
    return (m + 3) * (n + 3);
}

/* "Every index is the first offender's": of the control values; places if there is none. */
static size_t first_out_of_range(const int64_t *lattice, size_t places)
{
    size_t i = 0;
    while (i < places && in_range(lattice[i]))
        i++;
    return i;
}

/* The shift that stands for a listed U, 0 for one that is not listed. */
static unsigned shift_of_unit(size_t unit)
{
    for (unsigned shift = FINEST_SHIFT; shift <= WIDEST_SHIFT; shift++)
        if (unit == (size_t)1 << shift)
            return shift;
    return 0;
}

/* ---- Rounding ---- */

/*
 * Where an exact half goes, "to the even neighbour" since job 9: the one place of this file that says it. Each
 * near below finds the nearest whole number, of two the larger, and half, which is 1 if it is exactly a half
 * away and else 0. An odd number has the last bit 1 below 0 too, as int64_t is two's complement; then the even
 * neighbour is one less.
 */
static int64_t nearest(int64_t larger, int half)
{
    return larger - (larger & half);
}

int64_t ref_near(int64_t v, int64_t d)
{
    if (d < 1)
        return 0;
    int64_t quotient = v / d, rest = v % d;
    if (rest < 0) {                 /* C divides toward zero; here the floor is wanted */
        rest += d;
        quotient--;
    }
    return nearest(quotient + (rest >= d - rest), rest == d - rest);
}

/*
 * near(v / 6U^3) of a basis sum. Numerators are not negative and add up to 6U^3,
 * so |v| <= BOUND * 6U^3. Adding BOUND * 6U^3 before and taking BOUND off after
 * keeps the dividend from being negative, and then unsigned division is the floor;
 * at U = 512 it stays below 2 * 4e9 * 8.06e8 + 4.1e8 < 6.5e18 < 2^63. Half of 6U^3
 * is added too, so an exact half leaves no rest; multiplying back shows that without
 * a division by 6U^3.
 */
static int64_t near_of_basis_sum(int64_t v, unsigned shift)
{
    int64_t cube = INT64_C(1) << 3 * shift;
    uint64_t raised = (uint64_t)(v + 6 * cube * BOUND + 3 * cube);
    uint64_t quotient = (raised >> 3 * shift) / 6;
    return nearest((int64_t)quotient - BOUND, quotient * (uint64_t)(6 * cube) == raised);
}

/* near(v / 64) of a refinement sum, |v| <= 64 * BOUND, in the same way. */
static int64_t near_of_refinement_sum(int64_t v)
{
    uint64_t raised = (uint64_t)(v + 64 * BOUND + 32);
    return nearest((int64_t)(raised / 64) - BOUND, raised % 64 == 0);
}

/*
 * near(1,000 v / 2U^3) of a slope sum, in the same way. Slope numerators of either sign add up
 * to U^2 + 2aU - 2a^2, at most 3U^2 / 2 at a = U/2, and near of a basis sum is in range. So v and
 * its partial sums stay within BOUND * 3U^2, and at U = 512 |1,000 v| < 3.2e18 < 2^62. Here 2^62
 * is added before, a multiple of 2U^3: the dividend stays below 3.2e18 + 4.7e18 + 1.4e8 < 2^63.
 */
static int64_t near_of_slope_sum(int64_t v, unsigned shift)
{
    int64_t cube = INT64_C(1) << 3 * shift, lift = INT64_C(1) << 62;
    uint64_t raised = (uint64_t)(1000 * v + lift + cube);
    uint64_t quotient = raised >> (3 * shift + 1);
    return nearest((int64_t)quotient - (lift >> (3 * shift + 1)), quotient << (3 * shift + 1) == raised);
}

/*
 * near of a finite f64's exact value, |q| < 2^52: a fraction is exact in f64. At a half below 0 the larger
 * neighbour is whole itself.
 */
static int64_t near_of_f64(double q)
{
    int64_t whole = (int64_t)q;     /* toward zero */
    double fraction = q - (double)whole;
    return nearest(whole + (fraction >= 0.5) - (fraction < -0.5), fraction == 0.5 || fraction == -0.5);
}

/* ---- Basis and height ---- */

/* The four numerators over 6U^3 at offset a of a cell. */
static void basis_numerators(int64_t unit, int64_t a, int64_t numerator[4])
{
    int64_t back = unit - a;
    int64_t cube = unit * unit * unit;
    numerator[0] = back * back * back;
    numerator[1] = 3 * a * a * a - 6 * a * a * unit + 4 * cube;
    numerator[2] = -3 * a * a * a + 3 * a * a * unit + 3 * a * unit * unit + cube;
    numerator[3] = a * a * a;
}

/*
 * Where a position lies on one axis. Cell c uses control indices c-1 to c+2,
 * which are stored from place c on.
 */
typedef struct { size_t cell; int64_t offset, numerator[4]; } axis_place;

static axis_place place_on_axis(size_t position, size_t cells, unsigned shift)
{
    axis_place place;
    place.cell = position >> shift;
    if (place.cell == cells)        /* the far edge belongs to the last cell, with a = U */
        place.cell--;
    place.offset = (int64_t)(position - (place.cell << shift));
    basis_numerators(INT64_C(1) << shift, place.offset, place.numerator);
    return place;
}

/* Of four values that lie stride places apart. */
static int64_t sum_of_four(const int64_t numerator[4], const int64_t *value, size_t stride)
{
    return numerator[0] * value[0] + numerator[1] * value[stride]
         + numerator[2] * value[2 * stride] + numerator[3] * value[3 * stride];
}

/* The height in its two steps, of a lattice with width control values a row. */
static int64_t height_in_cell(const int64_t *lattice, size_t width, unsigned shift,
                              const axis_place *x, const axis_place *y)
{
    const int64_t *corner = lattice + y->cell * width + x->cell;
    int64_t row[4];
    for (size_t l = 0; l < 4; l++)
        row[l] = near_of_basis_sum(sum_of_four(x->numerator, corner + l * width, 1), shift);
    return near_of_basis_sum(sum_of_four(y->numerator, row, 1), shift);
}

/* The refusals of a single height, and with them those of a slope: "6 covers the lattice first, then 5". */
static verdict check_position(size_t m, size_t n, unsigned shift,
                              const int64_t *lattice, size_t lattice_len, size_t x, size_t y)
{
    if (!cells_allowed(m, n, MAX_CELLS))
        return (verdict){ 1, 0 };
    if (shift == 0)
        return (verdict){ 2, 0 };
    size_t places = lattice_places(m, n);
    if (lattice_len < places)
        return (verdict){ 4, 0 };
    size_t bad = first_out_of_range(lattice, places);
    if (bad < places)
        return (verdict){ 6, bad };
    if (x > m << shift || y > n << shift)
        return (verdict){ 5, 0 };
    return (verdict){ 0, 0 };
}

ref_height ref_height_at(size_t m, size_t n, size_t unit,
                         const int64_t *lattice, size_t lattice_len, size_t x, size_t y)
{
    unsigned shift = shift_of_unit(unit);
    verdict bad = check_position(m, n, shift, lattice, lattice_len, x, y);
    if (bad.number != 0)
        return (ref_height){ .number = bad.number, .place = bad.place };
    axis_place on_x = place_on_axis(x, m, shift), on_y = place_on_axis(y, n, shift);
    return (ref_height){ .height = height_in_cell(lattice, m + 3, shift, &on_x, &on_y) };
}

/* ---- Slope ---- */

/* The four slope numerators over 2U^3 at offset a of a cell. */
static void slope_numerators(int64_t unit, int64_t a, int64_t numerator[4])
{
    int64_t back = unit - a;
    numerator[0] = -(back * back);
    numerator[1] = 3 * a * a - 4 * a * unit;
    numerator[2] = -3 * a * a + 2 * a * unit + unit * unit;
    numerator[3] = a * a;
}

/*
 * The slope along the axis own in its two steps, in the cell whose first control value is corner.
 * Neighbours lie along places apart on the axis own, and across places apart on the other.
 */
static int64_t slope_in_cell(const int64_t *corner, size_t along, size_t across, unsigned shift,
                             const axis_place *own, const axis_place *other)
{
    int64_t numerator[4], line[4];
    for (size_t k = 0; k < 4; k++)
        line[k] = near_of_basis_sum(sum_of_four(other->numerator, corner + k * along, across), shift);
    slope_numerators(INT64_C(1) << shift, own->offset, numerator);
    return near_of_slope_sum(sum_of_four(numerator, line, 1), shift);
}

ref_slope ref_slope_at(size_t m, size_t n, size_t unit,
                       const int64_t *lattice, size_t lattice_len, size_t x, size_t y)
{
    unsigned shift = shift_of_unit(unit);
    verdict bad = check_position(m, n, shift, lattice, lattice_len, x, y);
    if (bad.number != 0)
        return (ref_slope){ .number = bad.number, .place = bad.place };
    axis_place on_x = place_on_axis(x, m, shift), on_y = place_on_axis(y, n, shift);
    size_t width = m + 3;
    const int64_t *corner = lattice + on_y.cell * width + on_x.cell;
    return (ref_slope){ .along_x = slope_in_cell(corner, 1, width, shift, &on_x, &on_y),
                        .along_y = slope_in_cell(corner, width, 1, shift, &on_y, &on_x) };
}

/* ---- Refinement ---- */

/*
 * One new row from three old rows and their y weights. In storage, where index -1
 * is place 0, new place 2t weighs old t, t+1 by (4, 4) and new place 2t+1 weighs
 * old t, t+1, t+2 by (1, 6, 1). The double sum is exact, so its order is free:
 * first along y, once for each old column, then along x.
 */
static void refine_row(size_t m, const int64_t *const row[3], const int64_t weight[3],
                       int64_t *restrict output)
{
    const int64_t *r0 = row[0], *r1 = row[1], *r2 = row[2];
    int64_t w0 = weight[0], w1 = weight[1], w2 = weight[2];
    int64_t left = w0 * r0[0] + w1 * r1[0] + w2 * r2[0];
    int64_t middle = w0 * r0[1] + w1 * r1[1] + w2 * r2[1];
    for (size_t t = 0; t <= m; t++) {
        int64_t right = w0 * r0[t + 2] + w1 * r1[t + 2] + w2 * r2[t + 2];
        output[2 * t] = near_of_refinement_sum(4 * left + 4 * middle);
        output[2 * t + 1] = near_of_refinement_sum(left + 6 * middle + right);
        left = middle;
        middle = right;
    }
    output[2 * m + 2] = near_of_refinement_sum(4 * left + 4 * middle);
}

/* The rows go by the same rule as the places in a row. */
static void refine_lattice(size_t m, size_t n, const int64_t *lattice, int64_t *restrict output)
{
    static const int64_t weight[2][3] = { { 4, 4, 0 }, { 1, 6, 1 } };
    size_t width = m + 3;
    for (size_t j = 0; j < 2 * n + 3; j++) {
        const int64_t *first = lattice + j / 2 * width;
        const int64_t *const row[3] = { first, first + width, first + (1 + j % 2) * width };
        refine_row(m, row, weight[j % 2], output + j * (2 * m + 3));
    }
}

ref_cells ref_refine(size_t m, size_t n, const int64_t *lattice, size_t lattice_len,
                     int64_t *output, size_t output_len)
{
    if (!cells_allowed(m, n, MAX_REFINED))
        return (ref_cells){ .number = 1 };
    size_t places = lattice_places(m, n);
    if (lattice_len < places || output_len < lattice_places(2 * m, 2 * n))
        return (ref_cells){ .number = 4 };
    size_t bad = first_out_of_range(lattice, places);
    if (bad < places)
        return (ref_cells){ .number = 6, .place = bad };
    refine_lattice(m, n, lattice, output);
    return (ref_cells){ .m = 2 * m, .n = 2 * n };
}

/* ---- Point lists, for the fit and the point writer ---- */

/* Refusals 1, 2 and 3, which covers the list of confidences too; 0 for none. */
static uint64_t check_lists(size_t m0, size_t n0, size_t h,
                            size_t x_len, size_t y_len, size_t z_len, size_t q_len)
{
    if (!cells_allowed(m0, n0, MAX_COARSEST))
        return 1;
    if (h > MAX_H)
        return 2;
    if (x_len != y_len || x_len != z_len || x_len != q_len || x_len > MAX_POINTS)
        return 3;
    return 0;
}

/* The far edge of a fit's grid on the axis with this many coarsest cells. */
static size_t far_edge(size_t coarsest, size_t h)
{
    return coarsest << (FINEST_SHIFT + h);
}

/* "Points go in list order, 5 before 6 in a point", and 17 "after 6 in each point". A byte above 0 is a good q. */
static verdict check_points(size_t m0, size_t n0, size_t h, size_t points,
                            const uint16_t *x, const uint16_t *y, const int64_t *z, const uint8_t *q)
{
    size_t x_edge = far_edge(m0, h), y_edge = far_edge(n0, h);
    for (size_t i = 0; i < points; i++) {
        if (x[i] > x_edge || y[i] > y_edge)
            return (verdict){ 5, i };
        if (!in_range(z[i]))
            return (verdict){ 6, i };
        if (q[i] == 0)
            return (verdict){ 17, i };
    }
    return (verdict){ 0, 0 };
}

/* ---- The base ---- */

/* "near of the mean height, or 0 with no points": in range, as it lies between heights that are. It "ignores q". */
int64_t ref_base(const int64_t *z, size_t points)
{
    int64_t sum = 0;
    for (size_t i = 0; i < points; i++)
        sum += z[i];
    return points == 0 ? 0 : ref_near(sum, (int64_t)points);
}

/* The point that 15 names, "where a difference is out of range"; points if there is none. */
static size_t first_difference_out(const int64_t *z, size_t points, int64_t base)
{
    size_t i = 0;
    while (i < points && in_range(z[i] - base))
        i++;
    return i;
}

/* ---- The whole fit ---- */

/* What a fit works on: the caller's points, their base and the two scratch slices in their parts. */
typedef struct {
    size_t m0, n0, h, points;
    int64_t base;
    const uint16_t *x, *y;
    const uint8_t *q;
    int64_t *level, *running, *spare, *residual;
    double *first, *second;         /* the two running sums of every control value */
} fit_work;

/* Adds one point, of value z and confidence q, to the sums of its sixteen control values. S has no q in it. */
static void add_point(double *restrict first, double *restrict second, size_t width, unsigned shift,
                      const axis_place *x, const axis_place *y, double z, double q)
{
    double divisor = (double)(INT64_C(6) << 3 * shift);
    double b[4], c[4], w[4][4], s = 0.0;
    for (size_t k = 0; k < 4; k++) {
        b[k] = (double)x->numerator[k] / divisor;
        c[k] = (double)y->numerator[k] / divisor;
    }
    for (size_t k = 0; k < 4; k++)
        for (size_t l = 0; l < 4; l++) {
            w[l][k] = b[k] * c[l];  /* kept by rows, as the lattice is */
            s += w[l][k] * w[l][k];
        }
    for (size_t l = 0; l < 4; l++) {
        size_t row = (y->cell + l) * width + x->cell;
        for (size_t k = 0; k < 4; k++) {
            double pull = q * (w[l][k] * w[l][k]);
            first[row + k] += pull * ((w[l][k] * z) / s);
            second[row + k] += pull;
        }
    }
}

/* The running sums of one level, from 0, points in list order. */
static void gather_sums(const fit_work *f, size_t m, size_t n, unsigned shift)
{
    size_t places = lattice_places(m, n);
    for (size_t i = 0; i < places; i++) {
        f->first[i] = 0.0;
        f->second[i] = 0.0;
    }
    for (size_t i = 0; i < f->points; i++) {
        axis_place x = place_on_axis(f->x[i], m, shift), y = place_on_axis(f->y[i], n, shift);
        add_point(f->first, f->second, m + 3, shift, &x, &y, (double)f->residual[i], (double)f->q[i]);
    }
}

/*
 * The level lattice from the sums; 0 if a quotient is refused: one that is no number, or
 * rounds out of range. What is far outside is refused before it is rounded, and no NaN passes.
 */
static int round_quotients(const fit_work *f, size_t places)
{
    for (size_t i = 0; i < places; i++) {
        f->level[i] = 0;            /* untouched */
        if (f->second[i] > 0.0) {
            double quotient = f->first[i] / f->second[i];
            if (!(quotient > -4000000001.0 && quotient < 4000000001.0))
                return 0;
            f->level[i] = near_of_f64(quotient);
            if (!in_range(f->level[i]))
                return 0;
        }
    }
    return 1;
}

/* Takes from each residual the level's height there; 0 if one leaves the range. */
static int lower_residuals(const fit_work *f, size_t m, size_t n, unsigned shift)
{
    for (size_t i = 0; i < f->points; i++) {
        axis_place x = place_on_axis(f->x[i], m, shift), y = place_on_axis(f->y[i], n, shift);
        f->residual[i] -= height_in_cell(f->level, m + 3, shift, &x, &y);
        if (!in_range(f->residual[i]))
            return 0;
    }
    return 1;
}

/* Which sums a level accepts. */
typedef struct { int64_t lowest, highest; } limits;

/*
 * Sums in range; at level h those of them whose "final sum", with the base, is in range as well. That
 * comes "after that level's own sums" but with their number and level, so one look at a sum asks both.
 */
static limits limits_of_sums(const fit_work *f, size_t k)
{
    int64_t base = k == f->h ? f->base : 0;
    return (limits){ base < 0 ? -BOUND - base : -BOUND, base > 0 ? BOUND - base : BOUND };
}

static int within(int64_t sum, limits of)
{
    return sum >= of.lowest && sum <= of.highest;
}

/* Of a level that adds to no running lattice; 0 if a sum leaves the limits. */
static int check_sums(const int64_t *running, size_t places, limits of)
{
    int good = 1;
    for (size_t i = 0; i < places; i++)
        good &= within(running[i], of);
    return good;
}

/* Adds the level lattice to the running one; 0 if a sum leaves the limits. */
static int add_level(int64_t *restrict running, const int64_t *restrict level, size_t places, limits of)
{
    int good = 1;
    for (size_t i = 0; i < places; i++) {
        running[i] += level[i];
        good &= within(running[i], of);
    }
    return good;
}

/*
 * "a quotient, then a residual, then a sum out of range in a level": why a level is refused, and its number.
 * Job 3 keeps 7 for a quotient and gives the other two numbers of their own.
 */
typedef enum { NONE, QUOTIENT, RESIDUAL, SUM } cause;

static const uint64_t number_of[] = { [NONE] = 0, [QUOTIENT] = 7, [RESIDUAL] = 13, [SUM] = 14 };

/*
 * Level k of the fit: all its quotients before its residuals, and all these before its sums. At level 0
 * only a final one can leave the range, where h is 0. kept, if any, receives the level lattice.
 */
static cause run_level(fit_work *f, size_t k, int64_t *kept)
{
    size_t m = f->m0 << k, n = f->n0 << k, places = lattice_places(m, n);
    unsigned shift = FINEST_SHIFT + (unsigned)(f->h - k);
    gather_sums(f, m, n, shift);
    if (!round_quotients(f, places))
        return QUOTIENT;
    if (kept != NULL)
        memcpy(kept, f->level, places * sizeof *kept);
    if (!lower_residuals(f, m, n, shift))
        return RESIDUAL;
    int64_t *old = f->running;
    if (k == 0) {                   /* no running lattice yet: the level lattice becomes it */
        f->running = f->level;
        f->level = old;
        return check_sums(f->running, places, limits_of_sums(f, k)) ? NONE : SUM;
    }
    refine_lattice(m / 2, n / 2, old, f->spare);
    f->running = f->spare;
    f->spare = old;
    return add_level(f->running, f->level, places, limits_of_sums(f, k)) ? NONE : SUM;
}

/*
 * Both fits; ref_fit lends no levels. All work is done in the scratch, as a refusal in a
 * level, 7, 13 or 14, leaves lattice and residuals as they were. 15 comes "after 6 and before
 * level 0" with "every slice left", so no difference is written before all are asked. 17 is
 * asked in each point, and so comes before any 15.
 */
ref_cells ref_fit_levels(size_t m0, size_t n0, size_t h,
                         const uint16_t *x, size_t x_len, const uint16_t *y, size_t y_len,
                         const int64_t *z, size_t z_len, const uint8_t *q, size_t q_len,
                         int64_t *lattice, size_t lattice_len, int64_t *residual, size_t residual_len,
                         int64_t *whole, size_t whole_len, double *floats, size_t floats_len,
                         int64_t *const *levels)
{
    uint64_t number = check_lists(m0, n0, h, x_len, y_len, z_len, q_len);
    if (number != 0)
        return (ref_cells){ .number = number };
    size_t points = x_len, places = ref_level_places(m0, n0, h);
    if (lattice_len < places || residual_len < points
        || whole_len < 3 * places + points || floats_len < 2 * places)
        return (ref_cells){ .number = 4 };
    verdict bad = check_points(m0, n0, h, points, x, y, z, q);
    if (bad.number != 0)
        return (ref_cells){ .number = bad.number, .place = bad.place };
    int64_t base = ref_base(z, points);
    size_t far = first_difference_out(z, points, base);
    if (far < points)
        return (ref_cells){ .number = 15, .place = far };

    fit_work f = { m0, n0, h, points, base, x, y, q,
                   whole, whole + places, whole + 2 * places, whole + 3 * places,
                   floats, floats + places };
    for (size_t i = 0; i < points; i++)
        f.residual[i] = z[i] - base;    /* "Fit the differences" */
    cause bad_level = NONE;
    size_t k = 0;
    while (k <= h && (bad_level = run_level(&f, k, levels == NULL ? NULL : levels[k])) == NONE)
        k++;
    if (bad_level == NONE) {
        for (size_t i = 0; i < places; i++)
            lattice[i] = f.running[i] + base;
        for (size_t i = 0; i < points; i++)
            residual[i] = f.residual[i];
    }
    memset(whole, 0, (3 * places + points) * sizeof *whole);
    memset(floats, 0, 2 * places * sizeof *floats);     /* all bits zero is +0 */
    if (bad_level != NONE)
        return (ref_cells){ .number = number_of[bad_level], .place = k };
    return (ref_cells){ .m = m0 << h, .n = n0 << h };
}

ref_cells ref_fit(size_t m0, size_t n0, size_t h,
                  const uint16_t *x, size_t x_len, const uint16_t *y, size_t y_len,
                  const int64_t *z, size_t z_len, const uint8_t *q, size_t q_len,
                  int64_t *lattice, size_t lattice_len, int64_t *residual, size_t residual_len,
                  int64_t *whole, size_t whole_len, double *floats, size_t floats_len)
{
    return ref_fit_levels(m0, n0, h, x, x_len, y, y_len, z, z_len, q, q_len, lattice, lattice_len,
                          residual, residual_len, whole, whole_len, floats, floats_len, NULL);
}

/* ---- Rasters ---- */

/* "Step 0 now stands for 8", any other for itself. */
static size_t positions_apart(size_t step)
{
    return step == 0 ? DEFAULT_STEP : step;
}

/* Nodes on one axis, from start on, before the first outside; there may be more than wanted. */
static size_t nodes_inside(size_t start, size_t step, size_t edge)
{
    return start > edge ? 0 : (edge - start) / step + 1;
}

/* The first node outside, row by row; columns * rows if there is none. */
static size_t first_node_outside(size_t across, size_t down, size_t columns, size_t rows)
{
    if (down > 0 && across < columns)   /* already in the first row */
        return across;
    return (down < rows ? down : rows) * columns;
}

/* Refusals 1, 2 and 8, and 4 for the lattice, of any call on a rectangle of nodes; 0 for none. */
static uint64_t check_rectangle(size_t m, size_t n, unsigned shift, size_t lattice_len,
                                size_t step, size_t columns, size_t rows)
{
    if (!cells_allowed(m, n, MAX_CELLS))
        return 1;
    if (shift == 0)
        return 2;
    if (step > MAX_STEP || columns > MAX_NODES || rows > MAX_NODES)
        return 8;
    if (lattice_len < lattice_places(m, n))
        return 4;
    return 0;
}

/* Then "6 covers the lattice first, then 5", of every node before a height is taken. */
static verdict check_nodes(size_t m, size_t n, unsigned shift, const int64_t *lattice,
                           size_t x0, size_t y0, size_t step, size_t columns, size_t rows)
{
    size_t places = lattice_places(m, n), nodes = columns * rows;
    size_t bad = first_out_of_range(lattice, places);
    if (bad < places)
        return (verdict){ 6, bad };
    if (nodes == 0)                 /* no node is outside, wherever x0 and y0 are */
        return (verdict){ 0, 0 };
    size_t apart = positions_apart(step);
    bad = first_node_outside(nodes_inside(x0, apart, m << shift), nodes_inside(y0, apart, n << shift),
                             columns, rows);
    if (bad < nodes)
        return (verdict){ 5, bad };
    return (verdict){ 0, 0 };
}

/* Each node's height by itself, row by row. */
static void write_raster(size_t m, size_t n, unsigned shift, const int64_t *lattice,
                         size_t x0, size_t y0, size_t step, size_t columns, size_t rows,
                         int64_t *restrict output)
{
    for (size_t r = 0; r < rows; r++) {
        axis_place y = place_on_axis(y0 + r * step, n, shift);
        for (size_t c = 0; c < columns; c++) {
            axis_place x = place_on_axis(x0 + c * step, m, shift);
            *output++ = height_in_cell(lattice, m + 3, shift, &x, &y);
        }
    }
}

ref_count ref_raster(size_t m, size_t n, size_t unit, const int64_t *lattice, size_t lattice_len,
                     size_t x0, size_t y0, size_t step, size_t columns, size_t rows,
                     int64_t *output, size_t output_len)
{
    unsigned shift = shift_of_unit(unit);
    uint64_t number = check_rectangle(m, n, shift, lattice_len, step, columns, rows);
    if (number != 0)
        return (ref_count){ .number = number };
    size_t nodes = columns * rows;
    if (output_len < nodes)
        return (ref_count){ .number = 4 };
    verdict bad = check_nodes(m, n, shift, lattice, x0, y0, step, columns, rows);
    if (bad.number != 0)
        return (ref_count){ .number = bad.number, .place = bad.place };
    if (nodes > 0)                  /* "No columns or no rows writes nothing" */
        write_raster(m, n, shift, lattice, x0, y0, positions_apart(step), columns, rows, output);
    return (ref_count){ .count = nodes };
}

/* ---- The ground above a stage ---- */

/*
 * "The walk stops at the first node found above". A height at the stage is not above it: the job may pass over
 * a cell whose control values are "at or below the stage". Here no cell is passed over. Numerators are not
 * negative and add up to 6U^3, so no row and then no height of such a cell rounds to more than the stage, and
 * working its nodes out finds none above.
 */
static int any_node_above(size_t m, size_t n, unsigned shift, const int64_t *lattice,
                          size_t x0, size_t y0, size_t step, size_t columns, size_t rows, int64_t stage)
{
    for (size_t r = 0; r < rows; r++) {
        axis_place y = place_on_axis(y0 + r * step, n, shift);
        for (size_t c = 0; c < columns; c++) {
            axis_place x = place_on_axis(x0 + c * step, m, shift);
            if (height_in_cell(lattice, m + 3, shift, &x, &y) > stage)
                return 1;
        }
    }
    return 0;
}

/*
 * "A stage out of range is 6 with place 0, before the lattice; the raster's other checks hold": 1, 2, 8, 4 for the
 * lattice alone, as no output is lent, the stage's 6, the lattice's 6, then 5. They come before the walk, as the full
 * raster would be refused for a node outside whatever stands above in a node before it.
 */
ref_above ref_any_above(size_t m, size_t n, size_t unit, const int64_t *lattice, size_t lattice_len,
                        size_t x0, size_t y0, size_t step, size_t columns, size_t rows, int64_t stage)
{
    unsigned shift = shift_of_unit(unit);
    uint64_t number = check_rectangle(m, n, shift, lattice_len, step, columns, rows);
    if (number != 0)
        return (ref_above){ .number = number };
    if (!in_range(stage))
        return (ref_above){ .number = 6, .place = 0 };
    verdict bad = check_nodes(m, n, shift, lattice, x0, y0, step, columns, rows);
    if (bad.number != 0)
        return (ref_above){ .number = bad.number, .place = bad.place };
    if (columns == 0 || rows == 0)  /* "An empty rectangle is no" */
        return (ref_above){ .above = 0 };
    int above = any_node_above(m, n, shift, lattice, x0, y0, positions_apart(step), columns, rows, stage);
    return (ref_above){ .above = (uint64_t)above };
}

/* ---- Pond storage ---- */

/*
 * "stage less height where positive, else 0": at most 2 * BOUND, as both are in range. Bit 63 is the sign; 1 less, it is a
 * mask of all bits, or of none where the difference is negative. With no branch, depths can be taken side by side.
 */
static int64_t depth_at(int64_t stage, int64_t height)
{
    uint64_t depth = (uint64_t)(stage - height);
    return (int64_t)(depth & ((depth >> 63) - 1));
}

/*
 * The floor of (sum * side^2) / PER_LITRE, of the whole sum. MAX_NODES^2 depths add up to at most
 * 8e9 * 6.8e7 < 5.5e17 < 2^63, but 10,000 times that leaves 64 bits. With the sum as whole * PER_LITRE
 * + rest, the product over PER_LITRE is whole * side^2 + rest * side^2 / PER_LITRE, whose first term is
 * a whole number. It is below 5.5e16, and rest * side^2 below 1e9.
 */
static uint64_t litres_of(int64_t sum, size_t side)
{
    uint64_t square = (uint64_t)side * side;
    uint64_t whole = (uint64_t)sum / PER_LITRE, rest = (uint64_t)sum % PER_LITRE;
    return whole * square + rest * square / PER_LITRE;
}

/* 8, 4, "16 for a side outside its range, after 4", then 6: "the stage as index 0 and then the heights from 1". */
ref_storage ref_storage_at(size_t columns, size_t rows, const int64_t *heights, size_t heights_len,
                           int64_t stage, size_t side)
{
    if (columns > MAX_NODES || rows > MAX_NODES)
        return (ref_storage){ .number = 8 };
    size_t nodes = columns * rows;
    if (heights_len < nodes)
        return (ref_storage){ .number = 4 };
    if (side < 1 || side > MAX_SIDE)
        return (ref_storage){ .number = 16 };
    if (!in_range(stage))
        return (ref_storage){ .number = 6, .place = 0 };
    int64_t sum = 0;
    for (size_t i = 0; i < nodes; i++) {
        if (!in_range(heights[i]))
            return (ref_storage){ .number = 6, .place = i + 1 };
        sum += depth_at(stage, heights[i]);
    }
    return (ref_storage){ .litres = litres_of(sum, side) };
}

/* ---- The stage for a wanted storage ---- */

/*
 * Of heights that are all in range. The sum is exact, so its order is free, and a step of several nodes lets the
 * compiler add their depths side by side.
 */
static int64_t sum_of_depths(const int64_t *heights, size_t nodes, int64_t stage)
{
    int64_t sum = 0;
    size_t i = 0;
    for (; nodes - i >= NODES_AT_ONCE; i += NODES_AT_ONCE)
        for (size_t k = 0; k < NODES_AT_ONCE; k++)
            sum += depth_at(stage, heights[i + k]);
    for (; i < nodes; i++)          /* fewer than one step */
        sum += depth_at(stage, heights[i]);
    return sum;
}

/*
 * "the lowest stage in range that stores at least the wanted litres", where BOUND does. "A higher stage never stores
 * less", so high always stores enough and every stage below low too little. Each sum halves the stages between
 * them, at first 2 * BOUND + 1 < 2^33, so there are at most 33 sums. "Wanted 0" is stored by all, the lowest too.
 */
static int64_t lowest_stage(const int64_t *heights, size_t nodes, uint64_t wanted, size_t side)
{
    int64_t low = -BOUND, high = BOUND;
    while (low < high) {
        int64_t middle = low + (high - low) / 2;
        if (litres_of(sum_of_depths(heights, nodes, middle), side) >= wanted)
            high = middle;
        else
            low = middle + 1;
    }
    return high;
}

/*
 * A storage at BOUND has the checks of "the same raster and side": 8, 4, 16, then 6 for the heights, "indexed from 1".
 * Its stage is in range, so 6 never has place 0. Its litres are the most there can be, and say "18 for none, last of all".
 */
ref_stage ref_stage_for(size_t columns, size_t rows, const int64_t *heights, size_t heights_len,
                        uint64_t wanted, size_t side)
{
    ref_storage most = ref_storage_at(columns, rows, heights, heights_len, BOUND, side);
    if (most.number != 0)
        return (ref_stage){ .number = most.number, .place = most.place };
    if (most.litres < wanted)
        return (ref_stage){ .number = 18 };
    return (ref_stage){ .stage = lowest_stage(heights, columns * rows, wanted, side) };
}

/* ---- Files: little-endian fields and marks ---- */

static uint16_t get_u16(const uint8_t *at)
{
    return (uint16_t)(at[0] | at[1] << 8);
}

static int64_t get_i64(const uint8_t *at)
{
    uint64_t bits = (uint64_t)at[0] | (uint64_t)at[1] << 8 | (uint64_t)at[2] << 16
                  | (uint64_t)at[3] << 24 | (uint64_t)at[4] << 32 | (uint64_t)at[5] << 40
                  | (uint64_t)at[6] << 48 | (uint64_t)at[7] << 56;
    int64_t value;
    memcpy(&value, &bits, sizeof value);    /* int64_t is two's complement */
    return value;
}

static void put_u16(uint8_t *at, size_t v)
{
    at[0] = (uint8_t)v;
    at[1] = (uint8_t)(v >> 8);
}

static void put_i64(uint8_t *at, int64_t v)
{
    uint64_t bits = (uint64_t)v;    /* modulo 2^64, which is two's complement */
    uint8_t bytes[8];
    for (unsigned b = 0; b < 8; b++)
        bytes[b] = (uint8_t)(bits >> 8 * b);
    memcpy(at, bytes, sizeof bytes);
}

static void put_mark(uint8_t *at, char first, char second)
{
    at[0] = (uint8_t)first;
    at[1] = (uint8_t)second;
}

/*
 * Every record begins so: 9 if not all its bytes are there, then 10 if its mark is
 * another. at is never past the end of the file.
 */
static verdict open_record(const uint8_t *file, size_t file_len, size_t at, size_t bytes,
                           char first, char second)
{
    if (file_len - at < bytes)
        return (verdict){ 9, at };
    if (file[at] != (uint8_t)first || file[at + 1] != (uint8_t)second)
        return (verdict){ 10, at };
    return (verdict){ 0, 0 };
}

/* ---- Lattice files ---- */

static size_t lattice_row_bytes(size_t m)
{
    return 4 + 8 * (m + 3);
}

static size_t lattice_file_bytes(size_t m, size_t n)
{
    return LATTICE_HEADER_BYTES + (n + 3) * lattice_row_bytes(m) + LATTICE_CLOSING_BYTES;
}

static verdict check_lattice_row(const uint8_t *file, size_t file_len, size_t at, size_t m, size_t r)
{
    verdict bad = open_record(file, file_len, at, lattice_row_bytes(m), 'L', 'R');
    if (bad.number != 0)
        return bad;
    if (get_u16(file + at + 2) != r)
        return (verdict){ 11, at + 2 };
    for (size_t value = at + 4; value < at + lattice_row_bytes(m); value += 8)
        if (!in_range(get_i64(file + value)))
            return (verdict){ 11, value };
    return (verdict){ 0, 0 };
}

/* The rows, the closing record and the end of a file whose header is good. */
static verdict check_lattice_records(const uint8_t *file, size_t file_len, size_t m, size_t n)
{
    size_t at = LATTICE_HEADER_BYTES;
    for (size_t r = 0; r < n + 3; r++, at += lattice_row_bytes(m)) {
        verdict bad = check_lattice_row(file, file_len, at, m, r);
        if (bad.number != 0)
            return bad;
    }
    verdict bad = open_record(file, file_len, at, LATTICE_CLOSING_BYTES, 'L', 'E');
    if (bad.number != 0)
        return bad;
    if (get_u16(file + at + 2) != n + 3)
        return (verdict){ 11, at + 2 };
    at += LATTICE_CLOSING_BYTES;
    if (at < file_len)
        return (verdict){ 12, at };
    return (verdict){ 0, 0 };
}

/* A refusal leaves everything, so the file is checked whole before a value is written. */
ref_cells ref_read_lattice(const uint8_t *file, size_t file_len, int64_t *output, size_t output_len)
{
    verdict bad = open_record(file, file_len, 0, LATTICE_HEADER_BYTES, 'L', 'H');
    if (bad.number != 0)
        return (ref_cells){ .number = bad.number, .place = bad.place };
    size_t m = get_u16(file + 2), n = get_u16(file + 4);
    if (m < 1 || m > MAX_CELLS)
        return (ref_cells){ .number = 11, .place = 2 };
    if (n < 1 || n > MAX_CELLS)
        return (ref_cells){ .number = 11, .place = 4 };
    bad = check_lattice_records(file, file_len, m, n);
    if (bad.number != 0)
        return (ref_cells){ .number = bad.number, .place = bad.place };
    if (output_len < lattice_places(m, n))
        return (ref_cells){ .number = 4 };
    const uint8_t *at = file + LATTICE_HEADER_BYTES;
    for (size_t r = 0; r < n + 3; r++) {
        at += 4;
        for (size_t i = 0; i < m + 3; i++, at += 8)
            *output++ = get_i64(at);
    }
    return (ref_cells){ .m = m, .n = n };
}

ref_count ref_write_lattice(size_t m, size_t n, const int64_t *lattice, size_t lattice_len,
                            uint8_t *output, size_t output_len)
{
    if (!cells_allowed(m, n, MAX_CELLS))
        return (ref_count){ .number = 1 };
    size_t places = lattice_places(m, n), bytes = lattice_file_bytes(m, n);
    if (lattice_len < places || output_len < bytes)
        return (ref_count){ .number = 4 };
    size_t bad = first_out_of_range(lattice, places);
    if (bad < places)
        return (ref_count){ .number = 6, .place = bad };
    put_mark(output, 'L', 'H');
    put_u16(output + 2, m);
    put_u16(output + 4, n);
    uint8_t *at = output + LATTICE_HEADER_BYTES;
    for (size_t r = 0; r < n + 3; r++) {
        put_mark(at, 'L', 'R');
        put_u16(at + 2, r);
        at += 4;
        for (size_t i = 0; i < m + 3; i++, at += 8)
            put_i64(at, *lattice++);
    }
    put_mark(at, 'L', 'E');
    put_u16(at + 2, n + 3);
    return (ref_count){ .count = bytes };
}

/* ---- Point files ---- */

/* The header record; its last field, the count of points, may be any u16. */
static verdict check_point_header(const uint8_t *file, size_t file_len)
{
    verdict bad = open_record(file, file_len, 0, POINT_HEADER_BYTES, 'P', 'H');
    if (bad.number != 0)
        return bad;
    if (file[2] < 1 || file[2] > MAX_COARSEST)
        return (verdict){ 11, 2 };
    if (file[3] < 1 || file[3] > MAX_COARSEST)
        return (verdict){ 11, 3 };
    if (file[4] > MAX_H)
        return (verdict){ 11, 4 };
    if (file[5] != 0)
        return (verdict){ 11, 5 };
    return (verdict){ 0, 0 };
}

/* The two kinds of point record: the second letter of the mark, and the bytes of the record. */
typedef struct { char letter; size_t bytes; } point_kind;

static const point_kind without_q = { 'T', PT_BYTES }, with_q = { 'Q', PQ_BYTES };

/*
 * "the first sets the kind", of a file whose header is good. Its mark is read only where 14 bytes are left. A first
 * record with fewer, or with a mark that is neither, goes on as a PT, and open_record refuses it by 9 or by 10. A PQ
 * with 14 is refused by 9 there, as it has 15 in all. With no points the kind is never used.
 */
static point_kind kind_of_points(const uint8_t *file, size_t file_len)
{
    const uint8_t *first = file + POINT_HEADER_BYTES;
    if (file_len - POINT_HEADER_BYTES < PT_BYTES)
        return without_q;
    return first[0] == (uint8_t)'P' && first[1] == (uint8_t)with_q.letter ? with_q : without_q;
}

/* "with q as a last byte"; "a PT point reads as q = 1". */
static uint8_t get_confidence(const uint8_t *record, point_kind kind)
{
    return kind.letter == with_q.letter ? record[PT_BYTES] : 1;
}

/* One record of a file whose kind is set: "later records are measured by the kind", and here the first is too. */
static verdict check_point_record(const uint8_t *file, size_t file_len, size_t at, point_kind kind,
                                  size_t x_edge, size_t y_edge)
{
    verdict bad = open_record(file, file_len, at, kind.bytes, 'P', kind.letter);
    if (bad.number != 0)
        return bad;
    if (get_u16(file + at + 2) > x_edge)
        return (verdict){ 11, at + 2 };
    if (get_u16(file + at + 4) > y_edge)
        return (verdict){ 11, at + 4 };
    if (!in_range(get_i64(file + at + 6)))
        return (verdict){ 11, at + 6 };
    if (get_confidence(file + at, kind) == 0)
        return (verdict){ 11, at + PT_BYTES };
    return (verdict){ 0, 0 };
}

/* The points and the end of a file whose header is good. */
static verdict check_point_records(const uint8_t *file, size_t file_len, size_t points, point_kind kind,
                                   size_t x_edge, size_t y_edge)
{
    size_t at = POINT_HEADER_BYTES;
    for (size_t i = 0; i < points; i++, at += kind.bytes) {
        verdict bad = check_point_record(file, file_len, at, kind, x_edge, y_edge);
        if (bad.number != 0)
            return bad;
    }
    if (at < file_len)
        return (verdict){ 12, at };
    return (verdict){ 0, 0 };
}

ref_header ref_read_points(const uint8_t *file, size_t file_len, uint16_t *x, size_t x_len,
                           uint16_t *y, size_t y_len, int64_t *z, size_t z_len, uint8_t *q, size_t q_len)
{
    verdict bad = check_point_header(file, file_len);
    if (bad.number != 0)
        return (ref_header){ .number = bad.number, .place = bad.place };
    size_t m0 = file[2], n0 = file[3], h = file[4], points = get_u16(file + 6);
    point_kind kind = kind_of_points(file, file_len);
    bad = check_point_records(file, file_len, points, kind, far_edge(m0, h), far_edge(n0, h));
    if (bad.number != 0)
        return (ref_header){ .number = bad.number, .place = bad.place };
    if (x_len < points || y_len < points || z_len < points || q_len < points)
        return (ref_header){ .number = 4 };
    const uint8_t *at = file + POINT_HEADER_BYTES;
    for (size_t i = 0; i < points; i++, at += kind.bytes) {
        x[i] = get_u16(at + 2);
        y[i] = get_u16(at + 4);
        z[i] = get_i64(at + 6);
        q[i] = get_confidence(at, kind);
    }
    return (ref_header){ .m0 = m0, .n0 = n0, .h = h, .points = points };
}

/* "The writer writes PQ", also where every q is 1. */
ref_count ref_write_points(size_t m0, size_t n0, size_t h,
                           const uint16_t *x, size_t x_len, const uint16_t *y, size_t y_len,
                           const int64_t *z, size_t z_len, const uint8_t *q, size_t q_len,
                           uint8_t *output, size_t output_len)
{
    uint64_t number = check_lists(m0, n0, h, x_len, y_len, z_len, q_len);
    if (number != 0)
        return (ref_count){ .number = number };
    size_t points = x_len, bytes = POINT_HEADER_BYTES + points * PQ_BYTES;
    if (output_len < bytes)
        return (ref_count){ .number = 4 };
    verdict bad = check_points(m0, n0, h, points, x, y, z, q);
    if (bad.number != 0)
        return (ref_count){ .number = bad.number, .place = bad.place };
    put_mark(output, 'P', 'H');
    output[2] = (uint8_t)m0;
    output[3] = (uint8_t)n0;
    output[4] = (uint8_t)h;
    output[5] = 0;
    put_u16(output + 6, points);
    uint8_t *at = output + POINT_HEADER_BYTES;
    for (size_t i = 0; i < points; i++, at += PQ_BYTES) {
        put_mark(at, 'P', with_q.letter);
        put_u16(at + 2, x[i]);
        put_u16(at + 4, y[i]);
        put_i64(at + 6, z[i]);
        at[PT_BYTES] = q[i];
    }
    return (ref_count){ .count = bytes };
}

/* ---- The program ---- */

/* The line "refused N P"; set up aside, so that no byte after it is written. */
static size_t write_refusal(uint64_t number, uint64_t place, uint8_t *output)
{
    char line[64];
    int bytes = snprintf(line, sizeof line, "refused %" PRIu64 " %" PRIu64 "\n", number, place);
    memcpy(output, line, (size_t)bytes);
    return (size_t)bytes;
}

size_t ref_program(const uint8_t *input, size_t input_len, uint8_t *output)
{
    uint16_t x[PROGRAM_POINTS], y[PROGRAM_POINTS];
    uint8_t q[PROGRAM_POINTS];
    int64_t z[PROGRAM_POINTS], residual[PROGRAM_POINTS], lattice[PROGRAM_PLACES];
    int64_t whole[3 * PROGRAM_PLACES + PROGRAM_POINTS];
    double floats[2 * PROGRAM_PLACES];

    if (input_len > PROGRAM_BYTES)
        return write_refusal(4, 0, output);
    ref_header header = ref_read_points(input, input_len, x, PROGRAM_POINTS, y, PROGRAM_POINTS,
                                        z, PROGRAM_POINTS, q, PROGRAM_POINTS);
    if (header.number != 0)
        return write_refusal(header.number, header.place, output);
    if (header.m0 << header.h > PROGRAM_CELLS || header.n0 << header.h > PROGRAM_CELLS)
        return write_refusal(4, 0, output);
    ref_cells fit = ref_fit(header.m0, header.n0, header.h,
                            x, header.points, y, header.points, z, header.points, q, header.points,
                            lattice, PROGRAM_PLACES, residual, PROGRAM_POINTS,
                            whole, 3 * PROGRAM_PLACES + PROGRAM_POINTS, floats, 2 * PROGRAM_PLACES);
    if (fit.number != 0)
        return write_refusal(fit.number, fit.place, output);
    return ref_write_lattice(fit.m, fit.n, lattice, PROGRAM_PLACES, output, PROGRAM_OUTPUT).count;
}

/*
 * ---- Demand 3 ----
 *
 * Why 128 bits suffice. A basis double sum has non-negative products of numerators
 * that add up to 36U^6, so it is at most 36U^6 times the greatest control value:
 * with U at most 512, 36 * 2^54 < 2^60 times anything in 64 bits stays below 2^123.
 * Level k of T: its U is 16 * 2^(h-k), so D / 36U^6 is 2^(6k), and its term is the
 * double sum times 2^(6k), at most BOUND * D < 2^32 * 2^60 = 2^92. The sum of the
 * at most six terms is below 2^95, and so are its partial sums. V is one such term,
 * and so is base * D: T + base * D is below 2^96.
 * 2 * D * height is below 2 * 2^60 * 2^63 = 2^124 for any 64-bit height, so its
 * difference from 2 * (T + base * D) is below 2^125. (h + 2) * D is below 2^63.
 */

size_t ref_level_places(size_t m0, size_t n0, size_t k)
{
    return lattice_places(m0 << k, n0 << k);
}

/* The four numerators of one axis, for a height or for a slope. */
typedef void numerators(int64_t unit, int64_t a, int64_t numerator[4]);

/* The double sum of products of numerators and control values. */
static ref_wide double_sum(size_t m, size_t n, size_t unit, const int64_t *lattice, size_t x, size_t y,
                           numerators *of_x, numerators *of_y)
{
    size_t cell_x = x / unit, cell_y = y / unit;
    if (cell_x == m)                /* the far edge again; here U may be no power of two */
        cell_x--;
    if (cell_y == n)
        cell_y--;
    int64_t on_x[4], on_y[4];
    of_x((int64_t)unit, (int64_t)(x - cell_x * unit), on_x);
    of_y((int64_t)unit, (int64_t)(y - cell_y * unit), on_y);
    ref_wide sum = 0;
    for (size_t l = 0; l < 4; l++)
        for (size_t k = 0; k < 4; k++)
            sum += (ref_wide)(on_x[k] * on_y[l]) * lattice[(cell_y + l) * (m + 3) + cell_x + k];
    return sum;
}

ref_wide ref_surface(size_t m, size_t n, size_t unit, const int64_t *lattice, size_t x, size_t y)
{
    return double_sum(m, n, unit, lattice, x, y, basis_numerators, basis_numerators);
}

ref_wide ref_D(size_t h)
{
    ref_wide cube = (ref_wide)1 << 3 * (FINEST_SHIFT + h);
    return 36 * cube * cube;
}

ref_wide ref_T(size_t m0, size_t n0, size_t h, int64_t *const *levels, size_t x, size_t y)
{
    ref_wide sum = 0;
    for (size_t k = 0; k <= h; k++)
        sum += ref_surface(m0 << k, n0 << k, (size_t)16 << (h - k), levels[k], x, y)
             * ((ref_wide)1 << 6 * k);
    return sum;
}

ref_wide ref_V(size_t m0, size_t n0, size_t h, const int64_t *lattice, size_t x, size_t y)
{
    return ref_surface(m0 << h, n0 << h, 16, lattice, x, y) * ((ref_wide)1 << 6 * h);
}

void ref_demand3(size_t m0, size_t n0, size_t h, int64_t *const *levels, const int64_t *lattice,
                 size_t x, size_t y, ref_wide *d, ref_wide *t, ref_wide *v)
{
    *d = ref_D(h);
    *t = ref_T(m0, n0, h, levels, x, y);
    *v = ref_V(m0, n0, h, lattice, x, y);
}

/* "from the exact level sum plus the base": the levels are those of the differences, so T has no base in it. */
int ref_demand3_holds(size_t m0, size_t n0, size_t h, int64_t *const *levels, int64_t base, const int64_t *lattice,
                      size_t x, size_t y, ref_height answer)
{
    if (answer.number != 0)
        return 0;
    ref_wide d, t, v;
    ref_demand3(m0, n0, h, levels, lattice, x, y, &d, &t, &v);
    ref_wide off = 2 * d * answer.height - 2 * (t + base * d);
    if (off < 0)
        off = -off;
    return off <= (ref_wide)(h + 2) * d;
}

/*
 * ---- The exact slopes ----
 *
 * Why 128 bits suffice. Slope numerators without their signs add up to at most 3U^2, and
 * numerators to 6U^3, so a double sum is at most 18U^5 times the greatest control value:
 * with U at most 512, 18 * 2^45 < 2^50, and with heights in range the sum stays below
 * 2^50 * 2^32 = 2^82, 1,000 times it below 2^92. 12U^6 * slope is below 2^58 * 2^63 = 2^121
 * for any 64-bit slope, so the difference of the two is below 2^122. The right side,
 * 9,000 U^5 + 6U^6, is below 2^59 + 2^57 < 2^60.
 */

ref_wide ref_slope_x_sum(size_t m, size_t n, size_t unit, const int64_t *lattice, size_t x, size_t y)
{
    return double_sum(m, n, unit, lattice, x, y, slope_numerators, basis_numerators);
}

ref_wide ref_slope_y_sum(size_t m, size_t n, size_t unit, const int64_t *lattice, size_t x, size_t y)
{
    return double_sum(m, n, unit, lattice, x, y, basis_numerators, slope_numerators);
}

/* "within 750/U + 1/2 nanometres of the exact one", 1,000 * sum / 12U^6: both sides times 12U^6. */
int ref_slope_holds(size_t unit, int64_t slope, ref_wide sum)
{
    ref_wide u = (ref_wide)unit, fifth = u * u * u * u * u;
    ref_wide off = 12 * fifth * u * slope - 1000 * sum;
    if (off < 0)
        off = -off;
    return off <= 9000 * fifth + 6 * fifth * u;
}
