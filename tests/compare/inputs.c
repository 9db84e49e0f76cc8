/*
 * Random inputs. See inputs.h.
 */
#include "inputs.h"

#include "trial.h"

#include "../../include/curlewtable.h"
#include "../common/ground.h"

#include <string.h>

/* ---- slices ---- */

/* The memory of a role, with room for the most that a trial lends. */
static void *memory_of(role r)
{
    static void *memory[SLICES];

    if (memory[r] == NULL)
        memory[r] = room(capacity[r], element_size[r]);
    return memory[r];
}

draft new_draft(function f)
{
    draft d;
    role r;

    memset(&d, 0, sizeof d);
    d.call.function = f;
    for (r = X; r < SLICES; r++)
        d.call.slice[r].at = memory_of(r);
    return d;
}

/* NaN quiet and signalling, infinities, -0, the smallest and the largest: what must not come through from scratch. */
static uint64_t float_noise(generator *g)
{
    static const uint64_t bits[] = {
        UINT64_C(0x7FF8000000000000), UINT64_C(0x7FF0000000000001), UINT64_C(0xFFF8000000000000),
        UINT64_C(0x7FF0000000000000), UINT64_C(0xFFF0000000000000), UINT64_C(0x8000000000000000),
        UINT64_C(0x0000000000000001), UINT64_C(0x7FEFFFFFFFFFFFFF), UINT64_C(0x3FF0000000000000),
    };
    return bits[below(g, COUNT(bits))];
}

static void fill_with_noise(generator *g, role r, size_t length)
{
    unsigned char *bytes = memory_of(r);
    const size_t count = length * element_size[r];
    size_t at;

    for (at = 0; at < count; at += 8) {
        const uint64_t noise = r == FLOATS ? float_noise(g) : draw(g);
        memcpy(bytes + at, &noise, count - at < 8 ? count - at : 8);
    }
}

void lend(generator *g, draft *d, role r, size_t exact)
{
    size_t over = once_in(g, 2) ? 0 : once_in(g, 8) ? below(g, 100) : below(g, 9);

    if (exact + over > capacity[r]) {
        fprintf(stderr, "a case asks for %zu of %s, more than a trial can lend\n", exact + over, role_names[r]);
        exit(2);
    }
    d->exact[r] = exact;
    d->call.slice[r].length = exact + over;
    fill_with_noise(g, r, exact + over);
}

void lend_again(generator *g, draft *d)
{
    role r;
    for (r = X; r < SLICES; r++)
        if (writes(d->call.function, r))
            fill_with_noise(g, r, d->call.slice[r].length);
}

role some_role(generator *g, unsigned set)
{
    role r;
    do {
        r = (role)below(g, SLICES);
    } while (!(set >> r & 1));
    return r;
}

void shorten(generator *g, draft *d, role r)
{
    const size_t exact = d->exact[r];

    if (exact == 0)
        return;
    d->call.slice[r].length = once_in(g, 2) ? exact - 1 : once_in(g, 2) ? 0 : below(g, exact);
}

/* ---- grids ---- */

static const size_t units[] = { 16, 32, 64, 128, 256, 512 };

size_t some_unit(generator *g)
{
    return units[below(g, COUNT(units))];
}

void some_cells(generator *g, draft *d, size_class size)
{
    const size_t most = shapes[d->call.function].most_cells;
    size_t *m = &d->call.number[M], *n = &d->call.number[N];

    if (size == LARGEST) {
        *m = *n = most;
    } else if (size == SMALL) {
        *m = 1 + below(g, 4);
        *n = 1 + below(g, 4);
    } else {                                    /* long and narrow, or a middling block */
        *m = once_in(g, 2) ? most : 1 + below(g, most < 40 ? most : 40);
        *n = 1 + below(g, *m == most ? 4 : most < 40 ? most : 40);
        if (once_in(g, 2)) {
            const size_t swapped = *m;
            *m = *n;
            *n = swapped;
        }
    }
}

void some_fit_grid(generator *g, draft *d, size_class size)
{
    some_cells(g, d, size);
    if (size == LARGEST)
        d->call.number[H] = 5;
    else if (size == MEDIUM || once_in(g, 12))
        d->call.number[H] = below(g, 6);
    else
        d->call.number[H] = below(g, 3);
    if (size == SMALL && d->call.number[H] > 2)         /* keep the finest grid small */
        d->call.number[M] = d->call.number[N] = 1;
}

void set_far_edges(draft *d)
{
    const size_t *v = d->call.number;
    const int of_fit = takes(d->call.function, Z);

    d->far_x = of_fit ? 16 * CURLEW_CELLS(v[M], v[H]) : v[UNIT] * v[M];
    d->far_y = of_fit ? 16 * CURLEW_CELLS(v[N], v[H]) : v[UNIT] * v[N];
}

/* ---- heights and control values ---- */

/* How a whole list of values is made. */
typedef enum { ZERO, UNITS, METRES, STEEP, FULL, ENDS, CONSTANT, SINGLE, SMOOTH, HABITS } habit;

/* One value of a list; u and v say where it lies, from 0 to 1. */
static int64_t some_value(generator *g, habit how, double u, double v)
{
    static const int64_t ends[] = { LIMIT, LIMIT - 1, -LIMIT, 1 - LIMIT, 0 };

    switch (how) {
    case UNITS:
        return between(g, -9, 9);
    case METRES:
        return between(g, -10000000, 10000000);
    case STEEP:                                 /* about where a difference at a grid node is refused: 9/4 of 10^9 */
        return between(g, 2000000000, 2500000000) * (once_in(g, 2) ? 1 : -1);
    case FULL:
        return between(g, -LIMIT, LIMIT);
    case ENDS:
        return ends[below(g, COUNT(ends))];
    case SMOOTH:
        return ground(u, v);
    default:
        return 0;
    }
}

/* The list's constant, or its one value that is not 0. */
static int64_t some_constant(generator *g)
{
    return some_value(g, (habit)(UNITS + below(g, ENDS - UNITS + 1)), 0, 0);
}

/* Lends so many values in range, in rows of so many. */
static void some_values(generator *g, draft *d, role r, size_t across, size_t places)
{
    const habit how = (habit)below(g, HABITS);
    const int64_t constant = some_constant(g);
    int64_t *values = d->call.slice[r].at;
    size_t at;

    lend(g, d, r, places);
    for (at = 0; at < places; at++)
        values[at] = how == CONSTANT ? constant
                     : some_value(g, how, (double)(at % across) / (double)across, (double)at / (double)places);
    if (how == SINGLE && places > 0)
        values[below(g, places)] = constant;
}

void some_lattice(generator *g, draft *d)
{
    const size_t *v = d->call.number;
    some_values(g, d, LATTICE, v[M] + 3, CURLEW_CONTROLS(v[M], v[N]));
}

void some_raster(generator *g, draft *d)
{
    const size_t *v = d->call.number;
    some_values(g, d, VALUES, v[COLUMNS], v[COLUMNS] * v[ROWS]);
}

/* ---- points ---- */

typedef enum { ANYWHERE, ON_GRID_LINES, MIXED, IN_ONE_PLACE, SPREADS } spread;

static size_t some_grid_line(generator *g, size_t far, size_t h)
{
    const size_t unit = (size_t)16 << below(g, h + 1);          /* of some level */
    return unit * below(g, far / unit + 1);
}

static size_t some_position(generator *g, spread how, size_t far, size_t h)
{
    size_t line;

    if (how == ANYWHERE)
        return below(g, far + 1);
    if (how == ON_GRID_LINES)
        return some_grid_line(g, far, h);
    switch (below(g, 6)) {
    case 0:
        return far;
    case 1:
        return 0;
    case 2:                                     /* beside a grid line */
        line = some_grid_line(g, far, h);
        return line < far ? line + 1 : line - 1;
    default:
        return some_position(g, once_in(g, 3) ? ON_GRID_LINES : ANYWHERE, far, h);
    }
}

static void some_positions(generator *g, draft *d, size_t points)
{
    const spread how = (spread)below(g, SPREADS);
    uint16_t *x = d->call.slice[X].at, *y = d->call.slice[Y].at;
    size_t at;

    for (at = 0; at < points; at++) {
        if (at > 0 && (how == IN_ONE_PLACE || once_in(g, 8))) {         /* equal positions are allowed */
            const size_t other = how == IN_ONE_PLACE ? 0 : below(g, at);
            x[at] = x[other];
            y[at] = y[other];
        } else {
            x[at] = (uint16_t)some_position(g, how, d->far_x, d->call.number[H]);
            y[at] = (uint16_t)some_position(g, how, d->far_y, d->call.number[H]);
        }
    }
}

static void some_heights(generator *g, draft *d, size_t points)
{
    const double far_x = (double)d->far_x, far_y = (double)d->far_y;
    const habit how = (habit)below(g, HABITS);
    const int64_t constant = some_constant(g);
    const uint16_t *x = d->call.slice[X].at, *y = d->call.slice[Y].at;
    int64_t *z = d->call.slice[Z].at;
    size_t at;

    for (at = 0; at < points; at++)
        z[at] = how == CONSTANT ? constant : some_value(g, how, x[at] / far_x, y[at] / far_y);
    if (how == SINGLE && points > 0)
        z[below(g, points)] = constant;
}

/* How a whole list of confidences is made. */
typedef enum { ALL_ONE, ALL_ALIKE, AT_ENDS, OF_ANY, MOSTLY_ONE, TRUSTS } trust;

/* 1 to 255, the ends and their neighbours more often. */
static uint8_t some_confidence(generator *g, trust how)
{
    static const uint8_t ends[] = { 1, 2, 254, 255 };

    if (how == ALL_ONE || (how == MOSTLY_ONE && !once_in(g, 8)))
        return 1;
    return how == AT_ENDS || once_in(g, 4) ? ends[below(g, COUNT(ends))] : (uint8_t)(1 + below(g, 255));
}

static void some_confidences(generator *g, draft *d, size_t points)
{
    const trust how = (trust)below(g, TRUSTS);
    const uint8_t alike = some_confidence(g, how);
    uint8_t *q = d->call.slice[Q].at;
    size_t at;

    for (at = 0; at < points; at++)
        q[at] = how == ALL_ALIKE ? alike : some_confidence(g, how);
}

/* The four lists, so many points each: a call takes their length for the points. */
static void set_points(draft *d, size_t points)
{
    role r;
    for (r = X; r <= Q; r++)
        d->exact[r] = d->call.slice[r].length = points;
}

void some_points(generator *g, draft *d, size_t points)
{
    set_far_edges(d);
    set_points(d, points);
    some_positions(g, d, points);
    some_heights(g, d, points);
    some_confidences(g, d, points);
}

/* ---- troubles ---- */

size_t wrong_number(generator *g, size_t valid)
{
    switch (below(g, 8)) {
    case 0:
        return SIZE_MAX;
    case 1:
        return SIZE_MAX - below(g, 20);
    case 2:
        return SIZE_MAX / 2 + below(g, 3);
    case 3:                                     /* right again if cut to 32 bits */
        return valid + ((size_t)1 << 32);
    case 4:                                     /* and to 16 */
        return valid + ((size_t)1 << 16);
    case 5:                                     /* and to 8 */
        return valid + ((size_t)1 << 8);
    case 6:                                     /* signed, it would be small */
        return (size_t)0 - 1 - below(g, 1000);
    default:
        return (size_t)draw(g);
    }
}

static size_t wrong_cells(generator *g, size_t most)
{
    switch (below(g, 3)) {
    case 0:
        return 0;
    case 1:
        return most + 1;
    default:
        return wrong_number(g, 1 + below(g, most));
    }
}

static size_t wrong_level(generator *g)
{
    return once_in(g, 3) ? 6 : once_in(g, 2) ? 60 + below(g, 10) : wrong_number(g, below(g, 6));
}

size_t wrong_unit(generator *g)
{
    static const size_t unlisted[] = { 0, 1, 2, 8, 15, 17, 24, 31, 48, 63, 96, 511, 513, 1024, 4096 };
    return once_in(g, 3) ? wrong_number(g, some_unit(g)) : unlisted[below(g, COUNT(unlisted))];
}

int64_t wrong_value(generator *g)
{
    static const int64_t beyond[] = { LIMIT + 1, -LIMIT - 1, INT64_MAX, INT64_MIN, INT64_MIN + 1 };
    switch (below(g, 4)) {
    case 0:                                     /* right again if cut to 33 bits */
        return between(g, -LIMIT, LIMIT) + (INT64_C(1) << 33);
    case 1:
        return between(g, LIMIT + 1, INT64_MAX) * (once_in(g, 2) ? 1 : -1);
    default:
        return beyond[below(g, COUNT(beyond))];
    }
}

/*
 * Beside a place where a scan by blocks would turn: a multiple of a small power of two, the last multiple of 64 that is in
 * count, or the last 64.
 */
static size_t some_turn(generator *g, size_t count)
{
    const unsigned shift = (unsigned)below(g, 9);
    const size_t rest = once_in(g, 2) ? count % 64 : 64;
    const size_t turn = once_in(g, 3) ? count - rest : (1 + below(g, 8)) << shift;
    const size_t index = turn + below(g, 3);

    return index > 0 && index <= count ? index - 1 : 0;
}

/* An index below count: the first, the last, beside a turn, or any. */
static size_t some_index(generator *g, size_t count)
{
    return once_in(g, 5) ? 0 : once_in(g, 4) ? count - 1 : once_in(g, 2) ? some_turn(g, count) : below(g, count);
}

void spoil(generator *g, draft *d, role r)
{
    const size_t count = d->exact[r];
    size_t offenders = once_in(g, 3) ? 1 + below(g, 4) : 1;
    int64_t *values = d->call.slice[r].at;

    while (count > 0 && offenders-- > 0) {
        const size_t index = some_index(g, count);
        values[index] = wrong_value(g);
    }
}

void some_trouble(generator *g, draft *d)
{
    const function f = d->call.function;

    switch (below(g, 3)) {
    case 0:
        d->call.number[once_in(g, 2) ? M : N] = wrong_cells(g, shapes[f].most_cells);
        break;
    case 1:
        spoil(g, d, takes(f, Z) ? Z : LATTICE);
        break;
    default:
        shorten(g, d, some_role(g, takes(f, Z) ? shapes[f].written : shapes[f].slices));
        break;
    }
}

/* Makes the lists differ in length, or gives them one point too many. */
static void mismatch(generator *g, draft *d)
{
    const role one = (role)(X + below(g, 4));
    role r;

    if (!once_in(g, 40))
        d->call.slice[one].length = once_in(g, 3) ? 0 : d->exact[one] == 0 || once_in(g, 2) ? d->exact[one] + 1
                                                                                           : d->exact[one] - 1;
    else
        for (r = X; r <= Q; r++)
            d->call.slice[r].length = 65536;
}

/* Moves a point outside: one past the far edge, or further. */
static void move_outside(generator *g, draft *d, size_t point)
{
    const int along_x = once_in(g, 2);
    const size_t far = along_x ? d->far_x : d->far_y;
    uint16_t *list = d->call.slice[along_x ? X : Y].at;

    list[point] = (uint16_t)(once_in(g, 3) ? 65535 : far + 1 + below(g, 3));
}

/* Gives a point a confidence of 0, or a few: the first of them counts. */
static void distrust(generator *g, draft *d)
{
    size_t offenders = once_in(g, 3) ? 1 + below(g, 4) : 1;
    uint8_t *q = d->call.slice[Q].at;

    while (offenders-- > 0)
        q[some_index(g, d->exact[Q])] = 0;
}

/* Gives one point two of the three faults that it can have: their order in a point shows. */
static void spoil_point(generator *g, draft *d)
{
    const size_t point = some_index(g, d->exact[Z]);
    const role without = (role)(Y + below(g, 3));

    if (without != Y)
        move_outside(g, d, point);
    if (without != Z)
        ((int64_t *)d->call.slice[Z].at)[point] = wrong_value(g);
    if (without != Q)
        ((uint8_t *)d->call.slice[Q].at)[point] = 0;
}

/*
 * The ends of the range, one high and the others low: of three points or more the first one's difference from the base is out of
 * range.
 */
static void split_heights(draft *d)
{
    int64_t *z = d->call.slice[Z].at;
    size_t at;

    for (at = 0; at < d->exact[Z]; at++)
        z[at] = at == 0 ? LIMIT : -LIMIT;
}

/* A trouble that needs a point. */
static void point_trouble(generator *g, draft *d)
{
    switch (below(g, 5)) {
    case 0:
    case 1:
        move_outside(g, d, below(g, d->exact[X]));
        break;
    case 2:
        distrust(g, d);
        break;
    case 3:
        spoil_point(g, d);
        break;
    default:
        split_heights(d);
        break;
    }
}

void points_trouble(generator *g, draft *d)
{
    switch (below(g, 6)) {
    case 0:
        d->call.number[H] = wrong_level(g);
        break;
    case 1:
        mismatch(g, d);
        break;
    case 2:
    case 3:
        if (d->exact[Z] > 0)
            point_trouble(g, d);
        break;
    default:
        some_trouble(g, d);
        break;
    }
}

void some_troubles(generator *g, draft *d, void (*trouble)(generator *g, draft *d))
{
    size_t troubles = once_in(g, 2) ? 0 : once_in(g, 2) ? 1 : 2 + below(g, 3);

    while (troubles-- > 0)
        trouble(g, d);
}
