/*
 * The library's speed beside the same rules in C: the reference, built with gcc -O3 -ffp-contract=off for plain x86-64.
 *
 *   bench [seconds]
 *
 * Both run in this process on the same slices, in turns and in four places each, for about so many seconds (1) a line, and the best
 * processor time of each counts. The slices are warm, and not cleared between runs. Inputs are random points and lattices on a
 * smooth ground; stages are tried on level and on rough ground, where C makes the raster and scans it; for a stage that stores what
 * is wanted C searches as the library does (stage.c).
 */
#include "timed.h"
#include "../include/curlewtable.h"
#include "../tests/common/basics.h"
#include "../tests/common/ground.h"
#include "../tests/common/random.h"

#include <stdio.h>
#include <stdlib.h>
#include <string.h>

#define LEAST_TURNS 10
#define SCANS 20                        /* heights in one run where each scans a large lattice */

static double seconds_a_line = 1.0;

/* ---- how it is timed ---- */

/* The library and C again, so many bytes past a multiple of 64: bench/run makes them. */
one_run run_once_0, run_once_16, run_once_32, run_once_48;

static one_run *const places[] = { run_once_0, run_once_16, run_once_32, run_once_48 };

/* Both must end as the job says and agree, or the times mean nothing. */
static void check(const job *j)
{
    const answer left = run_library(&j->call), right = run_reference(&j->call);

    if (left.field[NUMBER] != j->number || memcmp(&left, &right, sizeof left) != 0
        || run_once(j, LIBRARY) != run_once(j, C)) {
        fprintf(stderr, "%s: another refusal, or the two differ\n", shapes[j->call.function].name);
        exit(1);
    }
}

/* The two by turns in one place, for its part of the time: so each finds the processor as its last run left it. */
static void time_place(const job *j, one_run *run, double best[SIDES])
{
    const double end = now() + seconds_a_line / COUNT(places);
    size_t turn;

    for (turn = 0; turn < LEAST_TURNS || now() < end; turn++) {
        const int side = turn % SIDES;
        const double start = processor_time();
        double taken;

        run(j, side);
        taken = processor_time() - start;
        if (taken < best[side])
            best[side] = taken;
    }
}

/* The best times of the two, each in the place that suits it, in seconds. */
static void time_both(const job *j, double best[SIDES])
{
    size_t at;

    check(j);
    best[LIBRARY] = best[C] = 1e9;
    for (at = 0; at < COUNT(places); at++)
        time_place(j, places[at], best);
}

/* ---- inputs ---- */

static job *new_job(function f, size_t m, size_t n)
{
    job *j = room(1, sizeof *j);

    j->call.function = f;
    j->calls = 1;
    j->call.number[M] = m;
    j->call.number[N] = n;
    return j;
}

static void free_job(job *j)
{
    role r;
    for (r = X; r < SLICES; r++)
        free(j->call.slice[r].at);
    free(j);
}

static void lend(job *j, role r, size_t places)
{
    j->call.slice[r].at = room(places, element_size[r]);
    j->call.slice[r].length = places;
}

/* Random points of a grid with the ground's heights, of every confidence. */
static void lend_points(job *j, size_t h, size_t points)
{
    generator g = generator_of(1, points);
    const size_t far_x = 16 * CURLEW_CELLS(j->call.number[M], h), far_y = 16 * CURLEW_CELLS(j->call.number[N], h);
    uint16_t *x, *y;
    int64_t *z;
    uint8_t *q;
    size_t at;

    j->call.number[H] = h;
    lend(j, X, points);
    lend(j, Y, points);
    lend(j, Z, points);
    lend(j, Q, points);
    x = j->call.slice[X].at;
    y = j->call.slice[Y].at;
    z = j->call.slice[Z].at;
    q = j->call.slice[Q].at;
    for (at = 0; at < points; at++) {
        x[at] = (uint16_t)below(&g, far_x + 1);
        y[at] = (uint16_t)below(&g, far_y + 1);
        z[at] = ground((double)x[at] / (double)far_x, (double)y[at] / (double)far_y);
        q[at] = (uint8_t)between(&g, 1, 255);
    }
}

/* A lattice that follows the ground, give or take a millimetre. */
static void lend_lattice(job *j)
{
    generator g = generator_of(2, j->call.number[M]);
    const size_t across = j->call.number[M] + 3, down = j->call.number[N] + 3;
    int64_t *values;
    size_t at;

    lend(j, LATTICE, across * down);
    values = j->call.slice[LATTICE].at;
    for (at = 0; at < across * down; at++)
        values[at] = ground((double)(at % across) / (double)across, (double)(at / across) / (double)down)
                     + between(&g, -1000, 1000);
}

static job *fit_job(size_t cells, size_t h, size_t points)
{
    job *j = new_job(FIT, cells, cells);

    lend_points(j, h, points);
    lend(j, LATTICE, CURLEW_FIT_LATTICE(cells, cells, h));
    lend(j, RESIDUAL, points);
    lend(j, WHOLE, CURLEW_FIT_WHOLE(cells, cells, h, points));
    lend(j, FLOATS, CURLEW_FIT_FLOATS(cells, cells, h));
    return j;
}

/* The same with a wrong last shot, 4,000 metres below the datum: the ground stands above it, and so does the base. */
static job *wrong_shot_job(size_t cells, size_t h, size_t points)
{
    job *j = fit_job(cells, h, points);
    int64_t *z = j->call.slice[Z].at;

    z[points - 1] = INT64_C(-4000000000);
    j->number = DIFFERENCE_OUT;
    return j;
}

/* The same with the wrong shot nearer, and by itself at the far corner: the others stand in the half that is nearer along x. */
static job *far_shot_job(size_t cells, size_t h, size_t points)
{
    job *j = fit_job(cells, h, points);
    uint16_t *x = j->call.slice[X].at, *y = j->call.slice[Y].at;
    int64_t *z = j->call.slice[Z].at;
    size_t at;

    for (at = 0; at < points; at++)
        x[at] /= 2;
    x[points - 1] = y[points - 1] = (uint16_t)(16 * CURLEW_CELLS(cells, h));
    z[points - 1] = INT64_C(-3000000000);
    j->number = QUOTIENT_OUT;
    return j;
}

/* Heights or slopes. */
static job *positions_job(function f, size_t cells)
{
    generator g = generator_of(3, cells);
    job *j = new_job(f, cells, cells);
    size_t at;

    j->call.number[UNIT] = 16;
    j->calls = POSITIONS;
    lend_lattice(j);
    for (at = 0; at < POSITIONS; at++) {
        j->x[at] = below(&g, 16 * cells + 1);
        j->y[at] = below(&g, 16 * cells + 1);
    }
    return j;
}

/* Heights of a large lattice, whose scan is nearly all of a call. */
static job *scan_job(void)
{
    job *j = positions_job(HEIGHT_AT, 512);

    j->calls = SCANS;
    return j;
}

/* The same with one value out of range, this part of the way through the lattice: 0 the first, 1 the last. */
static job *offended_job(double part)
{
    job *j = scan_job();
    int64_t *values = j->call.slice[LATTICE].at;
    const size_t place = (size_t)(part * (double)(j->call.slice[LATTICE].length - 1));

    values[place] = INT64_C(4000000001);
    j->number = 6;
    if (place == 0)
        j->calls = POSITIONS;           /* each is refused too soon for a few to be timed */
    return j;
}

/* From edge to edge. */
static job *raster_job(size_t cells, size_t step)
{
    job *j = new_job(RASTER, cells, cells);
    size_t *v = j->call.number;

    v[UNIT] = 16;
    v[STEP] = step;
    v[COLUMNS] = v[ROWS] = 16 * cells / step_of(step) + 1;
    lend_lattice(j);
    lend(j, VALUES, v[COLUMNS] * v[ROWS]);
    return j;
}

/* A raster of the ground, so many nodes across, of which about half stand below the stage. */
static job *storage_job(size_t across)
{
    job *j = raster_job(512, 16 * 512 / (across - 1));
    size_t *v = j->call.number;
    const int64_t *heights = j->call.slice[VALUES].at;

    run_reference(&j->call);
    j->call.function = STORAGE_AT;
    v[STAGE] = (size_t)heights[across * across / 2];
    v[NODE_SIDE] = 100;
    return j;
}

static int64_t highest_of(const int64_t *heights, size_t nodes)
{
    int64_t highest = heights[0];
    size_t at;

    for (at = 1; at < nodes; at++)
        highest = heights[at] > highest ? heights[at] : highest;
    return highest;
}

/* The stage for half of what the same raster stores where its highest node is at the stage. */
static job *stage_job(size_t across)
{
    job *j = storage_job(across);
    size_t *v = j->call.number;

    v[STAGE] = (size_t)highest_of(j->call.slice[VALUES].at, across * across);
    v[WANTED] = (size_t)run_reference(&j->call).field[FIRST] / 2;
    j->call.function = STAGE_FOR;
    return j;
}

static job *refine_job(size_t cells)
{
    job *j = new_job(REFINE, cells, cells);

    lend_lattice(j);
    lend(j, VALUES, CURLEW_CONTROLS(2 * cells, 2 * cells));
    return j;
}

static job *write_lattice_job(size_t cells)
{
    job *j = new_job(WRITE_LATTICE, cells, cells);

    lend_lattice(j);
    lend(j, BYTES, CURLEW_LATTICE_FILE(cells, cells));
    return j;
}

static job *write_points_job(size_t points)
{
    job *j = new_job(WRITE_POINTS, 16, 16);

    lend_points(j, 5, points);
    lend(j, BYTES, CURLEW_POINT_FILE(points));
    return j;
}

/* Turns a job that writes a file into one that reads it. */
static job *reading(job *j)
{
    run_reference(&j->call);
    if (j->call.function == WRITE_LATTICE) {
        lend(j, VALUES, j->call.slice[LATTICE].length);
        j->call.function = READ_LATTICE;
    } else {
        j->call.function = READ_POINTS;
    }
    return j;
}

/* The same of a file of PT records: each of the PQ records without its last byte. */
static job *reading_older(job *j)
{
    static const size_t head = CURLEW_PT_FILE(0), older = CURLEW_PT_FILE(1) - CURLEW_PT_FILE(0),
                        newer = CURLEW_POINT_FILE(1) - CURLEW_POINT_FILE(0);
    const size_t points = j->call.slice[X].length;
    uint8_t *file;
    size_t at;

    reading(j);
    file = j->call.slice[BYTES].at;
    for (at = 0; at < points; at++) {
        memmove(file + head + older * at, file + head + newer * at, older);
        file[head + older * at + 1] = 'T';
    }
    j->call.slice[BYTES].length = CURLEW_PT_FILE(points);
    return j;
}

/* ---- ground above a stage, on 512 x 512 cells with 2,049 x 2,049 nodes ---- */

#define GROUND INT64_C(100000000)       /* 100 metres */
#define METRE INT64_C(1000000)
#define NOISE 1000                      /* a millimetre */
#define PEAKS 335                       /* with 16 cells about each, 2 % of them */

static const size_t cells_a_side = 512, nodes_a_side = 2049;

static void need(int holds, const char *what)
{
    if (!holds) {
        fprintf(stderr, "ground above a stage: %s\n", what);
        exit(1);
    }
}

/* Level ground, give or take a millimetre, and the stage a metre above it. */
static job *level_job(void)
{
    generator g = generator_of(4, cells_a_side);
    job *j = raster_job(cells_a_side, 4);
    int64_t *values = j->call.slice[LATTICE].at;
    size_t at;

    j->call.function = ANY_ABOVE;
    j->call.number[STAGE] = (size_t)(GROUND + METRE);
    for (at = 0; at < j->call.slice[LATTICE].length; at++)
        values[at] = GROUND + between(&g, -NOISE, NOISE);
    return j;
}

/* The cells that have a control value above the stage, in thousandths of all. */
static size_t cells_with_one_above(const job *j)
{
    const int64_t *values = j->call.slice[LATTICE].at, stage = (int64_t)j->call.number[STAGE];
    size_t i, k, at, cells = 0;

    for (i = 0; i < cells_a_side; i++)
        for (k = 0; k < cells_a_side; k++) {
            for (at = 0; at < 16 && values[(i + at / 4) * (cells_a_side + 3) + k + at % 4] <= stage;)
                at++;
            cells += at < 16;
        }
    return 1000 * cells / (cells_a_side * cells_a_side);
}

/* The heights of the job's nodes, by the reference. */
static const int64_t *heights_of(const job *j)
{
    call raster = j->call;

    raster.function = RASTER;
    run_reference(&raster);
    return raster.slice[VALUES].at;
}

/* How many of them are above the stage, and the last of these. */
static size_t nodes_above(const job *j, size_t *last)
{
    const int64_t *heights = heights_of(j), stage = (int64_t)j->call.number[STAGE];
    size_t at, above = 0;

    for (at = 0; at < nodes_a_side * nodes_a_side; at++)
        if (heights[at] > stage) {
            *last = at;
            above++;
        }
    return above;
}

/* Makes sure that no node is above the stage, and of how many cells, in thousandths, have a control value above it. */
static job *none_above(job *j, size_t least_cells, size_t most_cells)
{
    const size_t cells = cells_with_one_above(j);
    size_t last;

    need(nodes_above(j, &last) == 0, "a node stands above");
    need(cells >= least_cells && cells <= most_cells, "another part of the cells has a control value above");
    return j;
}

/* All control values at or below the stage, the greatest at it. */
static job *all_below_job(void)
{
    job *j = level_job();

    j->call.number[STAGE] = (size_t)(GROUND + NOISE);
    return none_above(j, 0, 0);
}

/* Single control values a millimetre above the stage, which no node reaches. */
static job *peaks_job(void)
{
    generator g = generator_of(5, PEAKS);
    job *j = level_job();
    int64_t *values = j->call.slice[LATTICE].at;
    size_t peak;

    for (peak = 0; peak < PEAKS; peak++)
        values[below(&g, j->call.slice[LATTICE].length)] = GROUND + METRE + NOISE;
    return none_above(j, 15, 25);
}

/* Control values a metre up and down by turns, of which a ninth is left in the heights; the stage at the greatest of these. */
static job *rough_job(void)
{
    job *j = level_job();
    int64_t *values = j->call.slice[LATTICE].at;
    const size_t across = cells_a_side + 3;
    size_t at;

    for (at = 0; at < j->call.slice[LATTICE].length; at++)
        values[at] += (at / across + at % across) % 2 == 0 ? METRE : -METRE;
    j->call.number[STAGE] = (size_t)highest_of(heights_of(j), nodes_a_side * nodes_a_side);
    return none_above(j, 1000, 1000);
}

/* Peaks, and a hill at the corner of so many cells along both axes that is above the stage at that node and at no other. */
static job *hill_job(size_t cells)
{
    job *j = peaks_job();
    int64_t *values = j->call.slice[LATTICE].at;
    const size_t node = cells * (nodes_a_side - 1) / cells_a_side;
    size_t last = 0;

    values[(cells + 1) * (cells_a_side + 3) + cells + 1] = GROUND + 2 * METRE + 350 * NOISE;
    need(nodes_above(j, &last) == 1 && last == node * nodes_a_side + node, "another node than the hill's stands above");
    return j;
}

/* ---- tables ---- */

static void print_time(double seconds)
{
    if (seconds < 1e-4)
        printf("%12.1f ns", 1e9 * seconds);
    else
        printf("%12.3f ms", 1e3 * seconds);
}

/* A line of the first table: the time of one call. */
static void line(const char *what, job *j)
{
    double best[SIDES];

    time_both(j, best);
    printf("%-52s", what);
    print_time(best[LIBRARY] / (double)j->calls);
    print_time(best[C] / (double)j->calls);
    printf("%9.2f\n", best[LIBRARY] / best[C]);
    fflush(stdout);
    free_job(j);
}

/* A line of the table of stages: also the library's time as a part of that for the raster of the same nodes. */
static void above_line(const char *what, job *j)
{
    double best[SIDES], raster[SIDES];

    time_both(j, best);
    j->call.function = RASTER;
    time_both(j, raster);
    printf("%-52s", what);
    print_time(best[LIBRARY]);
    print_time(best[C]);
    printf("%9.4f%11.4f\n", best[LIBRARY] / best[C], best[LIBRARY] / raster[LIBRARY]);
    fflush(stdout);
    free_job(j);
}

/* One fit of a table of growth: p or K, and the library's time. */
typedef struct {
    size_t size;
    double time;
} fitted;

/* A line of a table of growth. What each more of p or K costs the library is the same all along if the growth is linear. */
static fitted growth_line(size_t cells, size_t points, size_t size, fitted before)
{
    job *j = fit_job(cells, 5, points);
    double best[SIDES];
    fitted this_one = { size, 0 };

    time_both(j, best);
    this_one.time = best[LIBRARY];
    printf("%12zu", size);
    print_time(best[LIBRARY]);
    print_time(best[C]);
    printf("%9.2f", best[LIBRARY] / best[C]);
    if (before.size > 0)
        print_time((this_one.time - before.time) / (double)(size - before.size));
    printf("\n");
    fflush(stdout);
    free_job(j);
    return this_one;
}

static void calls_table(void)
{
    printf("%-52s%15s%15s%9s\n", "call", "library", "C", "ratio");
    line("fit, 500 points, 1 x 1, h = 4", fit_job(1, 4, 500));
    line("fit, 5,000 points, 4 x 4, h = 5", fit_job(4, 5, 5000));
    line("fit, 65,535 points, 16 x 16, h = 5", fit_job(16, 5, 65535));
    line("fit, 5,000 points, a difference is out of range", wrong_shot_job(4, 5, 5000));
    line("fit, 5,000 points, a quotient is out of range", far_shot_job(4, 5, 5000));
    line("height, 1 x 1", positions_job(HEIGHT_AT, 1));
    line("height, 64 x 64 (a scan of 4,489 values)", positions_job(HEIGHT_AT, 64));
    line("slopes, 1 x 1", positions_job(SLOPE_AT, 1));
    line("slopes, 64 x 64 (a scan of 4,489 values)", positions_job(SLOPE_AT, 64));
    line("height, 512 x 512 (a scan of 265,225 values)", scan_job());
    line("height, 512 x 512, the first value is out of range", offended_job(0));
    line("height, 512 x 512, the middle value is", offended_job(0.5));
    line("height, 512 x 512, the last value is", offended_job(1));
    line("raster, 2,049 x 2,049 nodes of 512 x 512", raster_job(512, 4));
    line("raster, step 0, 1,025 x 1,025 nodes of 512 x 512", raster_job(512, 0));
    line("raster, step 16, where a sixth of the roundings are halves", raster_job(512, 16));
    line("storage, 2,049 x 2,049 nodes", storage_job(2049));
    line("storage, 65 x 65 nodes", storage_job(65));
    line("stage for a storage, 2,049 x 2,049 nodes", stage_job(2049));
    line("stage for a storage, 65 x 65 nodes", stage_job(65));
    line("refine, 256 x 256 to 512 x 512", refine_job(256));
    line("write_lattice, 512 x 512 (2,123,870 bytes)", write_lattice_job(512));
    line("read_lattice, 512 x 512", reading(write_lattice_job(512)));
    line("write_points, 65,535 points (983,033 bytes)", write_points_job(65535));
    line("read_points, 65,535 points", reading(write_points_job(65535)));
    line("read_points, 65,535 points of PT records", reading_older(write_points_job(65535)));
}

static void above_table(void)
{
    printf("\n%-52s%15s%15s%9s%11s\n", "ground above a stage, 2,049 x 2,049 nodes", "library", "C", "ratio", "of raster");
    above_line("no, 98 % of the cells below", peaks_job());
    above_line("no, every cell with a control value above", rough_job());
    above_line("no, every control value at the stage or below", all_below_job());
    above_line("yes, at the first node", hill_job(0));
    above_line("yes, at the middle node", hill_job(256));
    above_line("yes, at the last node", hill_job(512));
}

static void growth_tables(void)
{
    static const size_t points[] = { 1000, 4000, 16000, 32000, 65535 }, cells[] = { 1, 2, 4, 8, 16 };
    const fitted none = { 0, 0 };
    fitted before = none;
    size_t i;

    printf("\nfit of p points, 4 x 4, h = 5 (K = %zu)\n%12s%15s%15s%9s%15s\n",
           CURLEW_FIT_LATTICE(4, 4, 5), "p", "library", "C", "ratio", "each more");
    for (i = 0; i < COUNT(points); i++)
        before = growth_line(4, points[i], points[i], before);
    printf("\nfit of K control values, 1 x 1 to 16 x 16, h = 5, 500 points\n%12s%15s%15s%9s%15s\n",
           "K", "library", "C", "ratio", "each more");
    before = none;
    for (i = 0; i < COUNT(cells); i++)
        before = growth_line(cells[i], 500, CURLEW_FIT_LATTICE(cells[i], cells[i], 5), before);
}

int main(int argc, char **argv)
{
    if (argc > 2 || (argc == 2 && (seconds_a_line = strtod(argv[1], NULL)) <= 0)) {
        fprintf(stderr, "usage: bench [seconds]\n");
        return 2;
    }
    calls_table();
    above_table();
    growth_tables();
    return 0;
}
