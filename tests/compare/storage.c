/*
 * Random cases of pond storage and of the stage for a wanted one, and the largest raster there is.
 */
#define _DEFAULT_SOURCE                 /* MAP_ANONYMOUS */

#include "cases.h"
#include "trial.h"

#include <string.h>
#include <sys/mman.h>

#define MOST_SIDE 100

/* In range: beside one of the heights, at an end, or anywhere. */
static int64_t some_stage(generator *g, const draft *d)
{
    const int64_t *heights = d->call.slice[VALUES].at;
    int64_t beside;

    if (d->exact[VALUES] > 0 && once_in(g, 2)) {
        beside = heights[below(g, d->exact[VALUES])] + between(g, -2, 2);
        return beside < -LIMIT ? -LIMIT : beside > LIMIT ? LIMIT : beside;
    }
    return once_in(g, 3) ? (once_in(g, 2) ? LIMIT : -LIMIT) : between(g, -LIMIT, LIMIT);
}

static size_t some_side(generator *g)
{
    return once_in(g, 3) ? 1 : once_in(g, 3) ? MOST_SIDE : 1 + below(g, MOST_SIDE);
}

/* Columns and rows: a few, a long row or column, or a raster whose sum of depths times side² leaves 64 bits. */
static void some_counts(generator *g, draft *d, size_class size)
{
    size_t *columns = &d->call.number[COLUMNS], *rows = &d->call.number[ROWS];

    if (size == LARGEST) {
        *columns = *rows = 600 + below(g, 400);
    } else if (size == MEDIUM) {
        *columns = once_in(g, 2) ? MOST_NODES : 1 + below(g, 20);
        *rows = *columns == MOST_NODES ? below(g, 20) : MOST_NODES - below(g, 20);
    } else {
        *columns = below(g, once_in(g, 8) ? 40 : 6);
        *rows = below(g, once_in(g, 8) ? 40 : 6);
    }
}

/* One that a storage and a stage for one may have. */
static void heights_trouble(generator *g, draft *d)
{
    size_t *v = d->call.number;

    switch (below(g, 4)) {
    case 0:
        v[once_in(g, 2) ? COLUMNS : ROWS] = once_in(g, 2) ? MOST_NODES + 1 : wrong_number(g, 1);
        break;
    case 1:
        v[NODE_SIDE] = once_in(g, 2) ? 0 : once_in(g, 2) ? MOST_SIDE + 1 : wrong_number(g, 1);
        break;
    case 2:
        spoil(g, d, VALUES);
        break;
    default:
        shorten(g, d, VALUES);
        break;
    }
}

static void storage_trouble(generator *g, draft *d)
{
    if (once_in(g, 5))
        d->call.number[STAGE] = (size_t)wrong_value(g);
    else
        heights_trouble(g, d);
}

/* The same raster at a higher stage. */
static void raise_stage(generator *g, draft *d, answer lower)
{
    size_t *v = d->call.number;
    answer higher;

    v[STAGE] = (size_t)between(g, (int64_t)v[STAGE], LIMIT);
    higher = trial(&d->call);
    if (higher.field[NUMBER] != 0 || higher.field[FIRST] < lower.field[FIRST])
        trial_failed(&d->call, "a higher stage stores less, or is refused");
}

void storage_case(generator *g, size_class size)
{
    draft d = new_draft(STORAGE_AT);
    answer a;

    some_counts(g, &d, size);
    some_raster(g, &d);
    d.call.number[STAGE] = (size_t)some_stage(g, &d);
    d.call.number[NODE_SIDE] = some_side(g);
    some_troubles(g, &d, storage_trouble);
    a = trial(&d.call);
    if (a.field[NUMBER] == 0)
        raise_stage(g, &d, a);
}

/* ---- the stage for a wanted storage ---- */

/* Ground on which few nodes decide, or all at once, or ever more of them the higher the stage. */
typedef enum { LEVEL, TWO_LEVELS, RANGE_ENDS, DOUBLING, PIT, BASINS } basin;

static int64_t basin_height(generator *g, basin how, int64_t low, int64_t high)
{
    int64_t doubled;

    switch (how) {
    case TWO_LEVELS:
        return once_in(g, 3) ? low : high;
    case RANGE_ENDS:
        return once_in(g, 2) ? -LIMIT : LIMIT;
    case DOUBLING:                              /* as many nodes within a micrometre of the lowest as a kilometre off */
        doubled = low + between(g, 0, INT64_C(1) << below(g, 34));
        return doubled < LIMIT ? doubled : LIMIT;
    case PIT:
        return high;
    default:
        return low;
    }
}

static void make_basin(generator *g, draft *d)
{
    const basin how = (basin)below(g, BASINS);
    const int64_t low = between(g, -LIMIT, how == LEVEL ? LIMIT : -LIMIT / 2), high = between(g, LIMIT / 2, LIMIT);
    int64_t *heights = d->call.slice[VALUES].at;
    size_t at;

    for (at = 0; at < d->exact[VALUES]; at++)
        heights[at] = basin_height(g, how, low, high);
    if (how == PIT && d->exact[VALUES] > 0)
        heights[below(g, d->exact[VALUES])] = low;
}

/* What is stored at a stage, or a litre more or less: less than none is the most that can be asked for. */
static uint64_t about_stored(generator *g, const draft *d, int64_t stage)
{
    call storage = d->call;

    storage.function = STORAGE_AT;
    storage.number[STAGE] = (size_t)stage;
    return trial(&storage).field[FIRST] + (uint64_t)between(g, -1, 1);
}

/* Of a raster and a side that are in order. */
static uint64_t some_wanted(generator *g, const draft *d)
{
    switch (below(g, 8)) {
    case 0:
        return below(g, 2);
    case 1:
        return once_in(g, 4) ? UINT64_MAX : draw(g) >> below(g, 64);
    case 2:
    case 3:
        return about_stored(g, d, LIMIT);
    default:
        return about_stored(g, d, some_stage(g, d));
    }
}

/* More than there is too: 18 comes last of all. */
static void wanted_trouble(generator *g, draft *d)
{
    if (once_in(g, 5))
        d->call.number[WANTED] = SIZE_MAX;
    else
        heights_trouble(g, d);
}

void wanted_case(generator *g, size_class size)
{
    draft d = new_draft(STAGE_FOR);

    some_counts(g, &d, size);
    some_raster(g, &d);
    if (once_in(g, 2))
        make_basin(g, &d);
    d.call.number[NODE_SIDE] = some_side(g);
    d.call.number[WANTED] = (size_t)some_wanted(g, &d);
    some_troubles(g, &d, wanted_trouble);
    trial(&d.call);
}

/* ---- what a raster has left ---- */

/*
 * A raster, and the storage of what it has left: refused for the side or the stage alone. A stage for one is refused for the side
 * alone, or by 18.
 */
void sampled_case(generator *g, size_class size)
{
    draft d = some_sampling(g, size);
    size_t *v = d.call.number;
    answer a;

    if (trial(&d.call).field[NUMBER] != 0)
        return;
    d.call.function = STORAGE_AT;
    v[NODE_SIDE] = once_in(g, 8) ? MOST_SIDE + 1 : some_side(g);
    v[STAGE] = (size_t)(once_in(g, 8) ? wrong_value(g) : some_stage(g, &d));
    a = trial(&d.call);
    if (a.field[NUMBER] != (v[NODE_SIDE] > MOST_SIDE ? 16 : (int64_t)v[STAGE] < -LIMIT || (int64_t)v[STAGE] > LIMIT ? 6 : 0)
        || a.field[PLACE] != 0)
        trial_failed(&d.call, "a raster that was accepted is refused");
    d.call.function = STAGE_FOR;
    v[WANTED] = (size_t)(v[NODE_SIDE] > MOST_SIDE ? draw(g) : some_wanted(g, &d));
    a = trial(&d.call);
    if (v[NODE_SIDE] > MOST_SIDE ? a.field[NUMBER] != 16 : a.field[NUMBER] != 0 && a.field[NUMBER] != NO_STAGE)
        trial_failed(&d.call, "a raster that was accepted is refused");
}

/* ---- the largest raster ---- */

#define SHARED ((size_t)1 << 20)        /* bytes of a file that is mapped over and over, so that half a gigabyte takes one megabyte */

static void need(int holds)
{
    if (!holds) {
        perror("the largest raster");
        exit(2);
    }
}

/* A file of the lowest height there is. */
static int lowest_ground(void)
{
    FILE *file = tmpfile();
    const int64_t lowest = -LIMIT;
    size_t at;

    need(file != NULL);
    for (at = 0; at < SHARED; at += sizeof lowest)
        need(fwrite(&lowest, sizeof lowest, 1, file) == 1);
    need(fflush(file) == 0);
    return fileno(file);
}

/* So many bytes of it, rounded up. They are this process's own to write, a page at a time. */
static void *map_over(int file, size_t bytes)
{
    const size_t whole = (bytes + SHARED - 1) / SHARED * SHARED;
    unsigned char *memory = mmap(NULL, whole, PROT_NONE, MAP_PRIVATE | MAP_ANONYMOUS | MAP_NORESERVE, -1, 0);
    size_t at;

    need(memory != MAP_FAILED);
    for (at = 0; at < whole; at += SHARED)
        need(mmap(memory + at, SHARED, PROT_READ | PROT_WRITE, MAP_PRIVATE | MAP_FIXED, file, 0) != MAP_FAILED);
    return memory;
}

static void expect_largest(const draft *d, uint64_t number, uint64_t place, uint64_t first)
{
    const answer library = run_library(&d->call), reference = run_reference(&d->call);

    if (library.field[NUMBER] != number || library.field[PLACE] != place || library.field[FIRST] != first
        || memcmp(&library, &reference, sizeof library) != 0)
        trial_failed(NULL, d->call.function == STORAGE_AT ? "the storage of the largest raster"
                                                          : "the stage for a storage of the largest raster");
}

/*
 * 8,193 by 8,193 nodes, 8,000 metres under water: the most litres there are. Half of them are stored 4,000 metres lower, and for a
 * litre more it takes a micrometre more. Then the last height alone is out of range.
 */
void largest_storage(void)
{
    const uint64_t most = UINT64_C(53700199200000000);
    const size_t nodes = (size_t)MOST_NODES * MOST_NODES;
    draft d = new_draft(STORAGE_AT);
    size_t *v = d.call.number;
    int64_t *heights = map_over(lowest_ground(), nodes * sizeof *heights);

    v[COLUMNS] = v[ROWS] = MOST_NODES;
    v[STAGE] = (size_t)LIMIT;
    v[NODE_SIDE] = MOST_SIDE;
    d.call.slice[VALUES].at = heights;
    d.call.slice[VALUES].length = nodes;
    expect_largest(&d, 0, 0, most);
    d.call.function = STAGE_FOR;
    v[WANTED] = most / 2 + 1;
    expect_largest(&d, 0, 0, 1);
    v[WANTED] = most + 1;
    expect_largest(&d, NO_STAGE, 0, 0);
    heights[nodes - 1]--;
    expect_largest(&d, 6, nodes, 0);
    d.call.function = STORAGE_AT;
    expect_largest(&d, 6, nodes, 0);
}
