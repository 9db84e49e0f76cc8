/*
 * How much stack each call uses, at its largest: no theorem bounds it, so it is measured and tried.
 *
 *     stack
 *
 * Each call runs on a thread whose stack was painted, and the bytes below the paint that is left are counted. Then each runs again on a
 * thread with a stack of TRIED bytes above a page that may not be touched. Prints a line a call; status 0 if no call uses more than
 * half of TRIED, so that docs/HOST.md's figure, which is that half, is true.
 */
#define _DEFAULT_SOURCE
#include "curlewtable.h"

#include <pthread.h>
#include <stdio.h>
#include <stdlib.h>
#include <string.h>
#include <sys/mman.h>

enum { TRIED = 16384, PAINTED = 1 << 20, PAGE = 4096, PAINT = 0xA5 };
enum { POINTS = 65535, CELLS = 512, SIDE = 1025 };

static uint16_t x[POINTS], y[POINTS];
static int64_t z[POINTS], residual[POINTS];
static uint8_t q[POINTS];
static int64_t lattice[CURLEW_CONTROLS(CELLS, CELLS)], raster[SIDE * SIDE];
static int64_t whole[CURLEW_FIT_WHOLE(16, 16, 5, POINTS)];
static double floats[CURLEW_FIT_FLOATS(16, 16, 5)];
static uint8_t file[CURLEW_LATTICE_FILE(CELLS, CELLS)];

static size_t fit(void)
{
    return curlew_fit(16, 16, 5, x, POINTS, y, POINTS, z, POINTS, q, POINTS, lattice, sizeof lattice / sizeof *lattice,
                      residual, POINTS, whole, sizeof whole / sizeof *whole, floats, sizeof floats / sizeof *floats).number;
}

static size_t height_at(void)
{
    return curlew_height_at(CELLS, CELLS, 512, lattice, sizeof lattice / sizeof *lattice, 262144, 262144).number;
}

static size_t slope_at(void)
{
    return curlew_slope_at(CELLS, CELLS, 512, lattice, sizeof lattice / sizeof *lattice, 262144, 262144).number;
}

static size_t refine(void)
{
    return curlew_refine(256, 256, whole, CURLEW_CONTROLS(256, 256), lattice, sizeof lattice / sizeof *lattice).number;
}

static size_t rasters(void)
{
    return curlew_raster(CELLS, CELLS, 16, lattice, sizeof lattice / sizeof *lattice, 0, 0, 8, SIDE, SIDE, raster,
                         sizeof raster / sizeof *raster).number;
}

/* The stage at the raster's greatest height: the walk goes to its end, and a yes would count as a refusal. */
static size_t any_above(void)
{
    int64_t stage = raster[0];
    curlew_above a;
    size_t i;

    for (i = 1; i < sizeof raster / sizeof *raster; i++)
        stage = raster[i] > stage ? raster[i] : stage;
    a = curlew_any_above(CELLS, CELLS, 16, lattice, sizeof lattice / sizeof *lattice, 0, 0, 8, SIDE, SIDE, stage);
    return a.number + a.above;
}

static size_t storage_at(void)
{
    return curlew_storage_at(SIDE, SIDE, raster, sizeof raster / sizeof *raster, 4000000000, 100).number;
}

/* About a kilometre over every node: the search goes on for some passes. */
static size_t stage_for(void)
{
    return curlew_stage_for(SIDE, SIDE, raster, sizeof raster / sizeof *raster, 100000000000000, 100).number;
}

static size_t write_lattice(void)
{
    return curlew_write_lattice(CELLS, CELLS, lattice, sizeof lattice / sizeof *lattice, file, sizeof file).number;
}

static size_t read_lattice(void)
{
    return curlew_read_lattice(file, sizeof file, lattice, sizeof lattice / sizeof *lattice).number;
}

static size_t write_points(void)
{
    return curlew_write_points(16, 16, 5, x, POINTS, y, POINTS, z, POINTS, q, POINTS, file, sizeof file).number;
}

static size_t read_points(void)
{
    return curlew_read_points(file, CURLEW_POINT_FILE(POINTS), x, POINTS, y, POINTS, z, POINTS, q, POINTS).number;
}

/* In an order in which each finds what it reads. */
static const struct { const char *name; size_t (*run)(void); } calls[] = {
    { "curlew_fit", fit }, { "curlew_height_at", height_at }, { "curlew_slope_at", slope_at },
    { "curlew_raster", rasters }, { "curlew_any_above", any_above }, { "curlew_storage_at", storage_at },
    { "curlew_stage_for", stage_for }, { "curlew_write_lattice", write_lattice }, { "curlew_read_lattice", read_lattice },
    { "curlew_refine", refine }, { "curlew_write_points", write_points }, { "curlew_read_points", read_points },
};

/* A call in the middle of a thread: its stack's use is measured from this frame on. */
typedef struct { size_t (*run)(void); size_t number; const unsigned char *top; } job;

static void *run_job(void *given)
{
    job *j = given;
    unsigned char here;

    j->top = &here;
    j->number = j->run();
    return NULL;
}

static void stop(const char *what)
{
    perror(what);
    exit(2);
}

/* Runs a call on these bytes of stack, and returns its number. */
static job on_stack(size_t (*run)(void), void *stack, size_t bytes)
{
    pthread_attr_t attributes;
    pthread_t thread;
    job j = { run, 0, NULL };

    if (pthread_attr_init(&attributes) || pthread_attr_setstack(&attributes, stack, bytes)
        || pthread_create(&thread, &attributes, run_job, &j) || pthread_join(thread, NULL))
        stop("thread");
    return j;
}

static unsigned char *mapped(size_t bytes)
{
    void *at = mmap(NULL, bytes, PROT_READ | PROT_WRITE, MAP_PRIVATE | MAP_ANONYMOUS, -1, 0);

    if (at == MAP_FAILED)
        stop("mmap");
    return at;
}

/* The bytes that a call touches below the frame that calls it. */
static size_t used(size_t (*run)(void), size_t *number)
{
    unsigned char *stack = mapped(PAINTED);
    size_t low = 0;
    job j;

    memset(stack, PAINT, PAINTED);
    j = on_stack(run, stack, PAINTED);
    while (low < PAINTED && stack[low] == PAINT)
        low++;
    *number = j.number;
    munmap(stack, PAINTED);
    return (size_t)(j.top - (stack + low));
}

/* The call again with little stack: a touch of the page below ends the program. */
static size_t tried(size_t (*run)(void))
{
    unsigned char *stack = mapped(PAGE + TRIED);
    job j;

    if (mprotect(stack, PAGE, PROT_NONE))
        stop("mprotect");
    j = on_stack(run, stack + PAGE, TRIED);
    munmap(stack, PAGE + TRIED);
    return j.number;
}

int main(void)
{
    size_t i, most = 0;

    for (i = 0; i < POINTS; i++) {
        x[i] = (uint16_t)(i * 7919 % 8193);
        y[i] = (uint16_t)(i * 104729 % 8193);
        z[i] = (int64_t)(i * 2654435761u % 2000001) - 1000000;
        q[i] = (uint8_t)(1 + i % 255);
    }
    for (i = 0; i < sizeof calls / sizeof *calls; i++) {
        size_t number, bytes = used(calls[i].run, &number), again = tried(calls[i].run);

        printf("%-20s %6zu bytes of stack\n", calls[i].name, bytes);
        if (number != 0 || again != 0) {
            printf("%s is refused: %zu, %zu\n", calls[i].name, number, again);
            return 1;
        }
        if (bytes > most)
            most = bytes;
    }
    printf("at most %zu bytes of stack a call, and %d are enough for each\n", most, TRIED);
    return most > TRIED / 2;
}
