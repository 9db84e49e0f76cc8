/*
 * Compares the library with the reference on random calls, through the library's header.
 *
 *   compare [--vectors DIR] [--small] [--case N] [seconds [seed]]
 *
 * First come the examples of documents 01 and 02, halves and their negatives, lattices and rasters with each value out of range in
 * turn, ground above a stage, storage and stage for one of the largest raster, with --vectors every line of the outside vectors of
 * that folder, stages on a lattice with high values in all its places, and every damage of a small file; then random cases for about
 * so many seconds (30).
 * --small leaves out the larger cases, for slow tools. Prints how many calls were compared, by function and answer. At the
 * first difference it prints the call and its case number N, and exits with status 1; "compare --case N 0 seed" runs that case
 * alone.
 */
#define _POSIX_C_SOURCE 200809L         /* alarm */

#include "cases.h"
#include "trial.h"

#include "../vectors/lines.h"

#include <inttypes.h>
#include <stdio.h>
#include <stdlib.h>
#include <string.h>
#include <unistd.h>

#define LONGEST_CALL 300                /* seconds: a call that runs longer counts as one that does not end */

typedef struct {
    const char *vectors;
    int small, alone;
    uint64_t number;                    /* of the case to run alone */
    double seconds;
    uint64_t seed;
} options;

/* How often each kind is drawn; those that look at thousands of positions are few. */
static const struct {
    test_case *run;
    size_t weight;
} kinds[] = {
    { fit_case, 200 }, { scaled_case, 20 }, { range_end_case, 10 }, { leap_case, 20 }, { tie_case, 50 },
    { negated_fit_case, 100 }, { negated_surface_case, 100 }, { height_case, 150 }, { slope_case, 150 }, { refine_case, 100 },
    { raster_case, 200 }, { above_case, 100 }, { storage_case, 150 }, { wanted_case, 150 }, { sampled_case, 50 },
    { lattice_file_case, 150 }, { point_file_case, 150 }, { demand3_case, 3 }, { exact_case, 2 }, { half_case, 30 },
};

#define KINDS COUNT(kinds)
#define LARGEST_EACH 4                  /* the first so many cases of each kind are of the largest size */

static test_case *some_kind(generator *g)
{
    size_t total = 0, i, at;

    for (i = 0; i < KINDS; i++)
        total += kinds[i].weight;
    at = below(g, total);
    for (i = 0; at >= kinds[i].weight; i++)
        at -= kinds[i].weight;
    return kinds[i].run;
}

/* A case is settled by the seed, its number and --small alone. */
static void run_case(const options *o, uint64_t number)
{
    static char name[100];
    generator g = generator_of(o->seed, number);
    test_case *run = some_kind(&g);
    size_class size = once_in(&g, 5000) ? LARGEST : once_in(&g, 100) ? MEDIUM : SMALL;

    if (number < LARGEST_EACH * KINDS) {
        run = kinds[number / LARGEST_EACH].run;
        size = LARGEST;
    }

    snprintf(name, sizeof name, "case %" PRIu64 " of seed %" PRIu64 "%s", number, o->seed, o->small ? ", small" : "");
    trial_name(name, draw(&g));
    run(&g, o->small ? SMALL : size);
}

static uint64_t run_cases(const options *o)
{
    const double end = now() + o->seconds;
    uint64_t number;

    for (number = 0; number % 16 != 0 || now() < end; number++) {
        if (number % 1024 == 0)
            alarm(LONGEST_CALL);
        run_case(o, number);
    }
    return number;
}

static void print_levels(const char *figure, size_t number)
{
    size_t k;

    printf("fits refused for %-10s in level", figure);
    for (k = 0; k < LEVELS; k++)
        printf("  %zu: %zu", k, refused_in_level[number][k]);
    printf("\n");
}

static void print_compared(void)
{
    size_t f, n, all = 0;

    printf("%-14s%10s", "calls compared", "accepted");
    for (n = 1; n <= MOST_NUMBER; n++)
        printf("%*s%zu", n < 10 ? 8 : 7, "", n);
    printf("\n");
    for (f = 0; f < FUNCTIONS; f++) {
        printf("%-14s%10zu", shapes[f].name, compared[f][0]);
        all += compared[f][0];
        for (n = 1; n <= MOST_NUMBER; n++) {
            printf("%9zu", compared[f][n]);
            all += compared[f][n];
        }
        printf("\n");
    }
    print_levels("a quotient", QUOTIENT_OUT);
    print_levels("a residual", RESIDUAL_OUT);
    print_levels("a sum", SUM_OUT);
    printf("%zu calls, no difference\n", all);
}

static int usage(void)
{
    fprintf(stderr, "usage: compare [--vectors DIR] [--small] [--case N] [seconds [seed]]\n");
    return 2;
}

static int read_options(int argc, char **argv, options *o)
{
    int at, plain = 0;

    for (at = 1; at < argc; at++) {
        if (strcmp(argv[at], "--small") == 0) {
            o->small = 1;
        } else if (strcmp(argv[at], "--vectors") == 0 && at + 1 < argc) {
            o->vectors = argv[++at];
        } else if (strcmp(argv[at], "--case") == 0 && at + 1 < argc) {
            o->alone = 1;
            o->number = strtoull(argv[++at], NULL, 10);
        } else if (argv[at][0] != '-' && plain < 2) {
            if (plain++ == 0)
                o->seconds = strtod(argv[at], NULL);
            else
                o->seed = strtoull(argv[at], NULL, 10);
        } else {
            return 0;
        }
    }
    return 1;
}

/* What comes before the random cases. */
static int run_fixed(const options *o)
{
    printf("%zu examples hold\n", run_examples());
    if (!o->small) {
        largest_above();
        largest_storage();
    }
    if (o->vectors != NULL) {
        trial_name("a line of the outside vectors", 1);
        if (run_calls(o->vectors, trial) > 0)
            return 0;
    }
    every_peak(o->small);
    every_file_damage(o->small);
    return 1;
}

int main(int argc, char **argv)
{
    options o = { NULL, 0, 0, 0, 30.0, 1 };

    if (!read_options(argc, argv, &o))
        return usage();
    trial_catch_signals();
    if (o.alone) {
        run_case(&o, o.number);
    } else {
        if (!run_fixed(&o))
            return 1;
        printf("%" PRIu64 " random cases of seed %" PRIu64 "\n", run_cases(&o), o.seed);
        print_demand3();
        print_above();
        print_negated();
    }
    print_compared();
    return 0;
}
