/*
 * What the examples that read a lattice file share: reading it, metres, and the words for what goes wrong. Each ends with 0, with 1
 * where the library refuses (number and place on standard error; docs/HOST.md has the words), with 2 where the program itself cannot
 * go on: bad usage, a file that cannot be read, no memory.
 */
#ifndef EXAMPLES_LATTICE_H
#define EXAMPLES_LATTICE_H

#include "curlewtable.h"

#include <errno.h>
#include <inttypes.h>
#include <stdio.h>
#include <stdlib.h>
#include <string.h>

#define UNIT 16                     /* the lattice that a fit leaves is read with U = 16 */
#define MOST_CELLS 512
#define MICROMETRES 1000000         /* in a metre */

enum { DONE = 0, REFUSED = 1, FAILED = 2 };

static int failed(const char *what, const char *name)
{
    fprintf(stderr, "%s: %s\n", what, name);
    return FAILED;
}

static int refused(const char *call, size_t number, size_t place)
{
    fprintf(stderr, "%s refused: number %zu, place %zu\n", call, number, place);
    return REFUSED;
}

/*
 * The file's cell counts, and its control values in memory that the caller frees. One byte more than the longest lattice file is
 * enough: the reader finds it after the end.
 */
static int read_lattice(const char *name, curlew_cells *cells, int64_t **lattice)
{
    const size_t most = CURLEW_LATTICE_FILE(MOST_CELLS, MOST_CELLS) + 1, controls = CURLEW_CONTROLS(MOST_CELLS, MOST_CELLS);
    FILE *file = fopen(name, "rb");
    uint8_t *bytes;
    size_t length = 0;
    int result = DONE;

    if (file == NULL)
        return failed(name, strerror(errno));
    bytes = calloc(most, 1);
    *lattice = calloc(controls, sizeof **lattice);
    if (bytes == NULL || *lattice == NULL)
        result = failed(name, "no memory");
    else
        length = fread(bytes, 1, most, file);
    if (result == DONE && ferror(file))
        result = failed(name, "cannot be read");
    fclose(file);
    if (result == DONE)
        *cells = curlew_read_lattice(bytes, length, *lattice, controls);
    if (result == DONE && cells->number != 0)
        result = refused("curlew_read_lattice", cells->number, cells->place);
    free(bytes);
    return result;
}

/* Metres from whole micrometres, in so many columns or more; the sign apart, since -0.5 m has no whole metre to carry it. */
static void print_metres(int width, int64_t height)
{
    const int64_t size = height < 0 ? -height : height;
    char text[32];

    snprintf(text, sizeof text, "%s%" PRId64 ".%06" PRId64, height < 0 ? "-" : "", size / MICROMETRES, size % MICROMETRES);
    printf("%*s", width, text);
}

/* Whether all that was printed could be written. */
static int written(void)
{
    return fflush(stdout) != 0 || ferror(stdout) ? failed("cannot write standard output", strerror(errno)) : DONE;
}

#endif
