/*
 * An example host: reads a point file, fits the ground lattice, samples it on a raster and prints what a surveyor looks at first:
 * the residuals, the steepest fall of the raster's nodes and a table of heights.
 *
 *     host POINTS [STEP [LATTICE [SIZE [SIZE_Y]]]]
 *
 * POINTS is a point file (tools/points makes one from a CSV file), STEP the raster's step in positions (8 where it is not given),
 * LATTICE the name of a lattice file to write (tools/relief draws it), or - for none. SIZE and SIZE_Y are the metres of a position
 * along x and along y, as tools/points was given --size and --size-y (SIZE for both where SIZE_Y is not given): a point file does
 * not say them. With them the steepest fall is the steepest on the ground, and in per cent; without them it is per position.
 * Ends with 0, with 1 where the library refuses (number, place and words on standard error), with 2 where the host itself cannot
 * go on: bad usage, a file that cannot be read or written, no memory.
 *
 * examples/build builds it as target/host; docs/HOST.md walks through it.
 */
#include "curlewtable.h"

#include <errno.h>
#include <inttypes.h>
#include <stdio.h>
#include <stdlib.h>
#include <string.h>

#define UNIT 16                     /* the lattice that a fit leaves is read with U = 16 */
#define MOST_POINTS 65535
#define TABLE_COLUMNS 8             /* the printed table has at most so many columns and rows */
#define TABLE_ROWS 9
#define MICROMETRES 1000000         /* in a metre */
#define THOUSANDTHS 1000            /* in a whole: falls are printed with three decimals */
#define NANOMETRES 10000            /* of fall in a metre: a thousandth of a per cent */
#define SHORTEST 0.000001           /* metres of a position: tools/points takes the same */
#define LONGEST 100000000.0

enum { DONE = 0, REFUSED = 1, FAILED = 2 };

/* A survey, and all that the host lends for it. A pointer is NULL until it is allocated, so that one release serves every way out. */
typedef struct {
    const char *name;               /* of the point file */
    uint8_t *file;
    size_t file_len;
    uint16_t *x, *y;
    int64_t *z;
    uint8_t *q;
    size_t room;                    /* places of each of the four lists */
    curlew_header header;
    int64_t *lattice, *residual, *whole;
    double *floats;
    curlew_cells cells;
    int64_t *raster;
    size_t step, columns, rows;
    int sized;                      /* whether the lengths of a position are given; both are 1 where they are not */
    double size_x, size_y;          /* metres of a position along x and along y */
    uint8_t *output;                /* the lattice file */
} survey;

static void release(survey *s)
{
    free(s->file);
    free(s->x);
    free(s->y);
    free(s->z);
    free(s->q);
    free(s->lattice);
    free(s->residual);
    free(s->whole);
    free(s->floats);
    free(s->raster);
    free(s->output);
}

/* ---- what goes wrong */

/* The header's words for each refusal, and what its place says. */
static const struct { const char *words, *place; } refusals[] = {
    { "accepted", "" },
    { "cells a side outside 1..16 (fit, point writer), 1..256 (refine), 1..512 (others)", "0" },
    { "h above 5, or U not 16, 32, 64, 128, 256 or 512", "0" },
    { "x, y, z, q lists differ in length, or over 65,535 points", "0" },
    { "a lent slice is too short", "0" },
    { "position outside", "the point's or node's index, 0 for a single height or slope" },
    { "height or control value out of range", "its index, of a storage's or stage_for's heights from 1; 0 for a stage" },
    { "a quotient out of range in a level of the fit", "the level" },
    { "step above 8,192, or columns or rows above 8,193", "0" },
    { "record incomplete", "the byte of the record's start" },
    { "wrong mark", "the byte of the record's start" },
    { "field not allowed", "the byte of the field" },
    { "bytes after the end", "the first such byte" },
    { "a residual out of range in a level of the fit", "the level" },
    { "a sum out of range in a level of the fit", "the level" },
    { "a difference from the base of the fit out of range", "the point's index" },
    { "a node side outside 1..100 decimetres", "0" },
    { "a confidence of 0", "the point's index" },
    { "no stage in range stores the wanted litres", "0" },
};

/* The point file is named, so that the words can be told apart where many hosts run side by side. */
static int refused(const survey *s, const char *call, size_t number, size_t place)
{
    fprintf(stderr, "%s: %s refused: number %zu, place %zu", s->name, call, number, place);
    if (number < sizeof refusals / sizeof *refusals)
        fprintf(stderr, ": %s (place: %s)\n", refusals[number].words, refusals[number].place);
    else
        fprintf(stderr, ": newer than this host\n");
    return REFUSED;
}

static int cannot(const char *what, const char *name)
{
    fprintf(stderr, "cannot %s %s: %s\n", what, name, strerror(errno));
    return FAILED;
}

/* Memory that is set, as the library asks of every slice. One place at least, so that NULL means that there is no memory. */
static void *lend(size_t places, size_t size)
{
    void *memory = calloc(places > 0 ? places : 1, size);
    if (memory == NULL)
        fprintf(stderr, "no memory for %zu places of %zu bytes\n", places, size);
    return memory;
}

/* ---- reading */

/* One byte more than the longest point file is enough: where a file is longer, the reader finds that byte after its end. */
static int read_file(survey *s)
{
    const size_t most = CURLEW_POINT_FILE(MOST_POINTS) + 1;
    FILE *file = fopen(s->name, "rb");
    int failed;

    if (file == NULL)
        return cannot("open", s->name);
    s->file = lend(most, sizeof *s->file);
    if (s->file == NULL) {
        fclose(file);
        return FAILED;
    }
    s->file_len = fread(s->file, 1, most, file);
    failed = ferror(file) ? cannot("read", s->name) : DONE;
    fclose(file);
    return failed;
}

/* The shorter kind of record has 14 bytes, so a file's length says how many points it can hold at most. */
static int read_survey(survey *s)
{
    const size_t head = CURLEW_PT_FILE(0), record = CURLEW_PT_FILE(1) - head;

    s->room = s->file_len < head ? 0 : (s->file_len - head) / record;
    s->x = lend(s->room, sizeof *s->x);
    s->y = lend(s->room, sizeof *s->y);
    s->z = lend(s->room, sizeof *s->z);
    s->q = lend(s->room, sizeof *s->q);
    if (s->x == NULL || s->y == NULL || s->z == NULL || s->q == NULL)
        return FAILED;
    s->header = curlew_read_points(s->file, s->file_len, s->x, s->room, s->y, s->room, s->z, s->room, s->q, s->room);
    if (s->header.number != 0)
        return refused(s, "curlew_read_points", s->header.number, s->header.place);
    return DONE;
}

/* ---- the fit */

static int fit(survey *s)
{
    const size_t m0 = s->header.m0, n0 = s->header.n0, h = s->header.h, p = s->header.points;
    const size_t k = CURLEW_FIT_LATTICE(m0, n0, h);
    const size_t whole_len = CURLEW_FIT_WHOLE(m0, n0, h, p), floats_len = CURLEW_FIT_FLOATS(m0, n0, h);

    s->lattice = lend(k, sizeof *s->lattice);
    s->residual = lend(p, sizeof *s->residual);
    s->whole = lend(whole_len, sizeof *s->whole);
    s->floats = lend(floats_len, sizeof *s->floats);
    if (s->lattice == NULL || s->residual == NULL || s->whole == NULL || s->floats == NULL)
        return FAILED;
    s->cells = curlew_fit(m0, n0, h, s->x, p, s->y, p, s->z, p, s->q, p, s->lattice, k, s->residual, p,
                          s->whole, whole_len, s->floats, floats_len);
    if (s->cells.number != 0)
        return refused(s, "curlew_fit", s->cells.number, s->cells.place);
    printf("points %zu, coarsest cells %zu by %zu, levels 0 to %zu, finest cells %zu by %zu\n",
           p, m0, n0, h, s->cells.m, s->cells.n);
    return DONE;
}

/* Sizes without sign: the largest, and the mean to the nearest. 65,535 of 4,000,000,000 add up to less than 2^48. */
static void print_residuals(const survey *s)
{
    const int64_t p = (int64_t)s->header.points;
    int64_t largest = 0, sum = 0, at = 0, i;

    if (p == 0) {
        printf("residuals 0\n");
        return;
    }
    for (i = 0; i < p; i++) {
        const int64_t size = s->residual[i] < 0 ? -s->residual[i] : s->residual[i];
        sum += size;
        if (size > largest) {
            largest = size;
            at = i;
        }
    }
    printf("residuals %" PRId64 ", largest %" PRId64 " micrometres (point %" PRId64 ", from 0), mean %" PRId64 " micrometres\n",
           p, largest, at, (2 * sum + p) / (2 * p));
}

/* ---- heights */

/* Every node from (0, 0) to the far edges. A step that the library refuses still gets its one column and row. */
static int sample(survey *s)
{
    const size_t k = CURLEW_CONTROLS(s->cells.m, s->cells.n);
    curlew_count answer;

    s->columns = UNIT * s->cells.m / s->step + 1;
    s->rows = UNIT * s->cells.n / s->step + 1;
    s->raster = lend(s->columns * s->rows, sizeof *s->raster);
    if (s->raster == NULL)
        return FAILED;
    answer = curlew_raster(s->cells.m, s->cells.n, UNIT, s->lattice, k, 0, 0, s->step, s->columns, s->rows,
                           s->raster, s->columns * s->rows);
    if (answer.number != 0)
        return refused(s, "curlew_raster", answer.number, answer.place);
    printf("raster step %zu, %zu columns by %zu rows, %zu nodes\n", s->step, s->columns, s->rows, answer.count);
    return DONE;
}

/* The nodes from one printed to the next, so that at most so many are. */
static size_t stride(size_t nodes, size_t printed)
{
    return (nodes + printed - 1) / printed;
}

/* Metres from whole micrometres; the sign apart, since -0.5 m has no whole metre to carry it. */
static void print_metres(int64_t height)
{
    char text[32];
    const int64_t size = height < 0 ? -height : height;

    snprintf(text, sizeof text, "%s%" PRId64 ".%06" PRId64, height < 0 ? "-" : "", size / MICROMETRES, size % MICROMETRES);
    printf(" %12s", text);
}

static void print_table(const survey *s)
{
    const size_t across = stride(s->columns, TABLE_COLUMNS), down = stride(s->rows, TABLE_ROWS);
    size_t row, column;

    printf("heights in metres; x across and y down, in positions\n%6s", "");
    for (column = 0; column < s->columns; column += across)
        printf(" %12zu", column * s->step);
    printf("\n");
    for (row = 0; row < s->rows; row += down) {
        printf("%6zu", row * s->step);
        for (column = 0; column < s->columns; column += across)
            print_metres(s->raster[row * s->columns + column]);
        printf("\n");
    }
}

/* ---- falls */

/* The cell of a position along one axis: the far edge belongs to the last. */
static size_t cell_of(size_t position, size_t cells)
{
    return position < UNIT * cells ? position / UNIT : cells - 1;
}

/*
 * The slopes at a position. They depend on the 16 control values of its cell alone, and a call scans all that it is lent: so the
 * cell is lent as a lattice of 1 by 1, and a node takes no longer in a large lattice than in a small one.
 */
static curlew_slope slope_at(const survey *s, size_t x, size_t y)
{
    const size_t across = s->cells.m + 3, i = cell_of(x, s->cells.m), j = cell_of(y, s->cells.n);
    int64_t cell[CURLEW_CONTROLS(1, 1)];
    size_t row;

    for (row = 0; row < 4; row++)
        memcpy(cell + 4 * row, s->lattice + (j + row) * across + i, 4 * sizeof *cell);
    return curlew_slope_at(1, 1, UNIT, cell, CURLEW_CONTROLS(1, 1), x - UNIT * i, y - UNIT * j);
}

/*
 * To compare falls: the square of the gradient, times that of size_x, which is the same at every node. Exact where both lengths
 * are the same and both slopes under 67 millimetres a position, to 15 digits elsewhere.
 */
static double steepness(const survey *s, curlew_slope at)
{
    const double along_x = (double)at.along_x, along_y = (double)at.along_y * (s->size_x / s->size_y);
    return along_x * along_x + along_y * along_y;
}

/* The slopes at the node whose fall is the steepest, the first of several; those of level ground where no node has any fall. */
static int find_steepest(const survey *s, curlew_slope *steepest, size_t *node)
{
    size_t i;

    for (i = 0; i < s->columns * s->rows; i++) {
        const curlew_slope at = slope_at(s, i % s->columns * s->step, i / s->columns * s->step);
        if (at.number != 0)
            return refused(s, "curlew_slope_at", at.number, at.place);
        if (steepness(s, at) > steepness(s, *steepest)) {
            *steepest = at;
            *node = i;
        }
    }
    return DONE;
}

/* What is printed of a slope: thousandths of a micrometre per position, or of a per cent, the nearest, halves away from 0. */
static int64_t thousandths(const survey *s, int64_t slope, double size)
{
    const double gradient = (double)slope / (NANOMETRES * size);

    return s->sized ? (int64_t)(gradient < 0 ? gradient - 0.5 : gradient + 0.5) : slope;
}

/* The digits, and which way: where the slope is positive, the ground falls against the axis. Where all are 0 there is no way. */
static void print_fall(int64_t slope, char axis)
{
    const int64_t size = slope < 0 ? -slope : slope;

    printf(" %" PRId64 ".%03" PRId64, size / THOUSANDTHS, size % THOUSANDTHS);
    if (size == 0)
        printf(" along %c,", axis);
    else
        printf(" towards %c%c,", slope > 0 ? '-' : '+', axis);
}

static int print_steepest(const survey *s)
{
    curlew_slope steepest = { 0, 0, 0, 0 };
    size_t node = 0;
    const int result = find_steepest(s, &steepest, &node);

    if (result != DONE)
        return result;
    printf("steepest fall, in %s:", s->sized ? "per cent" : "micrometres per position");
    if (steepest.along_x == 0 && steepest.along_y == 0) {
        printf(" none, every node is level\n");
    } else {
        print_fall(thousandths(s, steepest.along_x, s->size_x), 'x');
        print_fall(thousandths(s, steepest.along_y, s->size_y), 'y');
        printf(" at (%zu, %zu)\n", node % s->columns * s->step, node / s->columns * s->step);
    }
    return DONE;
}

/* ---- the lattice file */

static int write_file(const char *name, const uint8_t *bytes, size_t count)
{
    FILE *file = fopen(name, "wb");
    size_t written;

    if (file == NULL)
        return cannot("open", name);
    written = fwrite(bytes, 1, count, file);
    if (fclose(file) != 0 || written != count)
        return cannot("write", name);
    return DONE;
}

static int write_lattice(survey *s, const char *name)
{
    const size_t k = CURLEW_CONTROLS(s->cells.m, s->cells.n), bytes = CURLEW_LATTICE_FILE(s->cells.m, s->cells.n);
    curlew_count answer;

    s->output = lend(bytes, sizeof *s->output);
    if (s->output == NULL)
        return FAILED;
    answer = curlew_write_lattice(s->cells.m, s->cells.n, s->lattice, k, s->output, bytes);
    if (answer.number != 0)
        return refused(s, "curlew_write_lattice", answer.number, answer.place);
    return write_file(name, s->output, answer.count);
}

/* ---- the run */

/* Decimal digits only: strtoul would take a sign, blanks and an empty word. */
static int read_step(const char *word, size_t *step)
{
    char *end;
    unsigned long value;

    errno = 0;
    value = strtoul(word, &end, 10);
    if (word[0] < '0' || word[0] > '9' || *end != '\0' || errno != 0 || value == 0) {
        fprintf(stderr, "the step is a whole number from 1: %s\n", word);
        return FAILED;
    }
    *step = value;
    return DONE;
}

/* The range leaves out 0, infinities and NaN, which is in no range; and with it no gradient overflows. */
static int read_size(const char *word, double *size)
{
    char *end;

    *size = strtod(word, &end);
    if (end == word || *end != '\0' || !(*size >= SHORTEST && *size <= LONGEST)) {
        fprintf(stderr, "the size of a position is a number of metres from 0.000001 to 100000000: %s\n", word);
        return FAILED;
    }
    return DONE;
}

/* All words but the name of the lattice file, which is for the end. */
static int read_words(survey *s, int words, char **word)
{
    int result = DONE;

    s->name = word[1];
    s->step = CURLEW_DEFAULT_STEP;
    s->sized = words > 4;
    s->size_x = s->size_y = 1;
    if (words > 2)
        result = read_step(word[2], &s->step);
    if (result == DONE && s->sized)
        result = read_size(word[4], &s->size_x);
    if (result == DONE && s->sized)
        result = read_size(word[words - 1], &s->size_y);        /* SIZE again where SIZE_Y is not given */
    return result;
}

static int run(survey *s, int words, char **word)
{
    int result = read_words(s, words, word);

    if (result == DONE)
        result = read_file(s);
    if (result == DONE)
        result = read_survey(s);
    if (result == DONE)
        result = fit(s);
    if (result != DONE)
        return result;
    print_residuals(s);
    result = sample(s);
    if (result == DONE)
        result = print_steepest(s);
    if (result != DONE)
        return result;
    print_table(s);
    return words > 3 && strcmp(word[3], "-") != 0 ? write_lattice(s, word[3]) : DONE;
}

int main(int argc, char **argv)
{
    survey s = { 0 };
    int result;

    if (argc < 2 || argc > 6) {
        fprintf(stderr, "usage: host POINTS [STEP [LATTICE [SIZE [SIZE_Y]]]], with - for no LATTICE\n");
        return FAILED;
    }
    result = run(&s, argc, argv);
    release(&s);
    if ((fflush(stdout) != 0 || ferror(stdout)) && result == DONE)
        result = cannot("write", "standard output");
    return result;
}
