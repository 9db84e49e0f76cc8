/*
 * The vectors that are calls of the library: heights, slopes, refinements, rasters, ground above a stage, storages and stages for a
 * wanted one, run on either implementation. Those with points, fits and point files, are in points.c.
 */
#include "checks.h"

#include "../../include/curlewtable.h"

#include <stdlib.h>
#include <string.h>

/* so many numbers : control values : answer, with so many fields; nothing is written */
static int lattice_line(const char *text, runner *run, function f, size_t head, size_t fields)
{
    numbers line = read_numbers(text);
    call c = call_of(f, line.list[0]);
    int agrees;

    check_line(&line, text, 3, head);
    lend_slice(&c, LATTICE, line.list[1].values, line.list[1].count);
    agrees = same_answer(run(&c), line.list[2], fields, 0);
    free_numbers(&line);
    return agrees;
}

/* m n U x y : control values : answer */
static int height_line(const char *text, runner *run)
{
    return lattice_line(text, run, HEIGHT_AT, 5, 1);
}

/* m n U x y : control values : answer */
static int slope_line(const char *text, runner *run)
{
    return lattice_line(text, run, SLOPE_AT, 5, 2);
}

/* m n U x0 y0 step columns rows stage : control values : answer */
static int above_line(const char *text, runner *run)
{
    return lattice_line(text, run, ANY_ABOVE, 9, 1);
}

/* m n : control values : new control values; all are accepted */
static int refine_line(const char *text, runner *run)
{
    numbers line = read_numbers(text);
    call c = call_of(REFINE, line.list[0]);
    list expected = line.list[2];
    int64_t *output = room(expected.count, sizeof *output);
    answer got;
    int agrees;

    check_line(&line, text, 3, 2);
    lend_slice(&c, LATTICE, line.list[1].values, line.list[1].count);
    lend_slice(&c, VALUES, output, expected.count);
    got = run(&c);
    agrees = accepted(got) && got.field[PLACE] == 0
             && got.field[FIRST] == 2 * c.number[M] && got.field[SECOND] == 2 * c.number[N]
             && expected.count == CURLEW_CONTROLS(got.field[FIRST], got.field[SECOND])
             && same_values(output, expected.values, expected.count);
    free(output);
    free_numbers(&line);
    return agrees;
}

/* m n U x0 y0 step columns rows : control values : answer and heights; the output is long enough */
static int raster_line(const char *text, runner *run)
{
    numbers line = read_numbers(text);
    call c = call_of(RASTER, line.list[0]);
    list expected = line.list[2];
    const size_t nodes = c.number[COLUMNS] * c.number[ROWS];
    int64_t *output = room(nodes, sizeof *output);
    answer got;
    int agrees;

    check_line(&line, text, 3, 8);
    lend_slice(&c, LATTICE, line.list[1].values, line.list[1].count);
    lend_slice(&c, VALUES, output, nodes);
    got = run(&c);
    agrees = same_answer(got, expected, 1, nodes);
    if (agrees && accepted(got))
        agrees = same_values(output, expected.values + 3, nodes);
    free(output);
    free_numbers(&line);
    return agrees;
}

/* So many values; a shorter list is repeated from its start. */
static int64_t *repeated(list given, size_t length, const char *text)
{
    int64_t *result = room(length, sizeof *result);
    size_t at;

    if (length > 0 && given.count == 0)
        bad_line(text);
    for (at = 0; at < length; at++)
        result[at] = given.values[at % given.count];
    return result;
}

/* columns rows, the stage or what is wanted, side length : heights : answer */
static int heights_line(const char *text, runner *run, function f, unsigned third)
{
    const unsigned place[] = { COLUMNS, ROWS, third, NODE_SIDE };
    numbers line = read_numbers(text);
    const int64_t *head = line.list[0].values;
    call c;
    int64_t *heights;
    size_t at;
    int agrees;

    check_line(&line, text, 3, COUNT(place) + 1);
    memset(&c, 0, sizeof c);
    c.function = f;
    for (at = 0; at < COUNT(place); at++)
        c.number[place[at]] = (size_t)head[at];
    heights = repeated(line.list[1], (size_t)head[COUNT(place)], text);
    lend_slice(&c, VALUES, heights, (size_t)head[COUNT(place)]);
    agrees = same_answer(run(&c), line.list[2], 1, 0);
    free(heights);
    free_numbers(&line);
    return agrees;
}

/* columns rows stage side length : heights : answer */
static int storage_line(const char *text, runner *run)
{
    return heights_line(text, run, STORAGE_AT, STAGE);
}

/* columns rows wanted side length : heights : answer */
static int stage_line(const char *text, runner *run)
{
    return heights_line(text, run, STAGE_FOR, WANTED);
}

size_t run_calls(const char *folder, runner *run)
{
    size_t differ = 0;

    differ += run_file(folder, "height.txt", height_line, run);
    differ += run_file(folder, "slope.txt", slope_line, run);
    differ += run_file(folder, "refine.txt", refine_line, run);
    differ += run_file(folder, "raster.txt", raster_line, run);
    differ += run_file(folder, "above.txt", above_line, run);
    differ += run_file(folder, "storage.txt", storage_line, run);
    differ += run_file(folder, "stage.txt", stage_line, run);
    differ += run_file(folder, "fit.txt", fit_line, run);
    differ += run_file(folder, "points.txt", points_line, run);
    return differ;
}
