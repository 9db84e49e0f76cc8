/*
 * The vectors with points: fits, and point files that are read or written, run on either implementation.
 */
#include "checks.h"

#include "../../include/curlewtable.h"

#include <stdlib.h>
#include <string.h>

#define POINT_LISTS 4                   /* x, y, z and q, which the files give in this order */

/* ---- lists ---- */

/* A list's values in elements of one or two bytes. */
static void *narrowed(list given, role r, const char *text)
{
    const int64_t most = r == Q ? 255 : 65535;
    uint8_t *bytes = room(given.count, element_size[r]);
    uint16_t *pairs = (uint16_t *)(void *)bytes;
    size_t at;

    for (at = 0; at < given.count; at++) {
        if (given.values[at] < 0 || given.values[at] > most)
            bad_line(text);
        if (r == Q)
            bytes[at] = (uint8_t)given.values[at];
        else
            pairs[at] = (uint16_t)given.values[at];
    }
    return bytes;
}

/* Lends the four lists; those of x, y and q are copies. */
static void lend_points(call *c, const list *lists, const char *text)
{
    role r;
    for (r = X; r <= Q; r++)
        lend_slice(c, r, r == Z ? lists[Z].values : narrowed(lists[r], r, text), lists[r].count);
}

static void free_slices(call *c, const role *made, size_t count)
{
    size_t i;
    for (i = 0; i < count; i++)
        free(c->slice[made[i]].at);
}

/* ---- fits ---- */

/* Places that are long enough for this fit's lattice, some over; one that is refused for its numbers needs none. */
static size_t enough(const call *c)
{
    const size_t *v = c->number;
    return v[M] <= 16 && v[N] <= 16 && v[H] <= 5 ? CURLEW_FIT_LATTICE(v[M], v[N], v[H]) + 9 : 0;
}

static void lend_results(call *c)
{
    const size_t most = enough(c), points = c->slice[Z].length;

    lend_slice(c, LATTICE, room(most, sizeof(int64_t)), most);
    lend_slice(c, RESIDUAL, room(points, sizeof(int64_t)), points);
    lend_slice(c, WHOLE, room(3 * most + points, sizeof(int64_t)), 3 * most + points);
    lend_slice(c, FLOATS, room(2 * most, sizeof(double)), 2 * most);
}

/* m0 n0 h : x : y : z : q : answer, and where accepted : lattice : residuals */
int fit_line(const char *text, runner *run)
{
    static const role made[] = { X, Y, Q, LATTICE, RESIDUAL, WHOLE, FLOATS };
    numbers line = read_numbers(text);
    call c = call_of(FIT, line.list[0]);
    list lattice = line.list[6], residual = line.list[7];
    answer got;
    int agrees;

    check_line(&line, text, 6, 3);
    lend_points(&c, line.list + 1, text);
    lend_results(&c);
    got = run(&c);
    agrees = same_answer(got, line.list[5], 2, 0) && line.lists == (accepted(got) ? 8 : 6);
    if (agrees && accepted(got))
        agrees = lattice.count == CURLEW_CONTROLS(got.field[FIRST], got.field[SECOND])
                 && same_values(c.slice[LATTICE].at, lattice.values, lattice.count)
                 && residual.count == c.slice[Z].length
                 && same_values(c.slice[RESIDUAL].at, residual.values, residual.count);
    free_slices(&c, made, COUNT(made));
    free_numbers(&line);
    return agrees;
}

/* ---- point files ---- */

/* What an accepted reader left: p values of each list, the line's. */
static int same_points(const call *c, const list *expected, size_t points, const char *text)
{
    role r;

    for (r = X; r <= Q; r++) {
        void *wanted = r == Z ? NULL : narrowed(expected[r], r, text);
        const int same = expected[r].count == points
                         && memcmp(c->slice[r].at, r == Z ? expected[Z].values : wanted, points * element_size[r]) == 0;
        free(wanted);
        if (!same)
            return 0;
    }
    return 1;
}

/* file in hex, places lent in each list : answer, and where accepted : x : y : z : q */
static int read_line(const char *text, runner *run)
{
    static const role made[] = { X, Y, Z, Q, BYTES };
    const char *at = text;
    call c = { READ_POINTS, { 0 }, { { NULL, 0 } } };
    numbers line;
    answer got;
    role r;
    int agrees;

    c.slice[BYTES].at = read_hex(&at, &c.slice[BYTES].length);
    line = read_numbers(at);
    check_line(&line, text, 2, 1);
    for (r = X; r <= Q; r++)
        lend_slice(&c, r, room((size_t)line.list[0].values[0], element_size[r]), (size_t)line.list[0].values[0]);
    got = run(&c);
    agrees = same_answer(got, line.list[1], 4, 0) && line.lists == (accepted(got) ? 2 + POINT_LISTS : 2);
    if (agrees && accepted(got))
        agrees = same_points(&c, line.list + 2, (size_t)got.field[FIELDS - 1], text);
    free_slices(&c, made, COUNT(made));
    free_numbers(&line);
    return agrees;
}

/* The fields of a writer's line, all numbers but for an accepted one's last, which is the file and stays in its text. */
static numbers writer_fields(const char *text, const char **file)
{
    size_t length = strlen(text), colons = 0, at;
    char *copy = room(length, 1);
    numbers line;

    for (at = 0; at < length; at++)
        colons += text[at] == ':';
    *file = colons == POINT_LISTS + 2 ? strrchr(text, ':') + 1 : NULL;
    memcpy(copy, text, *file == NULL ? length : (size_t)(*file - 1 - text));
    line = read_numbers(copy);
    free(copy);
    return line;
}

/* Whether the file in hex is what the writer left in its first bytes. */
static int same_file(const char *hex, const uint8_t *output, size_t bytes)
{
    const char *at = hex + strspn(hex, " ");
    size_t length;
    uint8_t *file = read_hex(&at, &length);
    const int same = length == bytes && memcmp(file, output, length) == 0;

    free(file);
    return same;
}

/* m0 n0 h, bytes lent : x : y : z : q : answer, and where accepted : file in hex */
static int write_line(const char *text, runner *run)
{
    static const role made[] = { X, Y, Q, BYTES };
    const char *file;
    numbers line = writer_fields(text, &file);
    call c;
    answer got;
    size_t bytes;
    int agrees;

    check_line(&line, text, POINT_LISTS + 2, 4);
    bytes = (size_t)line.list[0].values[3];
    line.list[0].count = 3;
    c = call_of(WRITE_POINTS, line.list[0]);
    lend_points(&c, line.list + 1, text);
    lend_slice(&c, BYTES, room(bytes, 1), bytes);
    got = run(&c);
    agrees = same_answer(got, line.list[POINT_LISTS + 1], 1, 0) && accepted(got) == (file != NULL);
    if (agrees && accepted(got))
        agrees = same_file(file, c.slice[BYTES].at, (size_t)got.field[FIRST]);
    free_slices(&c, made, COUNT(made));
    free_numbers(&line);
    return agrees;
}

int points_line(const char *text, runner *run)
{
    static const char read[] = "read ", write[] = "write ";

    if (strncmp(text, read, sizeof read - 1) == 0)
        return read_line(text + sizeof read - 1, run);
    if (strncmp(text, write, sizeof write - 1) == 0)
        return write_line(text + sizeof write - 1, run);
    bad_line(text);
    return 0;
}
