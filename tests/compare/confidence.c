/*
 * The confidence of a point by known values: fits of points that disagree, refusal 17 among the others, and point files of PT and PQ
 * records byte by byte.
 */
#include "cases.h"
#include "examples.h"

#include "../../include/curlewtable.h"

#include <string.h>

static generator g = { 8 };

static uint8_t *confidences(const draft *d)
{
    return d->call.slice[Q].at;
}

/* ---- fits ---- */

/* A fit of two points at (0, 0), one cell, h = 0. */
static draft two_points(const int64_t z[2], uint8_t first, uint8_t second)
{
    static const uint16_t origin[] = { 0, 0 };
    const draft d = fit_of(0, origin, origin, z, 2);

    confidences(&d)[0] = first;
    confidences(&d)[1] = second;
    return d;
}

/*
 * Heights 0 and 36 at (0, 0): the base is 18, the differences are -18 and 18. There the weights are (1, 4, 1, 0) x (1, 4, 1, 0) / 36
 * and S = (18/36)^2 = 1/4, so a quotient is 4w times the mean of the differences by confidence. With confidences as 1 to 3 that
 * mean is (-18 + 3 * 18) / 4 = 9, and 4w * 9 = 36w: 1, 4 and 16, the rows that document 01 prints for a height of 9. The level's
 * height at (0, 0) is then 9, with 3 to 1 -9, and with equal confidences 0; the residuals are what that leaves of the differences.
 */
static void disagreement(const char *name, uint8_t first, uint8_t second, int64_t nines)
{
    static const int64_t z[] = { 0, 36 };
    static const int64_t rows[] = { 1, 4, 1, 0, 4, 16, 4, 0, 1, 4, 1, 0, 0, 0, 0, 0 };
    const draft d = two_points(z, first, second);
    size_t at;

    begin(name);
    expect(&d, 0, 0, 1, 1);
    for (at = 0; at < COUNT(rows); at++)
        need(&d, values_of(&d, LATTICE)[at] == 18 + nines * rows[at]);
    need(&d, values_of(&d, RESIDUAL)[0] == -18 - 9 * nines && values_of(&d, RESIDUAL)[1] == 18 - 9 * nines);
}

/*
 * The same heights with confidences 1 and 3 at h = 1. Level 0, of U = 32, is as above and leaves -27 and 9, whose mean by confidence is
 * 0: level 1 has nothing to add. So the lattice is the base and level 0 refined. Along an axis 1, 4, 1, 0 become 2.5, 3.25, 2.5, 1.25 and
 * 0.5; their products are 6.25 in place 0, 10.5625 in place 6 and 0.25 in place 24.
 */
static void two_levels(void)
{
    static const uint16_t origin[] = { 0, 0 };
    static const int64_t z[] = { 0, 36 };
    const draft d = fit_of(1, origin, origin, z, 2);

    begin("confidences 1 and 3 in two levels");
    confidences(&d)[1] = 3;
    expect(&d, 0, 0, 2, 2);
    need(&d, values_of(&d, LATTICE)[0] == 18 + 6 && values_of(&d, LATTICE)[6] == 18 + 11 && values_of(&d, LATTICE)[24] == 18);
    need(&d, values_of(&d, RESIDUAL)[0] == -27 && values_of(&d, RESIDUAL)[1] == 9);
}

/*
 * Quotients that are exact halves, or would be but for f64, so that the last bit decides. Both at (0, 0).
 *
 * Heights 162 (q 218) and 254 (q 38): base 208, differences -46 and 46, their mean by confidence -8280/256 = -32.34375, and in place 5 a
 * quotient of 64/36 * -32.34375 = -57.5. Grouped as job 8 has it, it is above -57.5 in f64, and -57; with q times the finished product it
 * is below, and -58.
 * Heights -97 (q 250) and -237 (q 70): base -167, differences 70 and -70, their mean 12600/320 = 39.375, and in place 1 a quotient of
 * 16/36 * 39.375 = 17.5, which goes to 18. With (q * w) * w it is below.
 */
static void grouping_examples(void)
{
    static const int64_t up[] = { 162, 254 }, down[] = { -97, -237 };
    draft d = two_points(up, 218, 38);

    begin("q times the square before the rest");
    expect(&d, 0, 0, 1, 1);
    need(&d, values_of(&d, LATTICE)[5] == 208 - 57);
    d = two_points(down, 250, 70);
    begin("the square of a weight before q");
    expect(&d, 0, 0, 1, 1);
    need(&d, values_of(&d, LATTICE)[1] == -167 + 18);
}

/* A lone point is its own base, whatever its confidence: no difference is left to weigh. */
static void lone_points(void)
{
    static const uint16_t origin;
    static const int64_t z = 9;
    size_t at, q;

    begin("a lone point of every confidence");
    for (q = 1; q <= 255; q++) {
        const draft d = fit_of(0, &origin, &origin, &z, 1);

        confidences(&d)[0] = (uint8_t)q;
        expect(&d, 0, 0, 1, 1);
        for (at = 0; at < CURLEW_CONTROLS(1, 1); at++)
            need(&d, values_of(&d, LATTICE)[at] == z);
        need(&d, values_of(&d, RESIDUAL)[0] == 0);
    }
}

static void fit_examples(void)
{
    disagreement("confidences 1 and 3", 1, 3, 1);
    disagreement("confidences 85 and 255", 85, 255, 1);
    disagreement("confidences 3 and 1", 3, 1, -1);
    disagreement("confidences 255 and 85", 255, 85, -1);
    disagreement("confidences 1 and 1, as without any", 1, 1, 0);
    disagreement("confidences 255 and 255", 255, 255, 0);
    two_levels();
    grouping_examples();
    lone_points();
}

/* ---- refusals ---- */

/* Three points of one cell in order, for a fit or for the point writer. */
static draft three_points(function f)
{
    static const uint16_t at[] = { 0, 8, 16 };
    static const int64_t z[] = { 1, 2, 3 };
    draft d = fit_of(0, at, at, z, COUNT(z));

    d.call.function = f;
    if (f == WRITE_POINTS)
        lend(&g, &d, BYTES, CURLEW_POINT_FILE(COUNT(z)));
    return d;
}

static void expect_accepted(const draft *d)
{
    const int fit = d->call.function == FIT;
    expect(d, 0, 0, fit ? 1 : CURLEW_POINT_FILE(3), fit);
}

/* Faults of point 1 put right one by one: 5, 6, 17, and then accepted. Then 17 at point 0 comes before 5 at point 1. */
static void order_in_a_point(function f)
{
    draft d = three_points(f);
    uint16_t *x = d.call.slice[X].at;
    int64_t *z = d.call.slice[Z].at;
    uint8_t *q = confidences(&d);

    begin("5, 6 and 17 of one point, in their order");
    x[1] = 17;
    z[1] = LIMIT + 1;
    q[1] = q[2] = 0;
    expect(&d, 5, 1, 0, 0);
    x[1] = 16;
    expect(&d, 6, 1, 0, 0);
    z[1] = LIMIT;
    expect(&d, NO_CONFIDENCE, 1, 0, 0);
    q[1] = 255;
    expect(&d, NO_CONFIDENCE, 2, 0, 0);
    q[2] = 1;
    z[1] = 2;
    expect_accepted(&d);
    x[1] = 17;
    q[0] = 0;
    expect(&d, NO_CONFIDENCE, 0, 0, 0);
}

/* Heights 4, -4 and -4 thousand metres: their base is -1,333,333,333, and the first one's difference from it out of range. */
static void before_differences(void)
{
    draft d = three_points(FIT);
    int64_t *z = d.call.slice[Z].at;
    uint8_t *q = confidences(&d);

    begin("17 at the last point before 15 at the first");
    z[0] = LIMIT;
    z[1] = z[2] = -LIMIT;
    q[2] = 0;
    expect(&d, NO_CONFIDENCE, 2, 0, 0);
    q[2] = 2;
    expect(&d, DIFFERENCE_OUT, 0, 0, 0);
    d.call.function = WRITE_POINTS;             /* which has no base */
    lend(&g, &d, BYTES, CURLEW_POINT_FILE(3));
    expect(&d, 0, 0, 53, 0);
}

/* A list of q that is shorter or longer is 3, before a slice too short is 4, and that before a confidence of 0. */
static void fourth_list(function f)
{
    draft d = three_points(f);
    uint8_t *q = confidences(&d);
    const role lent = f == FIT ? LATTICE : BYTES;

    begin("a list of confidences of another length");
    q[0] = 0;
    d.call.slice[lent].length = d.exact[lent] - 1;
    d.call.slice[Q].length = 2;
    expect(&d, 3, 0, 0, 0);
    d.call.slice[Q].length = 4;
    expect(&d, 3, 0, 0, 0);
    d.call.slice[Q].length = 0;
    expect(&d, 3, 0, 0, 0);
    d.call.slice[Q].length = 3;
    expect(&d, 4, 0, 0, 0);
    d.call.slice[lent].length = d.exact[lent];
    expect(&d, NO_CONFIDENCE, 0, 0, 0);
    q[0] = 1;
    expect_accepted(&d);
}

/* ---- point files ---- */

#define FIRST_RECORD 8                          /* the byte of its start */

/* A record of (1, 2), 3 micrometres and confidence 4, or 0; some of its bytes, and what a longer one has after them is 0. */
static uint8_t *put_point(uint8_t *to, const char *mark, uint8_t q, size_t bytes)
{
    uint8_t record[32] = { 0, 0, 1, 0, 2, 0, 3 };

    memcpy(record, mark, 2);
    record[14] = q;
    memcpy(to, record, bytes);
    return to + bytes;
}

/* A call that reads a file of 1 by 1 cells at h = 0 and so many points, which are still to be put. */
static draft reading_of(size_t points)
{
    draft d = new_draft(READ_POINTS);
    uint8_t *file = d.call.slice[BYTES].at;
    role r;

    memcpy(file, "PH\1\1\0\0", 6);
    file[6] = (uint8_t)points;
    file[7] = (uint8_t)(points >> 8);
    for (r = X; r <= Q; r++)
        lend(&g, &d, r, points);
    return d;
}

static void ends_at(draft *d, const uint8_t *end)
{
    d->call.slice[BYTES].length = (size_t)(end - (const uint8_t *)d->call.slice[BYTES].at);
}

/*
 * A file of one or two points that ends with so many bytes of the last record. Where it is accepted, the last point has the
 * confidence given.
 */
typedef struct {
    const char *name, *first, *mark;            /* first NULL: the record is the first */
    size_t left;
    uint8_t q;
    uint64_t number, place;
} ending;

static void read_ending(const ending *e)
{
    const size_t before = e->first == NULL ? 0 : e->first[1] == 'Q' ? 15 : 14, points = before == 0 ? 1 : 2;
    draft d = reading_of(points);
    uint8_t *at = (uint8_t *)d.call.slice[BYTES].at + FIRST_RECORD;
    const uint64_t cells = e->number == 0;

    begin(e->name);
    if (before != 0)
        at = put_point(at, e->first, 4, before);
    ends_at(&d, put_point(at, e->mark, e->q, e->left));
    expect(&d, e->number, e->place, cells, cells);
    if (e->number == 0)
        need(&d, confidences(&d)[points - 1] == e->q && values_of(&d, Z)[points - 1] == 3);
}

static void reader_examples(void)
{
    static const ending endings[] = {
        { "a first PT with 13 bytes left", NULL, "PT", 13, 1, 9, 8 },
        { "a first PQ with 13 bytes left", NULL, "PQ", 13, 1, 9, 8 },
        { "a first record of no kind with 13 bytes left", NULL, "XX", 13, 1, 9, 8 },
        { "a first PT with 14 bytes left", NULL, "PT", 14, 1, 0, 0 },
        { "a first PQ with 14 bytes left", NULL, "PQ", 14, 1, 9, 8 },
        { "a first record of no kind with 14 bytes left", NULL, "XX", 14, 1, 10, 8 },
        { "a first PT with 15 bytes left", NULL, "PT", 15, 1, 12, 22 },
        { "a first PQ with 15 bytes left", NULL, "PQ", 15, 4, 0, 0 },
        { "a first PQ of confidence 255", NULL, "PQ", 15, 255, 0, 0 },
        { "a first PQ of confidence 0", NULL, "PQ", 15, 0, 11, 22 },
        { "a first record of no kind with 15 bytes left", NULL, "XX", 15, 1, 10, 8 },
        { "a first PQ with 16 bytes left", NULL, "PQ", 16, 4, 12, 23 },
        { "a PQ after a PQ, 14 bytes left", "PQ", "PQ", 14, 1, 9, 23 },
        { "a PQ after a PQ, 15 bytes left", "PQ", "PQ", 15, 9, 0, 0 },
        { "a PQ of confidence 0 after a PQ", "PQ", "PQ", 15, 0, 11, 37 },
        { "a PT after a PQ, 14 bytes left", "PQ", "PT", 14, 1, 9, 23 },
        { "a PT after a PQ, 15 bytes left", "PQ", "PT", 15, 1, 10, 23 },
        { "a PQ after a PT, 13 bytes left", "PT", "PQ", 13, 1, 9, 22 },
        { "a PQ after a PT, 14 bytes left", "PT", "PQ", 14, 1, 10, 22 },
        { "a PQ after a PT, 15 bytes left", "PT", "PQ", 15, 1, 10, 22 },
        { "a PT after a PT, 14 bytes left", "PT", "PT", 14, 1, 0, 0 },
        { "a PT after a PT, 15 bytes left", "PT", "PT", 15, 1, 12, 36 },
    };
    size_t i;

    for (i = 0; i < COUNT(endings); i++)
        read_ending(&endings[i]);
}

/* The reader's list of q is an output like the others: 4 where it is too short, and not 3. */
static void fourth_output(void)
{
    draft d = reading_of(1);

    begin("no place for a confidence");
    ends_at(&d, put_point((uint8_t *)d.call.slice[BYTES].at + FIRST_RECORD, "PT", 1, 14));
    d.call.slice[Q].length = 0;
    expect(&d, 4, 0, 0, 0);
    d.call.slice[Q].length = 1;
    expect(&d, 0, 0, 1, 1);
}

/* A file of no points has no kind: what follows its header is too much, whatever mark it begins. */
static void no_points(void)
{
    draft d = reading_of(0);
    uint8_t *end = (uint8_t *)d.call.slice[BYTES].at + FIRST_RECORD;

    begin("a file of no points");
    ends_at(&d, end);
    expect(&d, 0, 0, 1, 1);
    ends_at(&d, put_point(end, "PQ", 4, 15));
    expect(&d, 12, FIRST_RECORD, 0, 0);
    ends_at(&d, put_point(end, "PT", 4, 1));
    expect(&d, 12, FIRST_RECORD, 0, 0);
}

/* The writer writes PQ, also where every q is 1: what is read of a PT file is written as its PQ form. */
static void rewritten_example(const char *name, const char *mark, uint8_t q)
{
    draft d = reading_of(1);
    uint8_t *file = d.call.slice[BYTES].at, form[23] = "PH\1\1\0\0\1";
    role r;

    begin(name);
    ends_at(&d, put_point(file + FIRST_RECORD, mark, q, mark[1] == 'Q' ? 15 : 14));
    expect(&d, 0, 0, 1, 1);
    d.call.function = WRITE_POINTS;
    d.call.number[M] = d.call.number[N] = 1;
    d.call.number[H] = 0;
    for (r = X; r <= Q; r++)
        d.call.slice[r].length = 1;
    lend(&g, &d, BYTES, sizeof form);
    expect(&d, 0, 0, sizeof form, 0);
    put_point(form + FIRST_RECORD, "PQ", q, 15);
    need(&d, memcmp(d.call.slice[BYTES].at, form, sizeof form) == 0);
}

/* The longest files that the program takes, 500 PQ points and 535 PT points in 7,508 bytes: the reader has no such limit. */
static void program_sizes(void)
{
    static const struct { const char *mark; size_t points, bytes; } files[] = {
        { "PQ", 500, 7508 }, { "PT", 535, 7498 }, { "PQ", 501, 7523 }, { "PT", 536, 7512 },
    };
    size_t i, point;

    begin("the files at the program's limit");
    for (i = 0; i < COUNT(files); i++) {
        draft d = reading_of(files[i].points);
        uint8_t *at = (uint8_t *)d.call.slice[BYTES].at + FIRST_RECORD;
        const int of_pq = files[i].mark[1] == 'Q';

        for (point = 0; point < files[i].points; point++)
            at = put_point(at, files[i].mark, 1, of_pq ? 15 : 14);
        ends_at(&d, at);
        expect(&d, 0, 0, 1, 1);
        need(&d, d.call.slice[BYTES].length == files[i].bytes
                 && files[i].bytes == (of_pq ? CURLEW_POINT_FILE(files[i].points) : CURLEW_PT_FILE(files[i].points)));
    }
}

void confidence_examples(void)
{
    fit_examples();
    order_in_a_point(FIT);
    order_in_a_point(WRITE_POINTS);
    before_differences();
    fourth_list(FIT);
    fourth_list(WRITE_POINTS);
    reader_examples();
    fourth_output();
    no_points();
    rewritten_example("a PT file, written again as its PQ form", "PT", 1);
    rewritten_example("a PQ file, written again as it was", "PQ", 4);
    program_sizes();
}
