/*
 * Fixed cases of the four file functions: the two readers and the two writers.
 *
 * Prints one line a case: its name, the number and the place, the other fields of the answer, and for each output slice
 * the FNV-1a checksum of its memory whole, on a little-endian machine. expected.txt has the lines that are due.
 *
 * Each case also names the number and the place that documents 01 and 02 give, worked out by hand, and knows what an accepted
 * call writes: the files are encoded and the values chosen here, not taken from the library. A line that breaks
 * either ends in "WRONG", and the exit status is then 1.
 *
 * The places of the small lattice file, 1 by 1: head at 0 (6 bytes: mark, m at 2, n at 4), rows at 6, 42, 78 and 114
 * (36 bytes each: mark, row number, 4 values), end at 150 (4 bytes: mark, count at 152), 154 bytes.
 * The places of the small point files, 3 points: head at 0 (8 bytes: mark, m0 at 2, n0 at 3, h at 4, the zero byte at 5,
 * p at 6), points at 8, 22 and 36 (14 bytes each: mark, x, y, z), 50 bytes; of PQ points at 8, 23 and 38 (15 bytes each, q the last),
 * 53 bytes. The point reader is tried on both kinds; the writer writes PQ points.
 */
#include "../../include/curlewtable.h"

#include "../common/basics.h"

#include <stdio.h>
#include <string.h>

#define HIGHEST INT64_C(4000000000)
#define MOST_CELLS 512
#define MOST_POINTS 65535
#define FILL 0xA5           /* what every output slice holds before the call */

static uint8_t file[CURLEW_LATTICE_FILE(MOST_CELLS, MOST_CELLS) + 1000];
static size_t file_len;

/* what the file holds, as lists: the lattice, or the points */
static size_t m, n, m0, n0, h, points;
static int64_t values[CURLEW_CONTROLS(MOST_CELLS, MOST_CELLS)], z[MOST_POINTS + 1];
static uint16_t x[MOST_POINTS + 1], y[MOST_POINTS + 1];
static uint8_t q[MOST_POINTS + 1];

/* the bytes of a point's record, which say the file's kind */
enum { PT = 14, PQ = 15 };
static size_t record = PT;

static int any_wrong;

/* ---- files */

/* Writes the lowest bytes of a value at a byte of the file, the least first. */
static void put(size_t at, size_t bytes, uint64_t value)
{
    for (; bytes > 0; bytes--, value >>= 8)
        file[at++] = (uint8_t)value;
}

static void put_mark(size_t at, const char *mark)
{
    put(at, 1, (uint8_t)mark[0]);
    put(at + 1, 1, (uint8_t)mark[1]);
}

/* The byte of a row's start, and with row n + 3 that of the end's. */
static size_t row_at(size_t row)
{
    return 6 + row * (4 + 8 * (m + 3));
}

static size_t value_at(size_t place)
{
    return row_at(place / (m + 3)) + 4 + 8 * (place % (m + 3));
}

static size_t point_at(size_t index)
{
    return 8 + record * index;
}

static void set_value(size_t place, int64_t value)
{
    values[place] = value;
    put(value_at(place), 8, (uint64_t)value);
}

static void set_x(size_t index, uint16_t value)
{
    x[index] = value;
    put(point_at(index) + 2, 2, value);
}

static void set_y(size_t index, uint16_t value)
{
    y[index] = value;
    put(point_at(index) + 4, 2, value);
}

static void set_z(size_t index, int64_t value)
{
    z[index] = value;
    put(point_at(index) + 6, 8, (uint64_t)value);
}

/* A PT point has no q of its own, and reads as 1. */
static void set_q(size_t index, uint8_t value)
{
    q[index] = value;
    if (record == PQ)
        put(point_at(index) + 14, 1, value);
}

/* A height in range, another for every index. */
static int64_t some_height(size_t index)
{
    return (int64_t)((uint64_t)index * UINT64_C(2654435761) % UINT64_C(8000000001)) - HIGHEST;
}

/* Begins a lattice file of these cells, with some values. */
static void new_lattice(size_t cells_x, size_t cells_y)
{
    size_t row, place;

    m = cells_x;
    n = cells_y;
    put_mark(0, "LH");
    put(2, 2, m);
    put(4, 2, n);
    for (row = 0; row < n + 3; row++) {
        put_mark(row_at(row), "LR");
        put(row_at(row) + 2, 2, row);
    }
    for (place = 0; place < CURLEW_CONTROLS(m, n); place++)
        set_value(place, some_height(place));
    put_mark(row_at(n + 3), "LE");
    put(row_at(n + 3) + 2, 2, n + 3);
    file_len = row_at(n + 3) + 4;
}

/* Begins a point file of this head and of the kind set, with some points at positions up to 16, which every head allows. */
static void new_points(size_t cells_x, size_t cells_y, size_t levels, size_t count)
{
    size_t k;

    m0 = cells_x;
    n0 = cells_y;
    h = levels;
    points = count;
    put_mark(0, "PH");
    put(2, 1, m0);
    put(3, 1, n0);
    put(4, 1, h);
    put(5, 1, 0);
    put(6, 2, points);
    for (k = 0; k < points; k++) {
        put_mark(point_at(k), record == PQ ? "PQ" : "PT");
        set_x(k, (uint16_t)(k * 5 % 17));
        set_y(k, (uint16_t)(k * 7 % 17));
        set_z(k, some_height(k));
        set_q(k, (uint8_t)(record == PQ ? 1 + k * 37 % 255 : 1));
    }
    file_len = point_at(points);
}

static void small_lattice(void)
{
    new_lattice(1, 1);
}

static void small_points(void)
{
    new_points(2, 3, 1, 3);
}

/* Bytes after the end that look like a record: the file's first ones again. */
static void add_trailing(size_t count)
{
    size_t k;

    for (k = 0; k < count; k++)
        file[file_len + k] = file[k];
    file_len += count;
}

/* ---- calls */

/* An output slice of some elements of one size, of which an accepted call writes the first as they are due. */
typedef struct {
    uint8_t *memory;
    size_t size, count;
    const void *due;
    size_t due_count;
} output;

static output lend(size_t size, size_t count, const void *due, size_t due_count)
{
    output lent = { room(count, size), size, count, due, due_count };

    memset(lent.memory, FILL, count * size);
    return lent;
}

static uint64_t checksum(const uint8_t *bytes, size_t count)
{
    uint64_t sum = UINT64_C(0xCBF29CE484222325);

    for (; count > 0; count--)
        sum = (sum ^ *bytes++) * UINT64_C(0x100000001B3);
    return sum;
}

/* True where the slice holds what is due in its prefix if the call was accepted, and else is as it was. */
static int is_due(const output *lent, int accepted)
{
    size_t written = accepted ? lent->size * lent->due_count : 0, k;

    if (written > lent->size * lent->count || (written > 0 && memcmp(lent->memory, lent->due, written) != 0))
        return 0;
    for (k = written; k < lent->size * lent->count; k++)
        if (lent->memory[k] != FILL)
            return 0;
    return 1;
}

/* What the library answered, or what it should have: number, place and up to four more fields. */
typedef struct {
    size_t field[6];
} fields;

/* Prints the line of a case, and gives back the slices. The other fields of a refusal are due as 0. */
static void report(const char *call, const char *what, size_t which, fields got, fields due, size_t count, output *lent,
                   size_t slices)
{
    int wrong = 0;
    size_t k;

    printf("%s, %s %zu:", call, what, which);
    for (k = 0; k < count; k++) {
        printf(" %zu", got.field[k]);
        wrong |= got.field[k] != (k >= 2 && due.field[0] != 0 ? 0 : due.field[k]);
    }
    for (k = 0; k < slices; k++) {
        printf(" %016llx", (unsigned long long)checksum(lent[k].memory, lent[k].size * lent[k].count));
        wrong |= !is_due(&lent[k], due.field[0] == 0);
        free(lent[k].memory);
    }
    puts(wrong ? " WRONG" : "");
    any_wrong |= wrong;
}

/* A copy of the file in memory of just its length; no memory at all for an empty one. */
static uint8_t *copy_file(void)
{
    uint8_t *copy = NULL;

    if (file_len > 0) {
        copy = room(file_len, 1);
        memcpy(copy, file, file_len);
    }
    return copy;
}

/* Reads the file as a lattice into an output of some places; number and place are those due. */
static void lattice_reader(const char *what, size_t which, size_t number, size_t place, size_t places)
{
    output lent = lend(8, places, values, CURLEW_CONTROLS(m, n));
    uint8_t *copy = copy_file();
    curlew_cells got = curlew_read_lattice(copy, file_len, (int64_t *)(void *)lent.memory, places);
    fields answer = { { got.number, got.place, got.m, got.n } }, due = { { number, place, m, n } };

    report("lattice reader", what, which, answer, due, 4, &lent, 1);
    free(copy);
}

/* The lengths that a point reader or writer is lent. */
typedef struct {
    size_t x, y, z, q, bytes;
} lengths;

static lengths of_points(size_t count, size_t bytes)
{
    lengths len = { count, count, count, count, bytes };

    return len;
}

/* Reads a copy of the file as points into the four outputs. */
static fields read_into(output lent[4])
{
    uint8_t *copy = copy_file();
    curlew_header got = curlew_read_points(copy, file_len, (uint16_t *)(void *)lent[0].memory, lent[0].count,
                                           (uint16_t *)(void *)lent[1].memory, lent[1].count,
                                           (int64_t *)(void *)lent[2].memory, lent[2].count, lent[3].memory, lent[3].count);
    fields answer = { { got.number, got.place, got.m0, got.n0, got.h, got.points } };

    free(copy);
    return answer;
}

/* Reads the file as points into lists of these lengths. */
static void point_reader(const char *what, size_t which, size_t number, size_t place, lengths len)
{
    output lent[4] = { lend(2, len.x, x, points), lend(2, len.y, y, points), lend(8, len.z, z, points), lend(1, len.q, q, points) };
    fields answer = read_into(lent), due = { { number, place, m0, n0, h, points } };

    report(record == PQ ? "PQ reader" : "PT reader", what, which, answer, due, 6, lent, 4);
}

/* Writes the first places of the values as a lattice of these cells into an output of some bytes. */
static void lattice_writer(const char *what, size_t which, size_t number, size_t place, size_t cells_x, size_t cells_y,
                           size_t places, size_t bytes)
{
    output lent = lend(1, bytes, file, file_len);
    curlew_count got = curlew_write_lattice(cells_x, cells_y, values, places, lent.memory, bytes);
    fields answer = { { got.number, got.place, got.count } }, due = { { number, place, file_len } };

    report("lattice writer", what, which, answer, due, 3, &lent, 1);
}

/* Writes the points with the head m0, n0, h. */
static void point_writer(const char *what, size_t which, size_t number, size_t place, lengths len)
{
    output lent = lend(1, len.bytes, file, file_len);
    curlew_count got = curlew_write_points(m0, n0, h, x, len.x, y, len.y, z, len.z, q, len.q, lent.memory, len.bytes);
    fields answer = { { got.number, got.place, got.count } }, due = { { number, place, file_len } };

    report("point writer", what, which, answer, due, 3, &lent, 1);
}

/* ---- what both readers are tried on */

static const size_t lattice_record[] = { 0, 6, 42, 78, 114, 150, 154 };
static const size_t pt_record[] = { 0, 8, 22, 36, 50 };
static const size_t pq_record[] = { 0, 8, 23, 38, 53 };

/* The small files, into slices one longer than they need, or of just that. */
static void small_lattice_reader(const char *what, size_t which, size_t number, size_t place)
{
    lattice_reader(what, which, number, place, 17);
}

static void small_point_reader(const char *what, size_t which, size_t number, size_t place)
{
    static const lengths len = { 3, 4, 3, 5, 0 };

    point_reader(what, which, number, place, len);
}

/* How a kind of file is begun and read, and where its records start; the last start is the file's length. */
typedef struct {
    void (*begin)(void);
    void (*read)(const char *, size_t, size_t, size_t);
    const size_t *start;
    size_t records;
} kind;

static const kind lattice_kind = { small_lattice, small_lattice_reader, lattice_record, 6 };
static const kind pt_kind = { small_points, small_point_reader, pt_record, 4 };
static const kind pq_kind = { small_points, small_point_reader, pq_record, 4 };

/* A file that ends in a record, or before one that is due: 9 at that record's start, whatever of it is there. */
static void cut_files(const kind *k)
{
    size_t record;

    for (record = 0; record < k->records; record++) {
        k->begin();
        file_len = k->start[record + 1] - 1;
        k->read("cut at", file_len, 9, k->start[record]);
        file_len = k->start[record];
        k->read("cut at", file_len, 9, k->start[record]);
    }
    k->begin();
    put(0, 1, 0);
    file_len = 1;
    k->read("mark damaged and cut at", file_len, 9, 0);
}

static void damaged_marks(const kind *k)
{
    size_t record, byte;

    for (record = 0; record < k->records; record++)
        for (byte = k->start[record]; byte < k->start[record] + 2; byte++) {
            k->begin();
            file[byte] ^= 1;
            k->read("mark damaged in byte", byte, 10, k->start[record]);
        }
    k->begin();
    put(0, 8, 0);
    k->read("mark and fields all", 0, 10, 0);
}

static void trailing_bytes(const kind *k)
{
    static const size_t count[] = { 1, 2, 14, 15, 36, 1000 };
    size_t i;

    for (i = 0; i < COUNT(count); i++) {
        k->begin();
        add_trailing(count[i]);
        k->read("trailing bytes", count[i], 12, k->start[k->records]);
    }
}

/* ---- the lattice reader */

/* Changes one u16 field of the small lattice file. */
static void lattice_field(const char *what, size_t at, size_t value, size_t number, size_t place)
{
    small_lattice();
    put(at, 2, value);
    small_lattice_reader(what, value, number, place);
}

static void lattice_heads(void)
{
    lattice_field("m", 2, 0, 11, 2);
    lattice_field("m", 2, 1, 0, 0);
    lattice_field("m", 2, 2, 11, 42);       /* the row at 6 has a fifth value then, at 42: the next row's mark and number */
    lattice_field("m", 2, 512, 9, 6);       /* a row of 4,124 bytes is due at 6 */
    lattice_field("m", 2, 513, 11, 2);
    lattice_field("m", 2, 65535, 11, 2);
    lattice_field("n", 4, 0, 11, 4);
    lattice_field("n", 4, 1, 0, 0);
    lattice_field("n", 4, 2, 9, 150);       /* a fifth row is due at 150, where 4 bytes are left */
    lattice_field("n", 4, 512, 9, 150);
    lattice_field("n", 4, 513, 11, 4);
    lattice_field("n", 4, 65535, 11, 4);
    small_lattice();
    put(2, 4, 0);
    small_lattice_reader("m and n", 0, 11, 2);
    new_lattice(512, 1);
    lattice_reader("cells 512 by", n, 0, 0, CURLEW_CONTROLS(m, n));
    new_lattice(1, 512);
    lattice_reader("cells 1 by", n, 0, 0, CURLEW_CONTROLS(m, n));
}

static void lattice_rows(void)
{
    size_t row, at;

    for (row = 0; row < 4; row++) {
        at = lattice_record[row + 1] + 2;
        lattice_field("row number one above the one due,", at, row + 1, 11, at);
        lattice_field("row number one below the one due,", at, (row - 1) & 0xFFFF, 11, at);
        lattice_field("row number 256 above the one due,", at, row + 256, 11, at);
    }
    lattice_field("closing count", 152, 3, 11, 152);
    lattice_field("closing count", 152, 5, 11, 152);
    lattice_field("closing count", 152, 260, 11, 152);
}

/* Three rows and then the end, at 114: the 36 bytes of the fourth row are due there, and 4 are left, so 9 before 10. */
static void row_missing(void)
{
    small_lattice();
    put_mark(114, "LE");
    put(116, 2, 4);
    file_len = 118;
    small_lattice_reader("rows", 3, 9, 114);
}

/* A fifth row at 150: the 4 bytes of the end are there, but not its mark. */
static void row_too_many(void)
{
    small_lattice();
    memmove(file + 186, file + 150, 4);
    memcpy(file + 150, file + 114, 36);
    put(152, 2, 4);
    file_len = 190;
    small_lattice_reader("rows", 5, 10, 150);
}

static void lattice_value(const char *what, size_t place, int64_t value, size_t number)
{
    small_lattice();
    set_value(place, value);
    small_lattice_reader(what, place, number, number == 0 ? 0 : value_at(place));
}

/* Values 0 to 15 of the small file are at 10, 18, 26, 34, 46 and so on to 142. */
static void lattice_values(void)
{
    static const size_t place[] = { 0, 3, 4, 15 };
    size_t k;

    for (k = 0; k < COUNT(place); k++) {
        lattice_value("highest value at", place[k], HIGHEST, 0);
        lattice_value("one above the highest at", place[k], HIGHEST + 1, 11);
        lattice_value("lowest value at", place[k], -HIGHEST, 0);
        lattice_value("one below the lowest at", place[k], -HIGHEST - 1, 11);
        lattice_value("largest i64 at", place[k], INT64_MAX, 11);
        lattice_value("smallest i64 at", place[k], INT64_MIN, 11);
    }
    small_lattice();
    set_value(5, HIGHEST + 1);
    set_value(9, HIGHEST + 1);
    small_lattice_reader("two values out of range, first", 5, 11, 54);
}

/* 4 comes last: a file that is refused is refused for that, however short the output. */
static void lattice_outputs(void)
{
    small_lattice();
    lattice_reader("output of", 0, 4, 0, 0);
    lattice_reader("output of", 15, 4, 0, 15);
    lattice_reader("output of", 16, 0, 0, 16);
    lattice_reader("output of", 30, 0, 0, 30);
    add_trailing(1);
    lattice_reader("trailing byte and output of", 0, 12, 154, 0);
    file_len = 153;
    lattice_reader("cut and output of", 0, 9, 150, 0);
}

/* 515 rows of 4,124 bytes: the end is at 2,123,866, the last value at 2,123,858. */
static void largest_lattice_reader(void)
{
    size_t places = CURLEW_CONTROLS(512, 512);

    new_lattice(512, 512);
    lattice_reader("largest, bytes", file_len, 0, 0, places);
    lattice_reader("largest, output of", places - 1, 4, 0, places - 1);
    file_len--;
    lattice_reader("largest, cut at", file_len, 9, 2123866, places);
    new_lattice(512, 512);
    add_trailing(1);
    lattice_reader("largest, trailing bytes", 1, 12, 2123870, places);
    new_lattice(512, 512);
    set_value(places - 1, HIGHEST + 1);
    lattice_reader("largest, out of range", places - 1, 11, 2123858, places);
}

/* ---- the point reader */

/* A head of these numbers with three points; the place is that of the field at fault. */
static void point_head(const char *what, size_t cells_x, size_t cells_y, size_t levels, size_t which, size_t number, size_t place)
{
    new_points(cells_x, cells_y, levels, 3);
    small_point_reader(what, which, number, place);
}

static void point_heads(void)
{
    static const struct { size_t cells, number; } side[] = { { 0, 11 }, { 1, 0 }, { 16, 0 }, { 17, 11 }, { 255, 11 } };
    static const struct { size_t h, number; } level[] = { { 0, 0 }, { 5, 0 }, { 6, 11 }, { 255, 11 } };
    size_t k;

    for (k = 0; k < COUNT(side); k++) {
        point_head("m0", side[k].cells, 3, 1, side[k].cells, side[k].number, side[k].number == 0 ? 0 : 2);
        point_head("n0", 2, side[k].cells, 1, side[k].cells, side[k].number, side[k].number == 0 ? 0 : 3);
    }
    for (k = 0; k < COUNT(level); k++)
        point_head("h", 2, 3, level[k].h, level[k].h, level[k].number, level[k].number == 0 ? 0 : 4);
    point_head("all of the head at", 0, 0, 6, 0, 11, 2);
    small_points();
    put(5, 1, 1);
    small_point_reader("zero byte", 1, 11, 5);
    put(5, 1, 128);
    small_point_reader("zero byte", 128, 11, 5);
}

/* Positions run to 16 * m0 * 2^h = 64 along x and to 16 * n0 * 2^h = 96 along y. */
static void point_positions(void)
{
    static const struct { const char *what; uint16_t x, y; size_t number, field; } position[] = {
        { "x at the edge, point", 64, 0, 0, 0 }, { "x past the edge, point", 65, 0, 11, 2 },
        { "largest x, point", 65535, 0, 11, 2 }, { "y at the edge, point", 0, 96, 0, 0 },
        { "y past the edge, point", 0, 97, 11, 4 }, { "largest y, point", 0, 65535, 11, 4 },
        { "x and y at the edge, point", 64, 96, 0, 0 }, { "x and y past the edge, point", 65, 97, 11, 2 }
    };
    size_t k, index;

    for (index = 0; index < 3; index++)
        for (k = 0; k < COUNT(position); k++) {
            small_points();
            set_x(index, position[k].x);
            set_y(index, position[k].y);
            small_point_reader(position[k].what, index, position[k].number,
                         position[k].number == 0 ? 0 : point_at(index) + position[k].field);
        }
}

/* The widest grid, 16 cells at h = 5, ends at 8,192. */
static void widest_grid(void)
{
    new_points(16, 16, 5, 3);
    set_x(0, 8192);
    set_y(0, 8192);
    small_point_reader("widest grid, position", 8192, 0, 0);
    set_y(0, 8193);
    small_point_reader("widest grid, y", 8193, 11, 12);
    set_x(0, 8193);
    small_point_reader("widest grid, x", 8193, 11, 10);
}

static void point_height(const char *what, size_t index, int64_t value, size_t number)
{
    small_points();
    set_z(index, value);
    small_point_reader(what, index, number, number == 0 ? 0 : point_at(index) + 6);
}

static void point_heights(void)
{
    size_t index;

    for (index = 0; index < 3; index++) {
        point_height("highest z at", index, HIGHEST, 0);
        point_height("one above the highest z at", index, HIGHEST + 1, 11);
        point_height("lowest z at", index, -HIGHEST, 0);
        point_height("one below the lowest z at", index, -HIGHEST - 1, 11);
        point_height("largest i64 as z at", index, INT64_MAX, 11);
        point_height("smallest i64 as z at", index, INT64_MIN, 11);
    }
}

/* Where p is not the number of points that follow. Record by record: a fault in point 0 comes before a missing point. */
static void point_counts(void)
{
    small_points();
    put(6, 2, 2);
    small_point_reader("p one too few, p", 2, 12, point_at(2));
    put(6, 2, 4);
    small_point_reader("p one too many, p", 4, 9, point_at(3));
    put(6, 2, 0);
    small_point_reader("p none of three, p", 0, 12, 8);
    put(6, 2, 65535);
    small_point_reader("p all of three, p", 65535, 9, point_at(3));
    set_z(0, HIGHEST + 1);
    small_point_reader("z out of range before the cut, p", 65535, 11, 14);
    new_points(1, 1, 0, 0);
    point_reader("p", 0, 0, 0, of_points(0, 0));
    point_reader("p 0, lists of", 2, 0, 0, of_points(2, 0));
}

static void most_points(void)
{
    lengths len = of_points(MOST_POINTS, 0);

    new_points(16, 16, 5, MOST_POINTS);
    len.z++;
    point_reader("p", points, 0, 0, len);
    len.z -= 2;
    point_reader("p 65535, z list of", len.z, 4, 0, len);
    len.z = points;
    len.q--;
    point_reader("p 65535, q list of", len.q, 4, 0, len);
}

static void point_outputs(void)
{
    static const lengths shorter[] = { { 2, 3, 3, 3, 0 }, { 3, 2, 3, 3, 0 }, { 3, 3, 2, 3, 0 }, { 3, 3, 3, 2, 0 } };
    static const char *const what[] = { "x list of", "y list of", "z list of", "q list of" };
    size_t k;

    small_points();
    for (k = 0; k < COUNT(shorter); k++)
        point_reader(what[k], 2, 4, 0, shorter[k]);
    point_reader("lists of", 0, 4, 0, of_points(0, 0));
    point_reader("lists of", 3, 0, 0, of_points(3, 0));
    point_reader("lists of", 9, 0, 0, of_points(9, 0));
    add_trailing(1);
    point_reader("trailing byte and lists of", 2, 12, point_at(3), of_points(2, 0));
    file_len = point_at(3) - 1;
    point_reader("cut and lists of", 0, 9, point_at(2), of_points(0, 0));
}

/* ---- the two kinds of point record */

/*
 * A first record of this mark with so many bytes left. Under 14 it is 9 before its mark is read; with 14 a PT is whole, a PQ is 9 and
 * any other mark 10; with 15 a PT has a byte after it, at 22. The byte of q is 1, which no PT has.
 */
static void first_records(void)
{
    static const struct { const char *what, *mark; size_t bytes, left, number, place; } first[] = {
        { "first PT, bytes left", "PT", PT, 13, 9, 8 }, { "first PT, bytes left", "PT", PT, 14, 0, 0 },
        { "first PT, bytes left", "PT", PT, 15, 12, 22 }, { "first PQ, bytes left", "PQ", PQ, 13, 9, 8 },
        { "first PQ, bytes left", "PQ", PQ, 14, 9, 8 }, { "first PQ, bytes left", "PQ", PQ, 15, 0, 0 },
        { "first PQ, bytes left", "PQ", PQ, 16, 12, 23 }, { "first XX, bytes left", "XX", PT, 13, 9, 8 },
        { "first XX, bytes left", "XX", PT, 14, 10, 8 }, { "first XX, bytes left", "XX", PT, 15, 10, 8 },
        { "first QP, bytes left", "QP", PT, 15, 10, 8 }, { "first PT, bytes left", "PT", PT, 0, 9, 8 },
        { "first PQ, bytes left", "PQ", PQ, 1, 9, 8 }, { "first PQ, bytes left", "PQ", PQ, 2, 9, 8 },
    };
    size_t k;

    for (k = 0; k < COUNT(first); k++) {
        record = first[k].bytes;
        new_points(2, 3, 1, 1);
        put_mark(8, first[k].mark);
        put(22, 2, 1);
        file_len = 8 + first[k].left;
        point_reader(first[k].what, first[k].left, first[k].number, first[k].place, of_points(1, 0));
    }
}

/*
 * The last of three records has another mark, and so many bytes are left of it. It is measured by the kind that the first has set,
 * before its mark is read: in a PT file, where it is at 36, from 14 bytes on it is 10; in a PQ file, at 38, from 15 on.
 */
static void later_records(void)
{
    static const struct { const char *what, *mark; size_t bytes, left, number, place; } later[] = {
        { "PQ after PT, bytes left", "PQ", PT, 13, 9, 36 }, { "PQ after PT, bytes left", "PQ", PT, 14, 10, 36 },
        { "PQ after PT, bytes left", "PQ", PT, 15, 10, 36 }, { "XX after PT, bytes left", "XX", PT, 13, 9, 36 },
        { "XX after PT, bytes left", "XX", PT, 14, 10, 36 }, { "PT after PT, bytes left", "PT", PT, 14, 0, 0 },
        { "PT after PQ, bytes left", "PT", PQ, 13, 9, 38 }, { "PT after PQ, bytes left", "PT", PQ, 14, 9, 38 },
        { "PT after PQ, bytes left", "PT", PQ, 15, 10, 38 }, { "XX after PQ, bytes left", "XX", PQ, 14, 9, 38 },
        { "XX after PQ, bytes left", "XX", PQ, 15, 10, 38 }, { "PQ after PQ, bytes left", "PQ", PQ, 14, 9, 38 },
        { "PQ after PQ, bytes left", "PQ", PQ, 15, 0, 0 },
    };
    size_t k;

    for (k = 0; k < COUNT(later); k++) {
        record = later[k].bytes;
        small_points();
        put_mark(point_at(2), later[k].mark);
        if (record == PT)
            put(point_at(3), 1, 1);
        file_len = point_at(2) + later[k].left;
        small_point_reader(later[k].what, later[k].left, later[k].number, later[k].place);
    }
}

/* A record in the middle whose own length fits its mark: it is the first that differs, and is 10 though the next is of the kind. */
static void mixed_kinds(void)
{
    record = PQ;
    small_points();
    put_mark(23, "PT");
    memmove(file + 37, file + 38, 15);          /* without its q */
    file_len = 52;
    small_point_reader("a PT between two PQ, at", 23, 10, 23);
    record = PT;
    small_points();
    put_mark(22, "PQ");
    memmove(file + 37, file + 36, 14);
    put(36, 1, 7);
    file_len = 51;
    small_point_reader("a PQ between two PT, at", 22, 10, 22);
}

/* The q of the points is at 22, 37 and 52, after the z at 14, 29 and 44. */
static void point_confidences(void)
{
    static const uint8_t good[] = { 1, 2, 127, 128, 254, 255 };
    size_t k, index;

    record = PQ;
    for (k = 0; k < COUNT(good); k++) {
        small_points();
        set_q(1, good[k]);
        small_point_reader("q of point 1", good[k], 0, 0);
    }
    for (index = 0; index < 3; index++) {
        small_points();
        set_q(index, 0);
        small_point_reader("q 0 at", index, 11, point_at(index) + 14);
        set_z(index, -HIGHEST - 1);
        small_point_reader("q 0 and z below the lowest at", index, 11, point_at(index) + 6);
    }
    small_points();
    set_q(0, 0);
    put_mark(23, "PT");
    small_point_reader("q 0 before a PT at", 23, 11, 22);
    set_q(0, 1);
    set_q(2, 0);
    small_point_reader("a PT before q 0, at", 23, 10, 23);
}

/* A file of no points is of no kind: whatever begins after its head is too much. */
static void no_points(void)
{
    record = PQ;
    new_points(2, 3, 1, 0);
    put_mark(8, "PQ");
    file_len = 9;
    point_reader("no points, bytes after", 1, 12, 8, of_points(0, 0));
    file_len = 23;
    point_reader("no points, a PQ record after, bytes", 15, 12, 8, of_points(1, 0));
    put_mark(8, "PT");
    file_len = 22;
    point_reader("no points, a PT record after, bytes", 14, 12, 8, of_points(1, 0));
}

/* ---- the lattice writer */

static void lattice_writer_cells(void)
{
    static const size_t bad[] = { 0, 513, 65537, SIZE_MAX };
    size_t k;

    small_lattice();
    for (k = 0; k < COUNT(bad); k++) {
        lattice_writer("m", bad[k], 1, 0, bad[k], 1, 16, 154);
        lattice_writer("n", bad[k], 1, 0, 1, bad[k], 16, 154);
    }
    lattice_writer("no slices and m", 513, 1, 0, 513, 1, 0, 0);
    lattice_writer("slices for 1 by 1 and m", 512, 4, 0, 512, 1, 16, 154);
    new_lattice(512, 1);
    lattice_writer("cells 512 by", n, 0, 0, m, n, CURLEW_CONTROLS(m, n), file_len);
    new_lattice(1, 512);
    lattice_writer("cells 1 by", n, 0, 0, m, n, CURLEW_CONTROLS(m, n), file_len);
}

static void lattice_writer_slices(void)
{
    small_lattice();
    lattice_writer("lattice of", 0, 4, 0, 1, 1, 0, 154);
    lattice_writer("lattice of", 15, 4, 0, 1, 1, 15, 154);
    lattice_writer("output of", 0, 4, 0, 1, 1, 16, 0);
    lattice_writer("output of", 153, 4, 0, 1, 1, 16, 153);
    lattice_writer("output of", 154, 0, 0, 1, 1, 16, 154);
    lattice_writer("output of", 200, 0, 0, 1, 1, 16, 200);
    values[16] = HIGHEST + 1;
    lattice_writer("out of range past the lattice, lattice of", 17, 0, 0, 1, 1, 17, 154);
    values[0] = HIGHEST + 1;
    lattice_writer("out of range and output of", 153, 4, 0, 1, 1, 16, 153);
}

static void lattice_writer_value(const char *what, size_t place, int64_t value, size_t number)
{
    small_lattice();
    set_value(place, value);
    lattice_writer(what, place, number, number == 0 ? 0 : place, 1, 1, 16, 160);
}

static void lattice_writer_values(void)
{
    static const size_t place[] = { 0, 7, 15 };
    size_t k;

    for (k = 0; k < COUNT(place); k++) {
        lattice_writer_value("highest value at", place[k], HIGHEST, 0);
        lattice_writer_value("one above the highest at", place[k], HIGHEST + 1, 6);
        lattice_writer_value("lowest value at", place[k], -HIGHEST, 0);
        lattice_writer_value("one below the lowest at", place[k], -HIGHEST - 1, 6);
        lattice_writer_value("smallest i64 at", place[k], INT64_MIN, 6);
    }
    small_lattice();
    values[5] = values[9] = INT64_MAX;
    lattice_writer("two values out of range, first", 5, 6, 5, 1, 1, 16, 154);
}

static void largest_lattice_writer(void)
{
    size_t places = CURLEW_CONTROLS(512, 512);

    new_lattice(512, 512);
    lattice_writer("largest, output of", file_len, 0, 0, 512, 512, places, file_len);
    lattice_writer("largest, output of", file_len - 1, 4, 0, 512, 512, places, file_len - 1);
    lattice_writer("largest, lattice of", places - 1, 4, 0, 512, 512, places - 1, file_len);
    values[places - 1] = -HIGHEST - 1;
    lattice_writer("largest, out of range", places - 1, 6, places - 1, 512, 512, places, file_len);
}

/* ---- the point writer */

/* Another head over three points: the file of that head is due where it is accepted. */
static void point_writer_head(const char *what, size_t cells_x, size_t cells_y, size_t levels, size_t which, size_t number)
{
    new_points(1, 1, 0, 3);
    m0 = cells_x;
    n0 = cells_y;
    h = levels;
    put(2, 1, m0);
    put(3, 1, n0);
    put(4, 1, h);
    point_writer(what, which, number, 0, of_points(3, 53));
}

static void point_writer_heads(void)
{
    static const struct { size_t cells, number; } side[] = {
        { 0, 1 }, { 1, 0 }, { 16, 0 }, { 17, 1 }, { 257, 1 }, { SIZE_MAX, 1 }
    };
    size_t k;

    for (k = 0; k < COUNT(side); k++) {
        point_writer_head("m0", side[k].cells, 3, 1, side[k].cells, side[k].number);
        point_writer_head("n0", 2, side[k].cells, 1, side[k].cells, side[k].number);
    }
    point_writer_head("h", 2, 3, 0, 0, 0);
    point_writer_head("h", 2, 3, 5, 5, 0);
    point_writer_head("h", 2, 3, 6, 6, 2);
    point_writer_head("h", 2, 3, 64, 64, 2);
    point_writer_head("h", 2, 3, SIZE_MAX, SIZE_MAX, 2);
    point_writer_head("h 6 and m0", 17, 3, 6, 17, 1);
}

static void point_writer_lists(void)
{
    static const struct { lengths len; size_t number; } lent[] = {
        { { 2, 3, 3, 3, 53 }, 3 }, { { 3, 2, 3, 3, 53 }, 3 }, { { 3, 3, 2, 3, 53 }, 3 }, { { 3, 3, 3, 2, 53 }, 3 },
        { { 3, 3, 3, 4, 53 }, 3 }, { { 3, 3, 3, 0, 0 }, 3 }, { { 3, 2, 2, 2, 0 }, 3 }, { { 3, 3, 3, 3, 0 }, 4 },
        { { 3, 3, 3, 3, 50 }, 4 }, { { 3, 3, 3, 3, 52 }, 4 }, { { 3, 3, 3, 3, 53 }, 0 }, { { 3, 3, 3, 3, 93 }, 0 }
    };
    size_t k;

    small_points();
    for (k = 0; k < COUNT(lent); k++) {
        const lengths *len = &lent[k].len;

        point_writer("lengths of x, y, z, q and output",
                     len->x * 100000 + len->y * 10000 + len->z * 1000 + len->q * 100 + len->bytes, lent[k].number, 0, *len);
    }
    h = 6;
    point_writer("lists differ and h", h, 2, 0, lent[0].len);
    new_points(1, 1, 0, 0);
    point_writer("no points, output of", 7, 4, 0, of_points(0, 7));
    point_writer("no points, output of", 8, 0, 0, of_points(0, 8));
    new_points(16, 16, 5, MOST_POINTS);
    point_writer("points", points, 0, 0, of_points(points, file_len));
    point_writer("points 65535, output of", file_len - 1, 4, 0, of_points(points, file_len - 1));
    point_writer("points", points + 1, 3, 0, of_points(points + 1, CURLEW_POINT_FILE(points + 1)));
}

/* One point of the three is changed; the place of 5, 6 and 17 is its index, and they are asked in this order. */
static void point_writer_points(void)
{
    static const struct { const char *what; uint16_t x, y; int64_t z; uint8_t q; size_t number; } point[] = {
        { "x and y at the edge, point", 64, 96, 0, 1, 0 }, { "x past the edge, point", 65, 0, 0, 1, 5 },
        { "y past the edge, point", 0, 97, 0, 1, 5 }, { "largest x, point", 65535, 0, 0, 1, 5 },
        { "highest z, point", 0, 0, HIGHEST, 1, 0 }, { "above the highest z, point", 0, 0, HIGHEST + 1, 1, 6 },
        { "lowest z, point", 0, 0, -HIGHEST, 1, 0 }, { "below the lowest z, point", 0, 0, -HIGHEST - 1, 1, 6 },
        { "all past their ends, point", 65, 97, INT64_MIN, 0, 5 }, { "q 255, point", 0, 0, 0, 255, 0 },
        { "q 0, point", 0, 0, 0, 0, 17 }, { "q 0 and y past the edge, point", 0, 97, 0, 0, 5 },
        { "q 0 and below the lowest z, point", 0, 0, -HIGHEST - 1, 0, 6 }
    };
    size_t k, index;

    for (index = 0; index < 3; index++)
        for (k = 0; k < COUNT(point); k++) {
            small_points();
            set_x(index, point[k].x);
            set_y(index, point[k].y);
            set_z(index, point[k].z);
            set_q(index, point[k].q);
            point_writer(point[k].what, index, point[k].number, point[k].number == 0 ? 0 : index, of_points(3, 58));
        }
}

/* Points go in list order, 5 before 6 before 17 only within a point; 4 comes before all. */
static void point_writer_order(void)
{
    small_points();
    z[1] = INT64_MAX;
    x[2] = 65;
    point_writer("z of point 1 before x of point", 2, 6, 1, of_points(3, 53));
    q[0] = 0;
    point_writer("q of point 0 before z of point", 1, 17, 0, of_points(3, 53));
    y[0] = 97;
    point_writer("y of point 0 before z of point", 1, 5, 0, of_points(3, 53));
    point_writer("y past the edge and output of", 52, 4, 0, of_points(3, 52));
    h = 5;
    q[0] = 1;
    x[2] = 1025;
    z[1] = 0;
    point_writer("x past the edge at h 5, x", 1025, 5, 2, of_points(3, 53));
    q[1] = q[2] = 0;
    point_writer("q of point 1 before x of point", 2, 17, 1, of_points(3, 53));
}

/* ---- what was read, written again */

/* Begins the PQ form of the file of this kind: the same points, and where they had no q a q of 1. */
static void begin_form(size_t bytes, size_t count)
{
    size_t k;

    record = PQ;
    new_points(2, 3, 1, count);
    for (k = 0; bytes == PT && k < count; k++)
        set_q(k, 1);
}

/* Reads a file of this kind and so many points, and writes what was read: its PQ form is due. */
static void rewriter(const char *what, size_t bytes, size_t count)
{
    output lent[4] = { lend(2, count, NULL, 0), lend(2, count, NULL, 0), lend(8, count, NULL, 0), lend(1, count, NULL, 0) }, made;
    fields head, answer = { { 0 } }, due = { { 0 } };
    curlew_count got;
    size_t k;

    record = bytes;
    new_points(2, 3, 1, count);
    head = read_into(lent);
    begin_form(bytes, count);
    made = lend(1, file_len + 1, file, file_len);
    got = curlew_write_points(head.field[2], head.field[3], head.field[4], (uint16_t *)(void *)lent[0].memory, count,
                              (uint16_t *)(void *)lent[1].memory, count, (int64_t *)(void *)lent[2].memory, count,
                              lent[3].memory, count, made.memory, made.count);
    answer.field[0] = head.field[0] + got.number;
    answer.field[1] = head.field[1] + got.place;
    answer.field[2] = got.count;
    due.field[2] = file_len;
    report("rewriter", what, count, answer, due, 3, &made, 1);
    for (k = 0; k < COUNT(lent); k++)
        free(lent[k].memory);
}

static void rewriters(void)
{
    static const size_t count[] = { 0, 1, 3, 535, MOST_POINTS };
    size_t k;

    for (k = 0; k < COUNT(count); k++) {
        rewriter("PT points", PT, count[k]);
        rewriter("PQ points", PQ, count[k]);
    }
}

/* The point reader on files of one kind. */
static void point_readers(const kind *k, size_t bytes)
{
    record = bytes;
    cut_files(k);
    damaged_marks(k);
    trailing_bytes(k);
    point_heads();
    point_positions();
    widest_grid();
    point_heights();
    point_counts();
    most_points();
    point_outputs();
}

static void readers(void)
{
    cut_files(&lattice_kind);
    damaged_marks(&lattice_kind);
    trailing_bytes(&lattice_kind);
    lattice_heads();
    lattice_rows();
    row_missing();
    row_too_many();
    lattice_values();
    lattice_outputs();
    largest_lattice_reader();
    point_readers(&pt_kind, PT);
    point_readers(&pq_kind, PQ);
    first_records();
    later_records();
    mixed_kinds();
    point_confidences();
    no_points();
}

static void writers(void)
{
    lattice_writer_cells();
    lattice_writer_slices();
    lattice_writer_values();
    largest_lattice_writer();
    record = PQ;
    point_writer_heads();
    point_writer_lists();
    point_writer_points();
    point_writer_order();
    rewriters();
}

int main(void)
{
    readers();
    writers();
    return any_wrong;
}
