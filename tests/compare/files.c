/*
 * Cases of the two files: each file is written by the library, damaged or not, and read back. The writer writes PQ records; point files
 * of PT records, and of both, are made of its bytes here.
 */
#include "cases.h"
#include "trial.h"

#include "../../include/curlewtable.h"

#include <string.h>

/* A file as it was written: a header, so many records of equal length, and for a lattice a closing record. */
typedef struct {
    function reader;
    uint8_t *bytes;
    size_t length;
    size_t header, record, records;             /* bytes, bytes, how many */
    size_t far_x, far_y;                        /* of a point file's grid */
} file;

#define HEADER_BYTES 8                          /* of a point file */
#define PT_BYTES 14
#define PQ_BYTES 15

/* Where record i starts; the closing record is the one after the last. */
static size_t record_start(const file *f, size_t i)
{
    return f->header + i * f->record;
}

/* A copy of a file in memory of its own, which is made when it is first needed. */
static uint8_t *copy_to(uint8_t **memory, const uint8_t *bytes, size_t length)
{
    if (*memory == NULL)
        *memory = room(capacity[BYTES], 1);
    memcpy(*memory, bytes, length);
    return *memory;
}

/* ---- the two kinds of point record ---- */

/* Puts a record down as one of either kind, and returns what follows it. A PT has q 1. */
static uint8_t *put_record(uint8_t *to, const uint8_t *record, int from_pq, int as_pq)
{
    memcpy(to, record, PT_BYTES);
    if (from_pq != as_pq)
        to[1] = as_pq ? 'Q' : 'T';
    if (as_pq)
        to[PT_BYTES] = from_pq ? record[PT_BYTES] : 1;
    return to + (as_pq ? PQ_BYTES : PT_BYTES);
}

/* Makes records of the other kind of some of a point file's, which may not be cut: all of it then is of that kind, or it is mixed. */
static void change_kind(file *f, size_t from, size_t to)
{
    static uint8_t *memory;
    const uint8_t *copy = copy_to(&memory, f->bytes, f->length);
    const size_t rest = record_start(f, f->records);
    const int are_pq = f->record == PQ_BYTES;
    uint8_t *at = f->bytes + record_start(f, from);
    size_t i;

    for (i = from; i < f->records; i++)
        at = put_record(at, copy + record_start(f, i), are_pq, i < to ? !are_pq : are_pq);
    memcpy(at, copy + rest, f->length - rest);
    f->length = f->length - rest + (size_t)(at - f->bytes);
    if (from == 0 && to == f->records)
        f->record = are_pq ? PT_BYTES : PQ_BYTES;
}

/* The PQ form of a point file that a reader accepts, until the next. */
static const uint8_t *pq_form(const uint8_t *bytes, size_t points)
{
    static uint8_t *form;
    const uint8_t *record = bytes + HEADER_BYTES;
    const int are_pq = points > 0 && record[1] == 'Q';
    uint8_t *to = copy_to(&form, bytes, HEADER_BYTES) + HEADER_BYTES;
    size_t i;

    for (i = 0; i < points; i++, record += are_pq ? PQ_BYTES : PT_BYTES)
        to = put_record(to, record, are_pq, 1);
    return form;
}

/* ---- fields ---- */

typedef struct {
    size_t offset, width;
} field;

static field some_lattice_field(generator *g, const file *f)
{
    const size_t row = record_start(f, below(g, f->records));
    const field fields[] = {
        { 2, 2 },                                                       /* m */
        { 4, 2 },                                                       /* n */
        { row + 2, 2 },                                                 /* row number */
        { row + 4 + 8 * below(g, (f->record - 4) / 8), 8 },             /* control value */
        { record_start(f, f->records) + 2, 2 },                         /* closing count */
    };
    return fields[below(g, COUNT(fields))];
}

static field some_point_field(generator *g, const file *f)
{
    const size_t point = record_start(f, f->records == 0 ? 0 : below(g, f->records));
    const field fields[] = {
        { 2, 1 }, { 3, 1 }, { 4, 1 }, { 5, 1 }, { 6, 2 },               /* m0, n0, h, the zero byte, p */
        { point + 2, 2 }, { point + 4, 2 }, { point + 6, 8 },           /* x, y, z */
        { point + PT_BYTES, 1 },                                        /* q */
    };
    return fields[below(g, COUNT(fields) - (f->record == PT_BYTES))];
}

static uint64_t get_field(const file *f, field at)
{
    uint64_t value = 0;
    size_t byte;

    for (byte = at.width; byte-- > 0; )
        value = value << 8 | f->bytes[at.offset + byte];
    return value;
}

static void put_field(file *f, field at, uint64_t value)
{
    size_t byte;
    for (byte = 0; byte < at.width; byte++)
        f->bytes[at.offset + byte] = (uint8_t)(value >> 8 * byte);
}

/* A value at, below or above a bound of a field of this width. */
static uint64_t some_bound(generator *g, const file *f, field at)
{
    const uint64_t now = get_field(f, at);
    const uint64_t of_one[] = { 0, 1, 5, 6, 15, 16, 17, 255, now - 1, now + 1 };
    const uint64_t of_two[] = {
        0, 1, 511, 512, 513, 65535, now - 1, now + 1, f->far_x, f->far_x + 1, f->far_y, f->far_y + 1
    };
    const int64_t of_eight[] = {
        LIMIT - 1, LIMIT, LIMIT + 1, 1 - LIMIT, -LIMIT, -LIMIT - 1, INT64_MAX, INT64_MIN, 0, -1
    };

    if (at.width == 1)
        return of_one[below(g, COUNT(of_one))];
    if (at.width == 2)
        return of_two[below(g, COUNT(of_two))];
    return (uint64_t)(once_in(g, 4) ? wrong_value(g) : of_eight[below(g, COUNT(of_eight))]);
}

/* ---- damage; each kind leaves a file that is already too short for it alone ---- */

static void damage_field(generator *g, file *f)
{
    const field at = f->reader == READ_LATTICE ? some_lattice_field(g, f) : some_point_field(g, f);

    if (at.offset + at.width <= f->length)
        put_field(f, at, some_bound(g, f, at));
}

/* The start of the header, of a record or of the closing record. */
static size_t some_boundary(generator *g, const file *f)
{
    return once_in(g, 4) ? 0 : record_start(f, below(g, f->records + 1));
}

/* Puts another letter in a mark, or another mark. */
static void damage_mark(generator *g, file *f)
{
    static const char marks[][3] = { "LH", "LR", "LE", "PH", "PT", "LD", "PQ", "HL" };
    const size_t start = some_boundary(g, f);

    if (start + 2 > f->length)
        return;
    if (once_in(g, 2))
        memcpy(f->bytes + start, marks[below(g, COUNT(marks))], 2);
    else
        f->bytes[start + below(g, 2)] ^= (uint8_t)(1u << below(g, 8));
}

/* Makes a record one of the other kind, or all from it on, in the bytes that it takes; or puts the other mark before it alone. */
static void mix_kinds(generator *g, file *f)
{
    const size_t from = f->records == 0 ? 0 : below(g, f->records);

    if (f->reader == READ_LATTICE || f->records == 0 || f->length < record_start(f, f->records)
        || f->length + f->records > capacity[BYTES])
        damage_mark(g, f);
    else if (once_in(g, 3))
        f->bytes[record_start(f, from) + 1] ^= 'T' ^ 'Q';
    else
        change_kind(f, from, once_in(g, 2) ? from + 1 : f->records);
}

static void cut(generator *g, file *f)
{
    size_t length = once_in(g, 2) ? some_boundary(g, f) : below(g, f->length + 1);

    if (once_in(g, 4))                          /* beside a boundary, or in a point's record */
        length += once_in(g, 3) ? below(g, PQ_BYTES) : once_in(g, 2) ? 1 : (size_t)(length > 0 ? -1 : 0);
    if (length < f->length)
        f->length = length;
}

static void drop_record(generator *g, file *f)
{
    const size_t start = record_start(f, below(g, f->records + 1));

    if (start + f->record > f->length)
        return;
    memmove(f->bytes + start, f->bytes + start + f->record, f->length - start - f->record);
    f->length -= f->record;
}

static void double_record(generator *g, file *f)
{
    const size_t start = record_start(f, below(g, f->records + 1));

    if (start + f->record > f->length || f->length + f->record > capacity[BYTES])
        return;
    memmove(f->bytes + start + f->record, f->bytes + start, f->length - start);
    f->length += f->record;
}

static void append(generator *g, file *f)
{
    size_t more = 1 + below(g, 20);

    if (f->length + more > capacity[BYTES])
        return;
    while (more-- > 0)
        f->bytes[f->length++] = (uint8_t)draw(g);
}

static void damage_bytes(generator *g, file *f)
{
    size_t changes = 1 + below(g, 3);

    while (f->length > 0 && changes-- > 0)
        f->bytes[below(g, f->length)] = (uint8_t)draw(g);
}

/* Nothing of the file is left, but for the first mark half of the time. */
static void replace_all(generator *g, file *f)
{
    size_t at;

    f->length = below(g, f->length < 300 ? f->length + 1 : 300);
    for (at = once_in(g, 2) ? 0 : 2; at < f->length; at++)
        f->bytes[at] = (uint8_t)draw(g);
}

static void some_damage(generator *g, file *f)
{
    static void (*const kinds[])(generator *g, file *f) = {
        damage_field, damage_field, damage_field, damage_mark, damage_mark, mix_kinds, mix_kinds, cut, cut,
        drop_record, double_record, append, damage_bytes, replace_all,
    };
    kinds[below(g, COUNT(kinds))](g, f);
}

/* ---- writing and reading ---- */

static file written(const draft *writer, answer a)
{
    const size_t *v = writer->call.number;
    file f = { READ_POINTS, writer->call.slice[BYTES].at, (size_t)a.field[FIRST], HEADER_BYTES, PQ_BYTES, writer->exact[Z],
               writer->far_x, writer->far_y };

    if (writer->call.function == WRITE_LATTICE) {
        f.reader = READ_LATTICE;
        f.header = 6;
        f.record = 4 + 8 * (v[M] + 3);
        f.records = v[N] + 3;
    }
    return f;
}

/* A call that reads the file, with outputs that are long enough for the file that was written. */
static draft reading(generator *g, const file *f)
{
    draft d = new_draft(f->reader);
    role r;

    d.call.slice[BYTES].length = f->length;
    if (f->reader == READ_LATTICE)
        lend(g, &d, VALUES, (f->record - 4) / 8 * f->records);
    else
        for (r = X; r <= Q; r++)
            lend(g, &d, r, f->records);
    return d;
}

/* A copy of a file, until the next. */
static const uint8_t *keep(const uint8_t *bytes, size_t length)
{
    static uint8_t *kept;
    return copy_to(&kept, bytes, length);
}

/* What was read of a lattice file, written again, must be the file that was read. */
static void lattice_again(draft *writer, const draft *reader, const uint8_t *file_bytes, size_t length)
{
    call *c = &writer->call;

    memcpy(c->slice[LATTICE].at, reader->call.slice[VALUES].at, reader->exact[VALUES] * sizeof(int64_t));
    trial(c);
    if (memcmp(c->slice[BYTES].at, file_bytes, length) != 0)
        trial_failed(c, "written again, the file is another");
}

/* Reads the file that was just written, its PQ form: answer and lists must be those that the first file gave. */
static void read_form(generator *g, const file *form, answer first)
{
    static uint8_t *before[SLICES];
    draft reader;
    answer second;
    role r;

    for (r = X; r <= Q; r++) {
        if (before[r] == NULL)
            before[r] = room(capacity[r], element_size[r]);
        memcpy(before[r], new_draft(READ_POINTS).call.slice[r].at, form->records * element_size[r]);
    }
    reader = reading(g, form);
    second = trial(&reader.call);
    if (memcmp(&first, &second, sizeof first) != 0)
        trial_failed(&reader.call, "a point file and its PQ form have two answers");
    for (r = X; r <= Q; r++)
        if (memcmp(before[r], reader.call.slice[r].at, form->records * element_size[r]) != 0)
            trial_failed(&reader.call, "a point file and its PQ form have two lists of points");
}

/* What was read of a point file, written again, must be the file's PQ form, and that must be read alike. */
static void points_again(generator *g, answer header, const uint8_t *file_bytes)
{
    const size_t points = (size_t)header.field[FIELDS - 1], length = HEADER_BYTES + PQ_BYTES * points;
    const uint8_t *form = pq_form(file_bytes, points);
    draft writer = new_draft(WRITE_POINTS);
    file f;
    answer a;
    role r;

    writer.call.number[M] = (size_t)header.field[FIRST];
    writer.call.number[N] = (size_t)header.field[SECOND];
    writer.call.number[H] = (size_t)header.field[SECOND + 1];
    for (r = X; r <= Q; r++)                    /* the reader has left them there */
        writer.exact[r] = writer.call.slice[r].length = points;
    lend(g, &writer, BYTES, length);
    a = trial(&writer.call);
    if (a.field[NUMBER] != 0 || a.field[FIRST] != length || memcmp(writer.call.slice[BYTES].at, form, length) != 0)
        trial_failed(&writer.call, "written again, the file is not its PQ form");
    f = written(&writer, a);
    read_form(g, &f, header);
}

static void file_case(generator *g, draft *writer)
{
    const answer a = trial(&writer->call);
    const uint8_t *kept;
    draft reader;
    answer read;
    file f;
    int damaged;
    size_t damages;

    if (a.field[NUMBER] != 0)
        return;
    f = written(writer, a);
    if (f.reader == READ_POINTS && once_in(g, 2))
        change_kind(&f, 0, f.records);
    damages = once_in(g, 4) ? 0 : once_in(g, 2) ? 1 : 2 + below(g, 3);
    damaged = damages > 0;
    while (damages-- > 0)
        some_damage(g, &f);
    kept = keep(f.bytes, f.length);

    reader = reading(g, &f);
    if (once_in(g, 4))
        shorten(g, &reader, some_role(g, shapes[f.reader].written));
    read = trial(&reader.call);
    if (read.field[NUMBER] == 0 && f.reader == READ_POINTS)
        points_again(g, read, kept);
    else if (read.field[NUMBER] == 0 && !damaged)
        lattice_again(writer, &reader, kept, f.length);
}

void lattice_file_case(generator *g, size_class size)
{
    draft d = new_draft(WRITE_LATTICE);

    some_cells(g, &d, size);
    some_lattice(g, &d);
    lend(g, &d, BYTES, CURLEW_LATTICE_FILE(d.call.number[M], d.call.number[N]));
    if (once_in(g, 3))
        some_troubles(g, &d, some_trouble);
    file_case(g, &d);
}

void point_file_case(generator *g, size_class size)
{
    draft d = new_draft(WRITE_POINTS);

    some_fit_grid(g, &d, size);
    some_points(g, &d, some_point_count(g, size));
    lend(g, &d, BYTES, CURLEW_POINT_FILE(d.exact[Z]));
    if (once_in(g, 3))
        some_troubles(g, &d, points_trouble);
    file_case(g, &d);
}

/* ---- every damage of a small file ---- */

/* Reads the first bytes of the kept file, with one byte changed. */
static void read_changed(generator *g, const file *f, const uint8_t *kept, size_t length, size_t at, unsigned value)
{
    file changed = *f;
    draft d;

    memcpy(changed.bytes, kept, f->length);
    changed.length = length;
    if (at < length)
        changed.bytes[at] = (uint8_t)value;
    d = reading(g, &changed);
    trial(&d.call);
}

static void every_damage_of(generator *g, const file *f, int few_values)
{
    const uint8_t *kept = keep(f->bytes, f->length);
    size_t length, at;
    unsigned value;

    for (length = 0; length <= f->length; length++)
        read_changed(g, f, kept, length, length, 0);
    for (at = 0; at < f->length; at++)
        for (value = 0; value < 256; value += few_values ? 51 : 1)
            read_changed(g, f, kept, f->length, at, value);
}

/* Three records, each a PQ or a PT as its bit says: all files of one kind, and all that are mixed. */
static void every_kind_of(generator *g, const file *of_pq, int few_values)
{
    static uint8_t *memory;
    const uint8_t *copy = copy_to(&memory, of_pq->bytes, of_pq->length);
    unsigned kinds;
    size_t i;

    for (kinds = 0; kinds < 1u << of_pq->records; kinds++) {
        file f = *of_pq;
        uint8_t *to = f.bytes + f.header;

        memcpy(f.bytes, copy, f.length);
        for (i = 0; i < f.records; i++)
            to = put_record(to, copy + record_start(&f, i), 1, (kinds >> i & 1) == 0);
        f.length = (size_t)(to - f.bytes);
        every_damage_of(g, &f, few_values);
    }
}

void every_file_damage(int few_values)
{
    generator g = { 1 };
    draft lattice = new_draft(WRITE_LATTICE), points = new_draft(WRITE_POINTS);
    file f;

    trial_name("every damage of a small lattice file", 1);
    lattice.call.number[M] = lattice.call.number[N] = 1;
    some_lattice(&g, &lattice);
    lend(&g, &lattice, BYTES, CURLEW_LATTICE_FILE(1, 1));
    f = written(&lattice, trial(&lattice.call));
    every_damage_of(&g, &f, few_values);

    trial_name("every damage of a small point file of either kind, or of both", 1);
    points.call.number[M] = points.call.number[N] = points.call.number[H] = 1;
    some_points(&g, &points, 3);
    lend(&g, &points, BYTES, CURLEW_POINT_FILE(3));
    f = written(&points, trial(&points.call));
    every_kind_of(&g, &f, few_values);
}
