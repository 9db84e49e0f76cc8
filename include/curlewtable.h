/*
 * Curlewtable: multilevel B-spline ground lattices for storm-drain models.
 *
 * Every call ends, whatever its arguments, reads and writes only inside the slices that it is lent, and answers with a number:
 * 0 where it is accepted, else the number of the refusal (see below) with its place. On a refusal the other fields of the
 * answer are 0.
 *
 * A slice is a pointer and a length in elements. What the host owes for each:
 *   - the pointer is aligned for its type, and the whole length is readable, and writable where it is not const;
 *     where the length is 0 the pointer may be NULL;
 *   - a slice that is written overlaps no other slice of the call;
 *   - the memory is initialised. f64 scratch may hold NaN.
 * A call uses at most 8,192 bytes of stack (measured, see docs/HOST.md).
 * There is no global state: calls on separate slices may run side by side.
 *
 * Heights, control values and residuals are whole micrometres from -4,000,000,000 to 4,000,000,000 ("in range").
 * A lattice of m by n cells has (m+3)(n+3) control values, i from -1 to m+1, j from -1 to n+1, stored at (j+1)(m+3)+(i+1).
 *
 * Refusals:
 *    1  cells a side outside 1..16 (fit, point writer), 1..256 (refine), 1..512 (others)        place 0
 *    2  h above 5, or U not 16, 32, 64, 128, 256 or 512                                         place 0
 *    3  x, y, z, q lists differ in length, or over 65,535 points                                place 0
 *    4  a lent slice is too short                                                               place 0
 *    5  position outside                           the point's or node's index, 0 for a single height or slope
 *    6  height or control value out of range                  its index, of a storage's or stage_for's heights from 1; 0 for a stage
 *    7  a quotient out of range in a level of the fit                                           the level
 *    8  step above 8,192, or columns or rows above 8,193                                        place 0
 *    9  record incomplete                                                          the byte of the record's start
 *   10  wrong mark                                                                 the byte of the record's start
 *   11  field not allowed                                                                 the byte of the field
 *   12  bytes after the end                                                               the first such byte
 *   13  a residual out of range in a level of the fit                                           the level
 *   14  a sum out of range in a level of the fit                                                the level
 *   15  a difference from the base of the fit out of range                                      the point's index
 *   16  a node side outside 1..100 decimetres                                                   place 0
 *   17  a confidence of 0                                                                       the point's index
 *   18  no stage in range stores the wanted litres                                              place 0
 * So place 0 of an any_above's 6 is the stage's or the first control value's.
 * A refusal leaves every slice as it was, but for 7, 13 and 14: the scratch prefixes are then zero, as after an acceptance, and
 * lattice and residuals are as they were. The order of the checks is 1, 2, 3, 8, 4, then 5 and 6; points in list order, in a point
 * 5, then 6, then 17, elsewhere the whole lattice (6) before positions (5); a stage (6) before the lattice or the heights; of a
 * storage and of a stage_for the side (16) before 6, and of a stage_for 18 last of all; of a fit whose points are all in order the
 * differences (15), and then its levels one by one, in each all quotients (7), then all residuals (13), then all sums (14), and after
 * the last level the sums with the base (14); readers record by record, 9, 10, 11, then 12, then 4.
 */
#ifndef CURLEWTABLE_H
#define CURLEWTABLE_H

#include <stddef.h>
#include <stdint.h>

#ifdef __cplusplus
extern "C" {
#endif

/* ---- sizes, in elements */

/* control values of m by n cells */
#define CURLEW_CONTROLS(m, n) (((size_t)(m) + 3) * ((size_t)(n) + 3))
/* cells a side of level h, of m0 coarsest cells */
#define CURLEW_CELLS(m0, h) ((size_t)(m0) << (h))
/* K of a fit: control values of level h */
#define CURLEW_FIT_LATTICE(m0, n0, h) CURLEW_CONTROLS(CURLEW_CELLS(m0, h), CURLEW_CELLS(n0, h))
/* whole scratch, 3K + p, and f64 scratch, 2K, of a fit of p points */
#define CURLEW_FIT_WHOLE(m0, n0, h, p) (3 * CURLEW_FIT_LATTICE(m0, n0, h) + (size_t)(p))
#define CURLEW_FIT_FLOATS(m0, n0, h) (2 * CURLEW_FIT_LATTICE(m0, n0, h))
/* bytes of a lattice file */
#define CURLEW_LATTICE_FILE(m, n) (10 + ((size_t)(n) + 3) * (4 + 8 * ((size_t)(m) + 3)))
/* bytes of a point file of PQ records, which the writer writes, and of one of PT records, which the reader takes too */
#define CURLEW_POINT_FILE(p) (8 + 15 * (size_t)(p))
#define CURLEW_PT_FILE(p) (8 + 14 * (size_t)(p))

/* ---- answers */

/* fit, refine, read_lattice: cell counts */
typedef struct {
    size_t number, place;
    size_t m, n;
} curlew_cells;

/* height_at: the height */
typedef struct {
    size_t number, place;
    int64_t height;
} curlew_height;

/* slope_at: the slopes along x and along y, in nanometres per position */
typedef struct {
    size_t number, place;
    int64_t along_x, along_y;
} curlew_slope;

/* raster: nodes written; write_lattice, write_points: bytes written */
typedef struct {
    size_t number, place;
    size_t count;
} curlew_count;

/* any_above: whether some ground stands above the stage, 1 for yes and 0 for no */
typedef struct {
    size_t number, place;
    size_t above;
} curlew_above;

/* read_points: the header's fields */
typedef struct {
    size_t number, place;
    size_t m0, n0, h, points;
} curlew_header;

/* storage_at: the litres */
typedef struct {
    size_t number, place;
    uint64_t litres;
} curlew_storage;

/* stage_for: the stage */
typedef struct {
    size_t number, place;
    int64_t stage;
} curlew_stage;

/* ---- the surface engine */

/*
 * Fits one lattice to p points: m0 by n0 coarsest cells (1..16), levels 0 to h (0..5). Positions run 0 to 16 * m0 * 2^h along x,
 * likewise y with n0. Lends: lattice K, residual p, whole scratch 3K + p, f64 scratch 2K (see the macros); longer is fine.
 * The base of the fit is the mean of the z, to the nearest whole micrometre, an exact half to the even one, or 0 with no points. The
 * levels are fitted to the differences, z less the base, and the base is added to every control value at the end: far from any point
 * the ground is as high as the base.
 * q is a point's confidence, 1 to 255: in each level a point counts as q points at its place would, but for rounding; in the base it
 * counts once. With q 1 for every point lattice and residuals are, to the bit, those of a fit without q.
 * Accepted: the cell counts of level h; the lattice and the residuals, what the levels leave of the differences, in their first K
 * and p places. The lattice is read with U = 16. At every position of the grid the height is then accepted, and within h/2 + 1
 * micrometres of the base plus the exact sum of the level surfaces.
 * After acceptance and after refusals 7, 13 and 14 the named scratch prefixes are zero. Places past the prefixes never change.
 * Refuses 1 to 4; point by point 5, 6, 17; then 15; then level by level 7, 13, 14: a quotient, which would be a control value of
 * the level; a residual, what the level leaves of a difference; a sum, a control value of the lattices added up so far, and after
 * level h with the base.
 */
curlew_cells curlew_fit(size_t m0, size_t n0, size_t h, const uint16_t *x, size_t x_len, const uint16_t *y, size_t y_len,
                        const int64_t *z, size_t z_len, const uint8_t *q, size_t q_len, int64_t *lattice, size_t lattice_len,
                        int64_t *residual, size_t residual_len, int64_t *whole, size_t whole_len, double *floats, size_t floats_len);

/*
 * The height at (x, y) of a lattice of m by n cells (1..512) of unit positions each; x from 0 to unit * m, y from 0 to unit * n.
 * It is in range, and within 1 micrometre of the exact surface. Refuses 1, 2, 4, 6, 5. Each call scans the whole lattice: for many
 * heights use a raster.
 */
curlew_height curlew_height_at(size_t m, size_t n, size_t unit, const int64_t *lattice, size_t lattice_len, size_t x, size_t y);

/*
 * Both slopes at (x, y), in whole nanometres per position: the rise along x and along y, negative where the ground falls. Each is
 * within 750/unit + 1/2 of the exact surface's, and 0 where all control values are the same. Refuses 1, 2, 4, 6, 5, as the height
 * there. Each call scans the whole lattice, once for both.
 */
curlew_slope curlew_slope_at(size_t m, size_t n, size_t unit, const int64_t *lattice, size_t lattice_len, size_t x, size_t y);

/*
 * The refinement of m by n cells (1..256) to 2m by 2n: writes the (2m+3)(2n+3) new control values. Refuses 1, 4, 6.
 */
curlew_cells curlew_refine(size_t m, size_t n, const int64_t *lattice, size_t lattice_len, int64_t *output, size_t output_len);

/* what a raster's step of 0 stands for, in positions */
#define CURLEW_DEFAULT_STEP ((size_t)8)

/*
 * The heights of columns * rows nodes from (x0, y0) at one step, row by row. Step 0 stands for CURLEW_DEFAULT_STEP. It stood for
 * 16: a caller that relied on 0 gives 16, and the nodes are then those of before. No columns or no rows writes nothing. Answers the
 * nodes written. Refuses 1, 2, 8, 4, 6, 5 (the first node outside, row * columns + column).
 */
curlew_count curlew_raster(size_t m, size_t n, size_t unit, const int64_t *lattice, size_t lattice_len, size_t x0, size_t y0,
                           size_t step, size_t columns, size_t rows, int64_t *output, size_t output_len);

/*
 * Whether any ground stands above a stage in range, in micrometres: 1 exactly if some node of the raster with the same x0, y0, step,
 * columns and rows has a height above the stage, else 0. A height at the stage is not above it; no columns or no rows is 0. Nothing
 * is written, and no output is lent. Most cells whose sixteen control values are at or below the stage are passed over, and the walk
 * ends at the first node found above.
 * Refuses 1, 2, 8, 4, 6, 5: 6 for the stage first, with place 0, then for the control values, of which the first has place 0 too; 5
 * (the first node outside, as of a raster) before any height, so also where an earlier node stands above. Each call scans the whole
 * lattice once for 6.
 */
curlew_above curlew_any_above(size_t m, size_t n, size_t unit, const int64_t *lattice, size_t lattice_len, size_t x0, size_t y0,
                              size_t step, size_t columns, size_t rows, int64_t stage);

/* ---- above the surface engine */

/*
 * Pond storage: the litres that a raster of columns * rows heights, row by row, holds below a stage in range, in micrometres, where
 * each node stands for a square of side decimetres (1..100). A node's depth is the stage less its height where positive, else 0;
 * the litres are the sum of depths * side^2 / 100,000, rounded down once: at most 53,700,199,200,000,000. A higher stage never
 * stores less. Nothing is written; what lies past columns * rows is neither read nor checked; no columns or no rows hold 0.
 * Refuses 8, 4, 16, 6: the stage first, with place 0, then height i with place i + 1. The heights that an accepted raster of so many
 * columns and rows has left are never refused: then only 16 and the stage's 6 are left.
 */
curlew_storage curlew_storage_at(size_t columns, size_t rows, const int64_t *heights, size_t heights_len, int64_t stage, size_t side);

/*
 * The stage for a wanted storage: the lowest stage in range, in micrometres, at which a raster of columns * rows heights, row by row,
 * with nodes of this side, stores at least the wanted litres, as curlew_storage_at counts them. It may store more; a micrometre lower
 * is out of range or stores less than is wanted. Any number may be wanted, and 0 gives -4,000,000,000 whatever the heights are.
 * Nothing is written; what lies past columns * rows is neither read nor checked; no columns or no rows store 0 at every stage.
 * Refuses 8, 4, 16, 6 as a storage does, height i with place i + 1; no stage is given, so 6 never has place 0. Last of all 18,
 * exactly where even 4,000,000,000 stores less than is wanted.
 */
curlew_stage curlew_stage_for(size_t columns, size_t rows, const int64_t *heights, size_t heights_len, uint64_t wanted, size_t side);

/* ---- the two files */

/* Reads a lattice file: its cell counts, and (m+3)(n+3) control values. Refuses 9, 10, 11, 12, 4. */
curlew_cells curlew_read_lattice(const uint8_t *file, size_t file_len, int64_t *output, size_t output_len);

/* Writes a lattice file of CURLEW_LATTICE_FILE(m, n) bytes. Refuses 1, 4, 6. */
curlew_count curlew_write_lattice(size_t m, size_t n, const int64_t *lattice, size_t lattice_len, uint8_t *output, size_t output_len);

/*
 * Reads a point file, of PT or of PQ records: its header, and p places of each list. A PT point has q 1. The first record sets the
 * file's kind, and a later one of the other mark is 10. A q of 0 is 11, at its byte. Refuses 9, 10, 11, 12, 4.
 */
curlew_header curlew_read_points(const uint8_t *file, size_t file_len, uint16_t *x, size_t x_len, uint16_t *y, size_t y_len,
                                 int64_t *z, size_t z_len, uint8_t *q, size_t q_len);

/*
 * Writes a point file of PQ records, CURLEW_POINT_FILE(p) bytes. What was read and is written again is the same bytes if its records
 * were PQ, else its PQ form. Refuses 1, 2, 3, 4; point by point 5, 6, 17.
 */
curlew_count curlew_write_points(size_t m0, size_t n0, size_t h, const uint16_t *x, size_t x_len, const uint16_t *y, size_t y_len,
                                 const int64_t *z, size_t z_len, const uint8_t *q, size_t q_len, uint8_t *output,
                                 size_t output_len);

#ifdef __cplusplus
}
#endif

#endif
