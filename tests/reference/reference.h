/*
 * A second implementation of the ground lattice of document 01, of the slopes of
 * document 02's first job, of the refusals 13 and 14 of its third, of the base of its
 * fourth, of the finer default raster of its fifth, of the pond storage of its sixth, of
 * the ground above a stage of its seventh, of the confidence of a point of its eighth, of
 * the halves to even of its ninth and of the stage for a wanted storage of its tenth, in plain
 * C99, written from their text.
 *
 * Every call checks its arguments itself, refuses as the documents say and then
 * leaves the slices as they say. Any argument may have any value; a
 * slice must only hold as many places as its length says, and slices that are
 * written may not overlap any other slice of the call.
 *
 * number 0 is an acceptance, with place 0. On a refusal the value fields are 0.
 */
#ifndef REFERENCE_H
#define REFERENCE_H

#include <stddef.h>
#include <stdint.h>

typedef struct { uint64_t number, place, m, n; } ref_cells;
typedef struct { uint64_t number, place; int64_t height; } ref_height;
typedef struct { uint64_t number, place; int64_t along_x, along_y; } ref_slope;
typedef struct { uint64_t number, place, count; } ref_count;
typedef struct { uint64_t number, place, m0, n0, h, points; } ref_header;
typedef struct { uint64_t number, place, litres; } ref_storage;
typedef struct { uint64_t number, place, above; } ref_above;
typedef struct { uint64_t number, place; int64_t stage; } ref_stage;

/*
 * near(v/d) for d of at least 1, at any v, an exact half going to the even neighbour since document 02's job 9;
 * document 01 has no other divisors, and they give 0.
 */
int64_t ref_near(int64_t v, int64_t d);

ref_cells ref_fit(size_t m0, size_t n0, size_t h,
                  const uint16_t *x, size_t x_len, const uint16_t *y, size_t y_len,
                  const int64_t *z, size_t z_len, const uint8_t *q, size_t q_len,
                  int64_t *lattice, size_t lattice_len, int64_t *residual, size_t residual_len,
                  int64_t *whole, size_t whole_len, double *floats, size_t floats_len);

ref_height ref_height_at(size_t m, size_t n, size_t unit,
                         const int64_t *lattice, size_t lattice_len, size_t x, size_t y);

/* Both slopes of document 02's job 1, in nanometres per position. */
ref_slope ref_slope_at(size_t m, size_t n, size_t unit,
                       const int64_t *lattice, size_t lattice_len, size_t x, size_t y);

ref_cells ref_refine(size_t m, size_t n, const int64_t *lattice, size_t lattice_len,
                     int64_t *output, size_t output_len);

ref_count ref_raster(size_t m, size_t n, size_t unit, const int64_t *lattice, size_t lattice_len,
                     size_t x0, size_t y0, size_t step, size_t columns, size_t rows,
                     int64_t *output, size_t output_len);

/*
 * Whether any ground stands above a stage, of document 02's job 7: above is 1 for yes and 0 for no. The nodes are those of a
 * raster with the same x0, y0, step, columns and rows. No output is lent, and nothing is written.
 */
ref_above ref_any_above(size_t m, size_t n, size_t unit, const int64_t *lattice, size_t lattice_len,
                        size_t x0, size_t y0, size_t step, size_t columns, size_t rows, int64_t stage);

/*
 * Pond storage, of document 02's job 6: the litres that a raster of heights, columns by rows, stores at a stage, with a node
 * side in decimetres. Nothing is written.
 */
ref_storage ref_storage_at(size_t columns, size_t rows, const int64_t *heights, size_t heights_len, int64_t stage, size_t side);

/*
 * The stage for a wanted storage, of document 02's job 10, in litres: any wanted is asked for. The raster of heights and the
 * side are those of a storage. Nothing is written.
 */
ref_stage ref_stage_for(size_t columns, size_t rows, const int64_t *heights, size_t heights_len, uint64_t wanted, size_t side);

ref_cells ref_read_lattice(const uint8_t *file, size_t file_len, int64_t *output, size_t output_len);

ref_count ref_write_lattice(size_t m, size_t n, const int64_t *lattice, size_t lattice_len,
                            uint8_t *output, size_t output_len);

ref_header ref_read_points(const uint8_t *file, size_t file_len, uint16_t *x, size_t x_len,
                           uint16_t *y, size_t y_len, int64_t *z, size_t z_len, uint8_t *q, size_t q_len);

ref_count ref_write_points(size_t m0, size_t n0, size_t h,
                           const uint16_t *x, size_t x_len, const uint16_t *y, size_t y_len,
                           const int64_t *z, size_t z_len, const uint8_t *q, size_t q_len,
                           uint8_t *output, size_t output_len);

/*
 * The program: standard input to standard output. The output has room for 2,974 bytes;
 * returns the bytes written.
 */
size_t ref_program(const uint8_t *input, size_t input_len, uint8_t *output);

/*
 * Demand 3 in whole numbers, for tests. Unlike the calls above, the functions below trust
 * their arguments: an accepted fit's m0, n0 and h, and a position of its grid.
 */
__extension__ typedef __int128 ref_wide;

/* Places of level lattice k: (m0 * 2^k + 3)(n0 * 2^k + 3). */
size_t ref_level_places(size_t m0, size_t n0, size_t k);

/* The base of document 02's job 4, of points whose heights are all in range; 0 with no points. */
int64_t ref_base(const int64_t *z, size_t points);

/*
 * The fit again, keeping every level lattice: levels has h + 1 arrays, and array k at least
 * ref_level_places(m0, n0, k) places. Answer and slices are those of ref_fit. The levels hold
 * the level lattices, which are those of the differences, on acceptance only; refusals 1 to 6, 17 and 15
 * leave them as they were.
 */
ref_cells ref_fit_levels(size_t m0, size_t n0, size_t h,
                         const uint16_t *x, size_t x_len, const uint16_t *y, size_t y_len,
                         const int64_t *z, size_t z_len, const uint8_t *q, size_t q_len,
                         int64_t *lattice, size_t lattice_len, int64_t *residual, size_t residual_len,
                         int64_t *whole, size_t whole_len, double *floats, size_t floats_len,
                         int64_t *const *levels);

/* The double sum of the exact surface, before its division by 36 * unit^6, for any unit up to 512. */
ref_wide ref_surface(size_t m, size_t n, size_t unit, const int64_t *lattice, size_t x, size_t y);

/*
 * The double sums of the exact slopes along x and along y, before their division by 12 * unit^6, for any unit up to 512:
 * slope numerators along the slope's own axis, numerators along the other, control values. In micrometres per position.
 */
ref_wide ref_slope_x_sum(size_t m, size_t n, size_t unit, const int64_t *lattice, size_t x, size_t y);
ref_wide ref_slope_y_sum(size_t m, size_t n, size_t unit, const int64_t *lattice, size_t x, size_t y);

/*
 * 1 if a slope is within 750/unit + 1/2 nanometres of the exact one, whose double sum is given, else 0.
 */
int ref_slope_holds(size_t unit, int64_t slope, ref_wide sum);

ref_wide ref_D(size_t h);                                                       /* 36 * (16 * 2^h)^6 */
ref_wide ref_T(size_t m0, size_t n0, size_t h, int64_t *const *levels, size_t x, size_t y);
ref_wide ref_V(size_t m0, size_t n0, size_t h, const int64_t *lattice, size_t x, size_t y);

/* D, T and V together. */
void ref_demand3(size_t m0, size_t n0, size_t h, int64_t *const *levels, const int64_t *lattice,
                 size_t x, size_t y, ref_wide *d, ref_wide *t, ref_wide *v);

/*
 * 1 if demand 3's distance holds of this height answer at this position, else 0: accepted, and
 * |2 D height - 2 (T + base D)| at most (h + 2) D. The equal case is compare/demand3.c's, which sees the levels whole.
 */
int ref_demand3_holds(size_t m0, size_t n0, size_t h, int64_t *const *levels, int64_t base, const int64_t *lattice,
                      size_t x, size_t y, ref_height answer);

#endif
