/*
 * The twelve functions of curlewtable.h, answered by the second implementation (tests/reference). With this in place of the
 * archive the examples can be built where the Rattle kit is not, and what they print over the one can be compared with the other.
 */
#include "curlewtable.h"
#include "../reference/reference.h"

static curlew_cells cells(ref_cells answer)
{
    curlew_cells same = { answer.number, answer.place, answer.m, answer.n };
    return same;
}

static curlew_count count(ref_count answer)
{
    curlew_count same = { answer.number, answer.place, answer.count };
    return same;
}

curlew_cells curlew_fit(size_t m0, size_t n0, size_t h, const uint16_t *x, size_t x_len, const uint16_t *y, size_t y_len,
                        const int64_t *z, size_t z_len, const uint8_t *q, size_t q_len, int64_t *lattice, size_t lattice_len,
                        int64_t *residual, size_t residual_len, int64_t *whole, size_t whole_len, double *floats, size_t floats_len)
{
    return cells(ref_fit(m0, n0, h, x, x_len, y, y_len, z, z_len, q, q_len, lattice, lattice_len, residual, residual_len,
                         whole, whole_len, floats, floats_len));
}

curlew_height curlew_height_at(size_t m, size_t n, size_t unit, const int64_t *lattice, size_t lattice_len, size_t x, size_t y)
{
    ref_height answer = ref_height_at(m, n, unit, lattice, lattice_len, x, y);
    curlew_height same = { answer.number, answer.place, answer.height };
    return same;
}

curlew_slope curlew_slope_at(size_t m, size_t n, size_t unit, const int64_t *lattice, size_t lattice_len, size_t x, size_t y)
{
    ref_slope answer = ref_slope_at(m, n, unit, lattice, lattice_len, x, y);
    curlew_slope same = { answer.number, answer.place, answer.along_x, answer.along_y };
    return same;
}

curlew_cells curlew_refine(size_t m, size_t n, const int64_t *lattice, size_t lattice_len, int64_t *output, size_t output_len)
{
    return cells(ref_refine(m, n, lattice, lattice_len, output, output_len));
}

curlew_count curlew_raster(size_t m, size_t n, size_t unit, const int64_t *lattice, size_t lattice_len, size_t x0, size_t y0,
                           size_t step, size_t columns, size_t rows, int64_t *output, size_t output_len)
{
    return count(ref_raster(m, n, unit, lattice, lattice_len, x0, y0, step, columns, rows, output, output_len));
}

curlew_above curlew_any_above(size_t m, size_t n, size_t unit, const int64_t *lattice, size_t lattice_len, size_t x0, size_t y0,
                              size_t step, size_t columns, size_t rows, int64_t stage)
{
    ref_above answer = ref_any_above(m, n, unit, lattice, lattice_len, x0, y0, step, columns, rows, stage);
    curlew_above same = { answer.number, answer.place, answer.above };
    return same;
}

curlew_storage curlew_storage_at(size_t columns, size_t rows, const int64_t *heights, size_t heights_len, int64_t stage, size_t side)
{
    ref_storage answer = ref_storage_at(columns, rows, heights, heights_len, stage, side);
    curlew_storage same = { answer.number, answer.place, answer.litres };
    return same;
}

curlew_stage curlew_stage_for(size_t columns, size_t rows, const int64_t *heights, size_t heights_len, uint64_t wanted, size_t side)
{
    ref_stage answer = ref_stage_for(columns, rows, heights, heights_len, wanted, side);
    curlew_stage same = { answer.number, answer.place, answer.stage };
    return same;
}

curlew_cells curlew_read_lattice(const uint8_t *file, size_t file_len, int64_t *output, size_t output_len)
{
    return cells(ref_read_lattice(file, file_len, output, output_len));
}

curlew_count curlew_write_lattice(size_t m, size_t n, const int64_t *lattice, size_t lattice_len, uint8_t *output, size_t output_len)
{
    return count(ref_write_lattice(m, n, lattice, lattice_len, output, output_len));
}

curlew_header curlew_read_points(const uint8_t *file, size_t file_len, uint16_t *x, size_t x_len, uint16_t *y, size_t y_len,
                                 int64_t *z, size_t z_len, uint8_t *q, size_t q_len)
{
    ref_header answer = ref_read_points(file, file_len, x, x_len, y, y_len, z, z_len, q, q_len);
    curlew_header same = { answer.number, answer.place, answer.m0, answer.n0, answer.h, answer.points };
    return same;
}

curlew_count curlew_write_points(size_t m0, size_t n0, size_t h, const uint16_t *x, size_t x_len, const uint16_t *y, size_t y_len,
                                 const int64_t *z, size_t z_len, const uint8_t *q, size_t q_len, uint8_t *output,
                                 size_t output_len)
{
    return count(ref_write_points(m0, n0, h, x, x_len, y, y_len, z, z_len, q, q_len, output, output_len));
}
