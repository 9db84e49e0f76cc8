/*
 * The table of what each function of the library takes.
 */
#include "call.h"

#include "../../include/curlewtable.h"

#define BIT(place) (1u << (place))
#define CELLS (BIT(M) | BIT(N))
#define POINTS (BIT(X) | BIT(Y) | BIT(Z) | BIT(Q))
#define FITTED (BIT(LATTICE) | BIT(RESIDUAL) | BIT(WHOLE) | BIT(FLOATS))
#define POSITION (CELLS | BIT(UNIT) | BIT(AT_X) | BIT(AT_Y))
#define NODES (POSITION | BIT(STEP) | BIT(COLUMNS) | BIT(ROWS))

const shape shapes[FUNCTIONS] = {
    [FIT] = { "fit", 16, CELLS | BIT(H), POINTS | FITTED, FITTED },
    [HEIGHT_AT] = { "height_at", 512, POSITION, BIT(LATTICE), 0 },
    [SLOPE_AT] = { "slope_at", 512, POSITION, BIT(LATTICE), 0 },
    [REFINE] = { "refine", 256, CELLS, BIT(LATTICE) | BIT(VALUES), BIT(VALUES) },
    [RASTER] = { "raster", 512, NODES, BIT(LATTICE) | BIT(VALUES), BIT(VALUES) },
    [ANY_ABOVE] = { "any_above", 512, NODES | BIT(STAGE), BIT(LATTICE), 0 },
    [STORAGE_AT] = { "storage_at", 0, BIT(COLUMNS) | BIT(ROWS) | BIT(STAGE) | BIT(NODE_SIDE), BIT(VALUES), 0 },
    [STAGE_FOR] = { "stage_for", 0, BIT(COLUMNS) | BIT(ROWS) | BIT(WANTED) | BIT(NODE_SIDE), BIT(VALUES), 0 },
    [READ_LATTICE] = { "read_lattice", 0, 0, BIT(BYTES) | BIT(VALUES), BIT(VALUES) },
    [WRITE_LATTICE] = { "write_lattice", 512, CELLS, BIT(LATTICE) | BIT(BYTES), BIT(BYTES) },
    [READ_POINTS] = { "read_points", 0, 0, BIT(BYTES) | POINTS, POINTS },
    [WRITE_POINTS] = { "write_points", 16, CELLS | BIT(H), POINTS | BIT(BYTES), BIT(BYTES) },
};

const char *const role_names[SLICES] = {
    [X] = "x", [Y] = "y", [Z] = "z", [Q] = "q", [LATTICE] = "lattice", [RESIDUAL] = "residual",
    [WHOLE] = "whole scratch", [FLOATS] = "f64 scratch", [VALUES] = "values", [BYTES] = "bytes",
};

const char *number_name(function f, unsigned place)
{
    static const char *const names[NUMBERS] = { "m", "n", "unit", "x", "y", "step", "columns", "rows",
                                               "stage", "wanted", "side" };
    return place == H && takes(f, Z) ? "h" : names[place];
}

size_t step_of(size_t step)
{
    return step == 0 ? CURLEW_DEFAULT_STEP : step;
}

const size_t element_size[SLICES] = {
    [X] = sizeof(uint16_t), [Y] = sizeof(uint16_t), [Z] = sizeof(int64_t), [Q] = sizeof(uint8_t),
    [LATTICE] = sizeof(int64_t), [RESIDUAL] = sizeof(int64_t), [WHOLE] = sizeof(int64_t), [FLOATS] = sizeof(double),
    [VALUES] = sizeof(int64_t), [BYTES] = sizeof(uint8_t),
};
