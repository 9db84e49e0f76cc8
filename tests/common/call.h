/*
 * A call of the library as data: its function, its numbers and its slices. So one piece of code can run any call on
 * either implementation, lend any slice with guard zones, and compare all that comes back.
 */
#ifndef CALL_H
#define CALL_H

#include <stddef.h>
#include <stdint.h>

typedef enum {
    FIT,
    HEIGHT_AT,
    SLOPE_AT,
    REFINE,
    RASTER,
    ANY_ABOVE,
    STORAGE_AT,
    STAGE_FOR,
    READ_LATTICE,
    WRITE_LATTICE,
    READ_POINTS,
    WRITE_POINTS,
    FUNCTIONS
} function;

/* The places of a call's numbers, in the header's order. Fits have h where lattices have their unit. A stage is there by its bits. */
enum { M, N, H, UNIT = H, AT_X, AT_Y, STEP, COLUMNS, ROWS, STAGE, WANTED, NODE_SIDE, NUMBERS };

/*
 * The slices, by what they hold. VALUES and BYTES are what the header calls output; VALUES is also the raster that a storage and a
 * stage for one read, BYTES the readers' file.
 */
typedef enum { X, Y, Z, Q, LATTICE, RESIDUAL, WHOLE, FLOATS, VALUES, BYTES, SLICES } role;

typedef struct {
    void *at;
    size_t length;              /* in elements */
} slice;

typedef struct {
    function function;
    size_t number[NUMBERS];
    slice slice[SLICES];
} call;

/* An answer's fields in the header's order; those that a function's answer lacks are 0. */
enum { NUMBER, PLACE, FIRST, SECOND, FIELDS = 6 };

typedef struct {
    uint64_t field[FIELDS];
} answer;

typedef answer runner(const call *c);

runner run_library, run_reference;

/* What a function takes. The sets are bit sets, 1 << place or 1 << role. */
typedef struct {
    const char *name;
    size_t most_cells;          /* a side; 0 where the function takes no cell counts */
    unsigned numbers;
    unsigned slices;
    unsigned written;           /* those of the slices that it may write */
} shape;

extern const shape shapes[FUNCTIONS];

extern const char *const role_names[SLICES];

/* What a function calls the number at this place. */
const char *number_name(function f, unsigned place);

/* What a raster's step stands for. */
size_t step_of(size_t step);

/* Bytes of an element. */
extern const size_t element_size[SLICES];

static inline int takes(function f, role r)
{
    return (shapes[f].slices >> r & 1) != 0;
}

static inline int writes(function f, role r)
{
    return (shapes[f].written >> r & 1) != 0;
}

/* The refusals are numbered from 1 to this, and 0 is an acceptance. The largest number stands here alone. */
enum { MOST_NUMBER = 18 };

/* Of a fit and of the point writer: a confidence of 0. */
enum { NO_CONFIDENCE = 17 };

/* Of a stage for a wanted storage: there is none in range. */
enum { NO_STAGE = 18 };

/* Those of a fit alone: a difference from the base out of range; and in a level a quotient, a residual or a sum. */
enum { DIFFERENCE_OUT = 15, QUOTIENT_OUT = 7, RESIDUAL_OUT = 13, SUM_OUT = 14 };

static inline int in_levels(uint64_t number)
{
    return number == QUOTIENT_OUT || number == RESIDUAL_OUT || number == SUM_OUT;
}

#endif
