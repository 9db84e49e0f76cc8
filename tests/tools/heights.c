/*
 * What the library says of a lattice file, for comparison with the tools.
 *
 *     heights LATTICE UNIT STEP
 *
 * Prints 'cells M N' and every height of the raster with that unit and step, from edge to edge, one a line; or 'refused N P'.
 */
#include "curlewtable.h"

#include <inttypes.h>
#include <stdio.h>
#include <stdlib.h>

#define MOST_FILE (CURLEW_LATTICE_FILE(512, 512) + 1)
#define MOST_CONTROLS CURLEW_CONTROLS(512, 512)

static int refused(size_t number, size_t place)
{
    printf("refused %zu %zu\n", number, place);
    return 0;
}

static int print_heights(curlew_cells cells, size_t unit, size_t step, const int64_t *lattice)
{
    const size_t columns = unit * cells.m / step + 1, rows = unit * cells.n / step + 1;
    int64_t *raster = calloc(columns * rows, sizeof *raster);
    curlew_count answer;
    size_t i;

    if (raster == NULL)
        return 2;
    answer = curlew_raster(cells.m, cells.n, unit, lattice, MOST_CONTROLS, 0, 0, step, columns, rows, raster, columns * rows);
    if (answer.number != 0) {
        free(raster);
        return refused(answer.number, answer.place);
    }
    printf("cells %zu %zu\n", cells.m, cells.n);
    for (i = 0; i < answer.count; i++)
        printf("%" PRId64 "\n", raster[i]);
    free(raster);
    return 0;
}

int main(int argc, char **argv)
{
    FILE *file = argc == 4 ? fopen(argv[1], "rb") : NULL;
    uint8_t *bytes = calloc(MOST_FILE, 1);
    int64_t *lattice = calloc(MOST_CONTROLS, sizeof *lattice);
    curlew_cells cells;
    int result = 2;

    if (file != NULL && bytes != NULL && lattice != NULL) {
        cells = curlew_read_lattice(bytes, fread(bytes, 1, MOST_FILE, file), lattice, MOST_CONTROLS);
        if (cells.number != 0)
            result = refused(cells.number, cells.place);
        else
            result = print_heights(cells, strtoul(argv[2], NULL, 10), strtoul(argv[3], NULL, 10), lattice);
    }
    if (file != NULL)
        fclose(file);
    free(bytes);
    free(lattice);
    return result;
}
