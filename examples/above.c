/*
 * An example of an inspector's question: reads a lattice file and says of some stages whether any ground stands above them.
 *
 *     above LATTICE STAGE...
 *
 * LATTICE is a lattice file that a fit left (target/host writes one). A STAGE is in metres above the datum, rounded to a micrometre.
 * The ground is asked at every position, from edge to edge. How it ends is in lattice.h.
 */
#include "lattice.h"

#define FARTHEST 1000000.0          /* metres: farther off than any stage in range, and whole micrometres still hold it */

/* To the nearest micrometre. One that is out of range is for the library to refuse. */
static int read_stage(const char *word, int64_t *stage)
{
    char *end;
    const double metres = strtod(word, &end), exact = metres * MICROMETRES;

    if (end == word || *end != '\0' || !(metres >= -FARTHEST && metres <= FARTHEST))
        return failed("a stage is a number of metres", word);
    *stage = (int64_t)(exact < 0 ? exact - 0.5 : exact + 0.5);
    return DONE;
}

/* Each call looks over the whole lattice, and passes over most cells with no control value above the stage. */
static int try_stage(const curlew_cells *cells, const int64_t *lattice, int64_t stage)
{
    const curlew_above answer = curlew_any_above(cells->m, cells->n, UNIT, lattice, CURLEW_CONTROLS(cells->m, cells->n), 0, 0, 1,
                                                 UNIT * cells->m + 1, UNIT * cells->n + 1, stage);

    if (answer.number != 0)
        return refused("curlew_any_above", answer.number, answer.place);
    print_metres(12, stage);
    printf(" %14s\n", answer.above ? "yes" : "no");
    return DONE;
}

int main(int words, char **word)
{
    curlew_cells cells;
    int64_t *lattice = NULL, stage;
    int result, at;

    if (words < 3) {
        fprintf(stderr, "usage: above LATTICE STAGE...\n");
        return FAILED;
    }
    result = read_lattice(word[1], &cells, &lattice);
    if (result == DONE)
        printf("%12s %14s\n", "stage, m", "ground above");
    for (at = 2; at < words && result == DONE; at++) {
        result = read_stage(word[at], &stage);
        if (result == DONE)
            result = try_stage(&cells, lattice, stage);
    }
    free(lattice);
    return result == DONE ? written() : result;
}
