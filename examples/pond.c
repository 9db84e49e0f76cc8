/*
 * An example above the surface engine: reads a lattice file and prints how much the ground stores at some stages, from its lowest
 * node to its highest, and at which stage it stores a wanted volume.
 *
 *     pond LATTICE SIDE SIZE [SIZE_Y] [--wanted LITRES...]
 *
 * LATTICE is a lattice file that a fit left (target/host writes one). SIDE is the side of a node's square in decimetres, 1 to 100;
 * SIZE and SIZE_Y are the metres of a position along x and along y, as tools/points was given them (SIZE for both where SIZE_Y is
 * not given). A side must be a whole number of positions along both axes. The squares lie edge to edge from (0, 0) on, and a node
 * in the middle of each, or half a position before it where a side has an odd number of them; what is left at the far edges, less
 * than a square wide, is not counted. For each of the LITRES comes the lowest stage that stores at least so much, and what it stores
 * there; or, where the basin cannot hold them at any stage in range, what it holds at the highest, 4,000 metres above the datum.
 *
 * Every node below a stage counts, whether or not the water could reach it or would run off: it is the basin's own lattice that
 * this is for.
 *
 * How it ends is in lattice.h. More than the basin can hold is a refusal too, by 18, but the other volumes are answered.
 */
#include "lattice.h"

#define STAGES 10                   /* equal parts from the lowest node to the highest */
#define DECIMETRES 10               /* in a metre */
#define EXACT 1e-9                  /* how near a number of positions is to a whole one, as a part of it */
#define HIGHEST INT64_C(4000000000) /* the highest stage in range, in micrometres */
#define NO_STAGE 18                 /* the refusal where even that stores less than is wanted */
#define LEAST_WORDS 4               /* with LATTICE, SIDE and SIZE */

/* The ground, and the nodes that stand for its squares. */
typedef struct {
    curlew_cells cells;
    int64_t *lattice;
    size_t side;                    /* of a square, in decimetres */
    size_t step_x, step_y;          /* and in positions, along each axis */
    size_t columns, rows;
    int64_t *heights;
} basin;

/* ---- the squares */

/* The positions of a side along one axis, where a position has this length in metres; 0 if they are no whole number. */
static size_t positions(size_t side, const char *word)
{
    char *end;
    const double size = strtod(word, &end), exact = (double)side / DECIMETRES / size;
    const size_t whole = exact >= 1 && exact <= UNIT * MOST_CELLS ? (size_t)(exact + 0.5) : 0;
    const double off = exact - (double)whole;

    return end != word && *end == '\0' && off <= EXACT * exact && -off <= EXACT * exact ? whole : 0;
}

/* The last of so many words is SIZE_Y, or SIZE where that is not given. */
static int lay_out(basin *b, int words, char **word)
{
    char *end;
    const unsigned long side = strtoul(word[2], &end, 10);

    if (word[2][0] < '0' || word[2][0] > '9' || *end != '\0' || side < 1 || side > 100)
        return failed("the side is a whole number of decimetres from 1 to 100", word[2]);
    b->side = side;
    b->step_x = positions(side, word[3]);
    b->step_y = positions(side, word[words - 1]);
    if (b->step_x == 0 || b->step_y == 0)
        return failed("the side is no whole number of positions of this size", word[b->step_x == 0 ? 3 : words - 1]);
    b->columns = UNIT * b->cells.m / b->step_x;
    b->rows = UNIT * b->cells.n / b->step_y;
    if (b->columns == 0 || b->rows == 0)
        return failed("the ground is smaller than a square of this side", word[2]);
    return DONE;
}

/* A raster has one step for both axes, and the sides may be of different length in positions: so each row is a raster of its own. */
static int sample(basin *b)
{
    const size_t k = CURLEW_CONTROLS(b->cells.m, b->cells.n);
    size_t row;

    b->heights = calloc(b->columns * b->rows, sizeof *b->heights);
    if (b->heights == NULL)
        return failed("no memory", "the heights");
    for (row = 0; row < b->rows; row++) {
        const curlew_count sampled = curlew_raster(b->cells.m, b->cells.n, UNIT, b->lattice, k, b->step_x / 2,
                                                   b->step_y / 2 + row * b->step_y, b->step_x, b->columns, 1,
                                                   b->heights + row * b->columns, b->columns);
        if (sampled.number != 0)
            return refused("curlew_raster", sampled.number, sampled.place);
    }
    return DONE;
}

/* ---- the table */

/* What the basin stores at a stage. */
static int stored_at(const basin *b, int64_t stage, uint64_t *litres)
{
    const curlew_storage stored = curlew_storage_at(b->columns, b->rows, b->heights, b->columns * b->rows, stage, b->side);

    *litres = stored.litres;
    return stored.number == 0 ? DONE : refused("curlew_storage_at", stored.number, stored.place);
}

typedef struct {
    int64_t low, high;
} span;

/* The lowest node and the highest. */
static span span_of(const int64_t *heights, size_t nodes)
{
    span s = { heights[0], heights[0] };
    size_t at;

    for (at = 1; at < nodes; at++) {
        s.low = heights[at] < s.low ? heights[at] : s.low;
        s.high = heights[at] > s.high ? heights[at] : s.high;
    }
    return s;
}

static int print_table(const basin *b)
{
    const span s = span_of(b->heights, b->columns * b->rows);
    uint64_t litres;
    int64_t part;

    printf("%zu by %zu squares of %zu.%zu metres\n%12s %20s\n", b->columns, b->rows, b->side / DECIMETRES, b->side % DECIMETRES,
           "stage, m", "litres");
    for (part = 0; part <= STAGES; part++) {
        const int64_t stage = s.low + (s.high - s.low) * part / STAGES;
        if (stored_at(b, stage, &litres) != DONE)
            return REFUSED;
        print_metres(12, stage);
        printf(" %20" PRIu64 "\n", litres);
    }
    return DONE;
}

/* ---- the wanted volumes */

/* Decimal digits only: strtoull would take a sign, blanks and an empty word. */
static int read_litres(const char *word, uint64_t *litres)
{
    char *end;

    errno = 0;
    *litres = strtoull(word, &end, 10);
    if (word[0] < '0' || word[0] > '9' || *end != '\0' || errno != 0)
        return failed("a wanted volume is a whole number of litres", word);
    return DONE;
}

/* The stage seldom stores exactly what is wanted: a micrometre over every square may be many litres. */
static int print_stage(const basin *b, uint64_t wanted)
{
    const curlew_stage found = curlew_stage_for(b->columns, b->rows, b->heights, b->columns * b->rows, wanted, b->side);
    const int none = found.number == NO_STAGE;
    const int64_t stage = none ? HIGHEST : found.stage;
    uint64_t litres;

    if (found.number != 0 && !none)
        return refused("curlew_stage_for", found.number, found.place);
    if (stored_at(b, stage, &litres) != DONE)
        return REFUSED;
    printf("for %" PRIu64 " litres: %s", wanted, none ? "the basin cannot hold them; at the highest stage, " : "stage ");
    print_metres(0, stage);
    printf(" m, %s %" PRIu64 " litres\n", none ? "it holds" : "which stores", litres);
    return none ? refused("curlew_stage_for", found.number, found.place) : DONE;
}

/* A volume that is too much doesn't keep the next one from its answer. */
static int print_stages(const basin *b, int volumes, char **volume)
{
    int result = DONE, at;
    uint64_t wanted;

    for (at = 0; at < volumes; at++) {
        if (read_litres(volume[at], &wanted) != DONE)
            return FAILED;
        if (print_stage(b, wanted) != DONE)
            result = REFUSED;
    }
    return result;
}

/* The words up to --wanted, or all where it is not there. */
static int words_before(int words, char **word)
{
    int at = LEAST_WORDS;

    while (at < words && strcmp(word[at], "--wanted") != 0)
        at++;
    return words < at ? words : at;
}

int main(int words, char **word)
{
    const int before = words_before(words, word);
    basin b = { 0 };
    int result;

    if (before < LEAST_WORDS || before > LEAST_WORDS + 1 || words == before + 1) {
        fprintf(stderr, "usage: pond LATTICE SIDE SIZE [SIZE_Y] [--wanted LITRES...]\n");
        return FAILED;
    }
    result = read_lattice(word[1], &b.cells, &b.lattice);
    if (result == DONE)
        result = lay_out(&b, before, word);
    if (result == DONE)
        result = sample(&b);
    if (result == DONE)
        result = print_table(&b);
    if (result == DONE)
        result = print_stages(&b, words - before - 1, word + before + 1);
    free(b.lattice);
    free(b.heights);
    return result == DONE ? written() : result;
}
