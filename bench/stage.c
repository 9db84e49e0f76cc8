/*
 * The reference halves the stages in range, which is plain and takes 33 passes over the raster. Beside it a row would tell two
 * searches apart and not two compilers: so here is the library's search in C, with passes that gcc takes two nodes at a time. It
 * begins above the lowest height, which one pass finds together with a height out of range; the library begins a little lower.
 */
#include "stage.h"

#define LIMIT INT64_C(4000000000)
#define STAGES (2 * (uint64_t)LIMIT + 1)        /* in range; stage k has number k + LIMIT */
#define MOST_NODES 8193                         /* columns or rows */
#define MOST_SIDE 100
#define PER_LITRE 100000                        /* micrometres times square decimetres in a litre */
#define BLOCK 32                                /* nodes in a loop that is unrolled whole; 16 and 64 were slower */

/* ---- passes ---- */

/* The sign bit is set exactly if the height is out of range: what leaves 64 bits is negative too. */
static uint64_t outside(int64_t height)
{
    return ((uint64_t)height + (uint64_t)LIMIT) | ((uint64_t)LIMIT - (uint64_t)height);
}

/* The lesser of two heights, by the sign of their difference; of one that is out of range any number. */
static int64_t lesser(int64_t height, int64_t lowest)
{
    const int64_t over = (int64_t)((uint64_t)height - (uint64_t)lowest);

    return (int64_t)((uint64_t)lowest + (uint64_t)(over & over >> 63));
}

/* The lowest height, and in the sign bit of odd whether any is out of range. Each place of a block has a lowest of its own. */
static int64_t lowest_of(const int64_t *heights, size_t nodes, uint64_t *odd)
{
    int64_t lowest[BLOCK], least = LIMIT;
    size_t i;

    for (i = 0; i < BLOCK; i++)
        lowest[i] = LIMIT;
    *odd = 0;
    for (; nodes >= BLOCK; nodes -= BLOCK, heights += BLOCK) {
        uint64_t block = 0;

        for (i = 0; i < BLOCK; i++)
            block |= outside(heights[i]);
        for (i = 0; i < BLOCK; i++)
            lowest[i] = lesser(heights[i], lowest[i]);
        *odd |= block;
    }
    for (i = 0; i < nodes; i++) {
        *odd |= outside(heights[i]);
        least = lesser(heights[i], least);
    }
    for (i = 0; i < BLOCK; i++)
        least = lesser(lowest[i], least);
    return least;
}

typedef struct {
    uint64_t sum;                               /* of depths */
    uint64_t wet;                               /* nodes below the stage: what a micrometre less takes from the sum */
} filling;

/* Where a node is below the stage, height less stage is negative, and its sign a mask of all bits. */
static filling fill(const int64_t *heights, size_t nodes, int64_t stage)
{
    int64_t sum = 0, wet = 0;
    filling f;
    size_t i;

    for (; nodes >= BLOCK; nodes -= BLOCK, heights += BLOCK)
        for (i = 0; i < BLOCK; i++) {
            const int64_t over = heights[i] - stage;

            sum += over & over >> 63;
            wet += over >> 63;
        }
    for (i = 0; i < nodes; i++) {
        const int64_t over = heights[i] - stage;

        sum += over & over >> 63;
        wet += over >> 63;
    }
    f.sum = (uint64_t)-sum;
    f.wet = (uint64_t)-wet;
    return f;
}

/* ---- litres ---- */

static uint64_t litres_of(uint64_t sum, uint64_t square)
{
    return sum / PER_LITRE * square + sum % PER_LITRE * square / PER_LITRE;
}

static uint64_t divided_up(uint64_t value, uint64_t by)
{
    return (value + by - 1) / by;
}

/* The least sum of depths that has so many litres, which some raster stores: then nothing leaves 64 bits. */
static uint64_t sum_for(uint64_t litres, uint64_t square)
{
    return litres / square * PER_LITRE + divided_up(litres % square * PER_LITRE, square);
}

/* ---- the search ---- */

/*
 * The number of the lowest stage with that sum, or STAGES. It is from low to high, where high has enough or is STAGES. Each pass
 * halves what is between, or more: from stage to stage the sum grows by no more than the nodes that are wet at high.
 */
static uint64_t search(const int64_t *heights, size_t nodes, uint64_t needed, int64_t lowest)
{
    uint64_t low = (uint64_t)(lowest + LIMIT) + divided_up(needed, nodes), high = STAGES, most = nodes;

    while (low < high) {
        const uint64_t middle = (low + high) / 2;
        const filling f = fill(heights, nodes, (int64_t)middle - LIMIT);

        if (f.sum < needed) {
            low = middle + divided_up(needed - f.sum, most);
        } else {
            const uint64_t spare = f.sum - needed;

            if (spare < f.wet)
                return middle;
            most = f.wet;
            high = middle - spare / f.wet;
        }
    }
    return high;
}

static ref_stage refused(uint64_t number, uint64_t place)
{
    const ref_stage answer = { number, place, 0 };
    return answer;
}

ref_stage same_search(size_t columns, size_t rows, const int64_t *heights, size_t heights_len, uint64_t wanted, size_t side)
{
    ref_stage answer = { 0, 0, -LIMIT };
    size_t nodes, i;
    uint64_t odd, number;
    int64_t lowest;

    if (columns > MOST_NODES || rows > MOST_NODES)
        return refused(8, 0);
    nodes = columns * rows;
    if (heights_len < nodes)
        return refused(4, 0);
    if (side < 1 || side > MOST_SIDE)
        return refused(16, 0);
    lowest = lowest_of(heights, nodes, &odd);
    if (odd >> 63) {
        for (i = 0; outside(heights[i]) >> 63 == 0;)
            i++;
        return refused(6, i + 1);
    }
    if (wanted == 0)
        return answer;
    if (litres_of(nodes * (STAGES - 1), side * side) < wanted)
        return refused(18, 0);
    number = search(heights, nodes, sum_for(wanted, side * side), lowest);
    if (number == STAGES)
        return refused(18, 0);
    answer.stage = (int64_t)number - LIMIT;
    return answer;
}
