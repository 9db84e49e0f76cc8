/* One run of a job by the library or by the C beside it. */
#include "timed.h"
#include "stage.h"
#include "../include/curlewtable.h"
#include "../tests/reference/reference.h"

static uint64_t answer_of_call(const job *j, runner *run)
{
    return run(&j->call).field[FIRST];
}

/*
 * Heights and slopes take so little time that they are called without a runner between; the sum keeps the calls from being
 * dropped. kind is the answer's type, and its function is kind_at.
 */
#define AT_POSITIONS(name, kind, value)                                                        \
    static uint64_t name(const job *j, runner *run)                                            \
    {                                                                                          \
        const size_t *v = j->call.number;                                                      \
        const slice of = j->call.slice[LATTICE];                                               \
        uint64_t sum = 0;                                                                      \
        size_t i;                                                                              \
                                                                                               \
        (void)run;                                                                             \
        for (i = 0; i < j->calls; i++) {                                                       \
            const kind a = kind##_at(v[M], v[N], v[UNIT], of.at, of.length, j->x[i], j->y[i]); \
            sum += a.number + a.place + (uint64_t)(value);                                     \
        }                                                                                      \
        return sum;                                                                            \
    }

AT_POSITIONS(heights_by_library, curlew_height, a.height)
AT_POSITIONS(heights_by_c, ref_height, a.height)
AT_POSITIONS(slopes_by_library, curlew_slope, a.along_x + a.along_y)
AT_POSITIONS(slopes_by_c, ref_slope, a.along_x + a.along_y)

/* What C does without such a call: the raster into the job's values, and then a scan of them. */
static uint64_t raster_then_scan(const job *j, runner *run)
{
    const int64_t *heights = j->call.slice[VALUES].at, stage = (int64_t)j->call.number[STAGE];
    call raster = j->call;
    uint64_t nodes, at;

    raster.function = RASTER;
    nodes = run(&raster).field[FIRST];
    for (at = 0; at < nodes; at++)
        if (heights[at] > stage)
            return 1;
    return 0;
}

/* The reference's search takes more passes than the library's, so C has the same one here. */
static uint64_t stage_by_same_search(const job *j, runner *run)
{
    const size_t *v = j->call.number;
    const slice of = j->call.slice[VALUES];

    (void)run;
    return (uint64_t)same_search(v[COLUMNS], v[ROWS], of.at, of.length, v[WANTED], v[NODE_SIDE]).stage;
}

typedef uint64_t work(const job *j, runner *run);

uint64_t run_once(const job *j, int side)
{
    static work *const of_function[FUNCTIONS][SIDES] = {
        [HEIGHT_AT] = { heights_by_library, heights_by_c }, [SLOPE_AT] = { slopes_by_library, slopes_by_c },
        [ANY_ABOVE] = { NULL, raster_then_scan }, [STAGE_FOR] = { NULL, stage_by_same_search },
    };
    static runner *const run[SIDES] = { run_library, run_reference };
    work *of_job = of_function[j->call.function][side];

    return of_job != NULL ? of_job(j, run[side]) : answer_of_call(j, run[side]);
}
