/*
 * One call on both implementations, each with slices of its own between guard zones and fences.
 *
 * A guard zone is memory with a known pattern: it shows writes outside a slice. A fence is a page that nobody may touch:
 * it shows reads outside a slice too. Each slice lies against the fence before it, against the fence behind it, or free
 * of both; a slice of no elements may also be lent as NULL.
 */
#define _DEFAULT_SOURCE         /* MAP_ANONYMOUS */

#include "trial.h"

#include "inputs.h"

#include "../../include/curlewtable.h"
#include "../reference/reference.h"

#include <inttypes.h>
#include <signal.h>
#include <stdio.h>
#include <string.h>
#include <sys/mman.h>
#include <unistd.h>

#define SPARE 256               /* elements past the largest that is asked for */
#define GUARD 200               /* bytes of a guard zone: no multiple of 16, so that slices lie at odd multiples of 8 too */
#define GUARD_BYTE 0xA5

const size_t capacity[SLICES] = {
    [X] = 65535 + SPARE,
    [Y] = 65535 + SPARE,
    [Z] = 65535 + SPARE,
    [Q] = 65535 + SPARE,
    [LATTICE] = CURLEW_CONTROLS(512, 512) + SPARE,
    [RESIDUAL] = 65535 + SPARE,
    [WHOLE] = CURLEW_FIT_WHOLE(16, 16, 5, 65535) + SPARE,
    [FLOATS] = CURLEW_FIT_FLOATS(16, 16, 5) + SPARE,
    [VALUES] = 1000000 + SPARE,                                 /* a raster may have more, but not in these tests */
    [BYTES] = CURLEW_LATTICE_FILE(512, 512) + 20 * SPARE,       /* with room for a row too many */
};

size_t compared[FUNCTIONS][MOST_NUMBER + 1];
size_t refused_in_level[MOST_NUMBER + 1][LEVELS];

enum { LIBRARY, REFERENCE, SIDES };

static const char *const side_names[SIDES] = { "library", "reference" };

/* ---- what the report needs, wherever it is made ---- */

static const char *current_name = "";
static const call *current_call;
static const char *current_side;

static generator placement;

void trial_name(const char *name, uint64_t seed)
{
    current_name = name;
    placement.state = seed;
}

static void print_element(role r, const void *values, size_t at)
{
    if (r == X || r == Y)
        printf(" %u", (unsigned)((const uint16_t *)values)[at]);
    else if (r == FLOATS)
        printf(" %a", ((const double *)values)[at]);
    else if (r == Q)
        printf(" %u", (unsigned)((const uint8_t *)values)[at]);
    else if (r == BYTES)
        printf(" %02x", (unsigned)((const uint8_t *)values)[at]);
    else
        printf(" %" PRId64, ((const int64_t *)values)[at]);
}

/* The slice's length and, where the function reads it, its first elements. */
static void print_slice(const call *c, role r)
{
    const size_t length = c->slice[r].length;
    const size_t shown = writes(c->function, r) ? 0 : length < 100 ? length : 100;
    size_t at;

    printf("  %s[%zu]", role_names[r], length);
    for (at = 0; at < shown; at++)
        print_element(r, c->slice[r].at, at);
    printf("%s\n", shown > 0 && shown < length ? " ..." : "");
}

static void print_call(const call *c)
{
    unsigned place;
    role r;

    printf("%s: %s", current_name, shapes[c->function].name);
    for (place = 0; place < NUMBERS; place++)
        if (shapes[c->function].numbers >> place & 1)
            printf(place == STAGE ? ", %s %zd" : ", %s %zu", number_name(c->function, place), c->number[place]);
    printf("\n");
    for (r = X; r < SLICES; r++)
        if (takes(c->function, r))
            print_slice(c, r);
}

void trial_failed(const call *c, const char *why)
{
    printf("DIFFERENCE: %s\n", why);
    if (c != NULL)
        print_call(c);
    fflush(stdout);
    exit(1);
}

static void print_answer(const char *side, answer a)
{
    size_t at;

    printf("  %-9s answers number %" PRIu64 ", place %" PRIu64 ", then", side, a.field[NUMBER], a.field[PLACE]);
    for (at = FIRST; at < FIELDS; at++)
        printf(" %" PRId64, (int64_t)a.field[at]);
    printf("\n");
}

/* ---- signals ---- */

/*
 * A fence was touched, or the call aborted or does not end. printf is safe enough here: a call prints nothing, so the
 * signal does not come from inside printf.
 */
static void signalled(int number)
{
    printf("%s: signal %d in the %s\n", current_name, number, current_side == NULL ? "test itself" : current_side);
    if (current_call != NULL)
        print_call(current_call);
    fflush(stdout);
    _exit(1);
}

void trial_catch_signals(void)
{
    static const int numbers[] = { SIGSEGV, SIGBUS, SIGFPE, SIGILL, SIGABRT, SIGTRAP, SIGALRM };
    struct sigaction action;
    size_t i;

    memset(&action, 0, sizeof action);
    action.sa_handler = signalled;
    for (i = 0; i < COUNT(numbers); i++)
        sigaction(numbers[i], &action, NULL);
}

/* ---- slices between guard zones and fences ---- */

typedef struct {
    unsigned char *first;       /* behind its front fence */
    size_t size;                /* to its back fence */
} region;

/* A slice as it is lent, with the guard zones that it has. */
typedef struct {
    unsigned char *zone;
    size_t before, content, after;
} image;

static region new_region(size_t content)
{
    const size_t page = (size_t)sysconf(_SC_PAGESIZE);
    region made;
    unsigned char *memory;

    made.size = (content + 2 * GUARD + page - 1) / page * page;
    memory = mmap(NULL, made.size + 2 * page, PROT_NONE, MAP_PRIVATE | MAP_ANONYMOUS, -1, 0);
    if (memory == MAP_FAILED || mprotect(memory + page, made.size, PROT_READ | PROT_WRITE) != 0) {
        fprintf(stderr, "no memory\n");
        exit(2);
    }
    made.first = memory + page;
    return made;
}

/* The region of a side's slice, made when it is first needed. */
static region region_of(int side, role r)
{
    static region regions[SIDES][SLICES];

    if (regions[side][r].first == NULL)
        regions[side][r] = new_region(capacity[r] * element_size[r]);
    return regions[side][r];
}

enum { AT_FRONT, AT_BACK, FREE, PLACES };

/* A slice with the caller's contents, in the given place of its region. */
static image lay_out(region from, int place, const void *contents, size_t bytes)
{
    image made;

    made.before = place == AT_FRONT ? 0 : GUARD;
    made.content = bytes;
    made.after = place == AT_BACK ? 0 : GUARD;
    made.zone = place == AT_BACK ? from.first + from.size - bytes - GUARD : from.first;
    memset(made.zone, GUARD_BYTE, made.before);
    if (bytes > 0)
        memcpy(made.zone + made.before, contents, bytes);
    memset(made.zone + made.before + bytes, GUARD_BYTE, made.after);
    return made;
}

static int untouched(const unsigned char *guard, size_t bytes)
{
    static unsigned char pattern[GUARD];

    if (pattern[0] == 0)
        memset(pattern, GUARD_BYTE, GUARD);
    return memcmp(guard, pattern, bytes) == 0;
}

/* ---- a call on one side ---- */

static answer run_on(int side, const call *own)
{
    static runner *const run[SIDES] = { run_library, run_reference };
    answer result;

    current_side = side_names[side];
    result = run[side](own);
    current_side = NULL;
    return result;
}

/* ---- what the header says, whatever the reference does ---- */

/* How many elements, from the first, a fit with this answer may change: after 7, 13 and 14 only scratch, after others nothing. */
static size_t fit_may_change(const call *c, uint64_t number, role r)
{
    const size_t *v = c->number, points = c->slice[Z].length;

    if (number != 0 && (!in_levels(number) || r == LATTICE || r == RESIDUAL))
        return 0;
    switch (r) {
    case LATTICE:
        return CURLEW_FIT_LATTICE(v[M], v[N], v[H]);
    case RESIDUAL:
        return points;
    case WHOLE:
        return CURLEW_FIT_WHOLE(v[M], v[N], v[H], points);
    default:
        return CURLEW_FIT_FLOATS(v[M], v[N], v[H]);
    }
}

/* The same of any call: what it accepts is a prefix, what it refuses is nothing. */
static size_t may_change(const call *c, answer a, role r)
{
    if (!writes(c->function, r))
        return 0;
    if (c->function == FIT)
        return fit_may_change(c, a.field[NUMBER], r);
    if (a.field[NUMBER] != 0)
        return 0;
    switch (c->function) {
    case REFINE:
    case READ_LATTICE:
        return CURLEW_CONTROLS(a.field[FIRST], a.field[SECOND]);
    case READ_POINTS:
        return (size_t)a.field[FIELDS - 1];
    default:
        return (size_t)a.field[FIRST];
    }
}

static int all_zero(const unsigned char *bytes, size_t count)
{
    return count == 0 || (bytes[0] == 0 && memcmp(bytes, bytes + 1, count - 1) == 0);
}

/* A refusal has no values, an acceptance no place. */
static int well_formed(answer a)
{
    return a.field[NUMBER] == 0 ? a.field[PLACE] == 0
                                : all_zero((const unsigned char *)&a.field[FIRST], sizeof a - 2 * sizeof a.field[0]);
}

/* Each slope is within 750/unit + 1/2 of the exact surface's. */
static int slopes_hold(const call *c, answer a)
{
    const size_t *v = c->number;
    const int64_t *lattice = c->slice[LATTICE].at;
    const ref_wide along_x = ref_slope_x_sum(v[M], v[N], v[UNIT], lattice, v[AT_X], v[AT_Y]);
    const ref_wide along_y = ref_slope_y_sum(v[M], v[N], v[UNIT], lattice, v[AT_X], v[AT_Y]);

    return ref_slope_holds(v[UNIT], (int64_t)a.field[FIRST], along_x)
           && ref_slope_holds(v[UNIT], (int64_t)a.field[SECOND], along_y);
}

/* Whether so many first points of the call's lists have a confidence that is not 0. */
static int all_trusted(const call *c, size_t points)
{
    return c->slice[Q].length >= points && (points == 0 || memchr(c->slice[Q].at, 0, points) == NULL);
}

/*
 * A confidence of 0 is refused by 17 with the first such point. No such point comes before one that is refused by 5 or 6, and there
 * is none at all where a call is accepted, or refused for a difference or in a level.
 */
static int confidences_hold(const call *c, answer a)
{
    const uint64_t number = a.field[NUMBER], place = a.field[PLACE];

    if (number == NO_CONFIDENCE)
        return all_trusted(c, (size_t)place) && !all_trusted(c, (size_t)place + 1);
    if (number == 5 || number == 6)
        return all_trusted(c, (size_t)place);
    return (number != 0 && number != DIFFERENCE_OUT && !in_levels(number)) || all_trusted(c, c->slice[Q].length);
}

/* The library's own storage of a stage_for's raster and side at a stage. */
static answer stored_at(const call *c, int64_t stage)
{
    call storage = *c;

    storage.function = STORAGE_AT;
    storage.number[STAGE] = (size_t)stage;
    return run_on(LIBRARY, &storage);
}

/* Whether a storage is accepted with less than is wanted; and whether it is with no less. */
static int too_little(const call *c, answer stored)
{
    return stored.field[NUMBER] == 0 && stored.field[FIRST] < c->number[WANTED];
}

static int enough(const call *c, answer stored)
{
    return stored.field[NUMBER] == 0 && stored.field[FIRST] >= c->number[WANTED];
}

/*
 * A stage is given exactly where the highest stores enough, and stores enough where a micrometre lower does not. Where the highest
 * does not, it is 18; where it is refused, so is the call, with the same place.
 */
static int stage_holds(const call *c, answer a)
{
    const answer most = stored_at(c, LIMIT);
    const int64_t stage = (int64_t)a.field[FIRST];

    if (enough(c, most))
        return a.field[NUMBER] == 0 && enough(c, stored_at(c, stage))
               && (stage == -LIMIT || too_little(c, stored_at(c, stage - 1)));
    if (too_little(c, most))
        return a.field[NUMBER] == NO_STAGE && a.field[PLACE] == 0;
    return a.field[NUMBER] == most.field[NUMBER] && a.field[PLACE] == most.field[PLACE];
}

/* ---- the comparison ---- */

/* The first byte at which two differ. */
static size_t first_difference(const unsigned char *left, const unsigned char *right, size_t bytes)
{
    size_t at = 0;
    while (at < bytes && left[at] == right[at])
        at++;
    return at;
}

static void slice_failed(const call *c, role r, const char *what)
{
    char why[200];

    snprintf(why, sizeof why, "%s: %s", role_names[r], what);
    trial_failed(c, why);
}

/* Ends the process if the library's bytes from a place on are not the others', which are of the kind named. */
static void must_be_same(const call *c, role r, const unsigned char *library, const unsigned char *other,
                         size_t from, size_t bytes, const char *kind)
{
    size_t at;

    if (from >= bytes || memcmp(library + from, other + from, bytes - from) == 0)
        return;
    at = (from + first_difference(library + from, other + from, bytes - from)) / element_size[r];
    printf("  %s[%zu]: library", role_names[r], at);
    print_element(r, library, at);
    printf(", %s", kind);
    print_element(r, other, at);
    printf("\n");
    slice_failed(c, r, "not what it should be");
}

static void compare_guards(const call *c, role r, image lent, const char *wrote)
{
    if (!untouched(lent.zone, lent.before) || !untouched(lent.zone + lent.before + lent.content, lent.after))
        slice_failed(c, r, wrote);
}

static void compare_slice(const call *c, answer a, role r, image library, image reference)
{
    const unsigned char *left = library.zone + library.before, *right = reference.zone + reference.before;
    const size_t changed = may_change(c, a, r) * element_size[r];

    must_be_same(c, r, left, right, 0, library.content, "reference");
    if (changed > library.content)
        slice_failed(c, r, "the answer speaks of more than was lent");
    must_be_same(c, r, left, c->slice[r].at, changed, library.content, "as lent, where nothing changes,");
    if ((r == WHOLE || r == FLOATS) && !all_zero(left, changed))
        slice_failed(c, r, "not zero");
    compare_guards(c, r, library, "the library wrote outside");
    compare_guards(c, r, reference, "the reference wrote outside");
}

static void compare_answers(const call *c, answer library, answer reference)
{
    if (memcmp(&library, &reference, sizeof library) != 0) {
        print_answer(side_names[LIBRARY], library);
        print_answer(side_names[REFERENCE], reference);
        trial_failed(c, "the answers differ");
    }
    if (!well_formed(library))
        trial_failed(c, "a refusal with values, or an acceptance with a place");
    if (c->function == SLOPE_AT && library.field[NUMBER] == 0 && !slopes_hold(c, library))
        trial_failed(c, "a slope too far from the exact surface's");
    if ((c->function == FIT || c->function == WRITE_POINTS) ? !confidences_hold(c, library)
                                                            : library.field[NUMBER] == NO_CONFIDENCE)
        trial_failed(c, "a confidence of 0 that is passed over, or named where none is");
    if (c->function == STAGE_FOR ? !stage_holds(c, library) : library.field[NUMBER] == NO_STAGE)
        trial_failed(c, "not the lowest stage whose storage is enough, or a refusal that no storage bears out");
}

/* The call with slices of the side's own, laid out like the other side's. */
static call lent_to(int side, const call *c, const int place[SLICES], image images[SLICES])
{
    call own = *c;
    role r;

    for (r = X; r < SLICES; r++) {
        if (!takes(c->function, r))
            continue;
        images[r] = lay_out(region_of(side, r), place[r], c->slice[r].at, c->slice[r].length * element_size[r]);
        own.slice[r].at = images[r].zone + images[r].before;
        if (c->slice[r].length == 0 && place[r] == AT_FRONT)
            own.slice[r].at = NULL;
    }
    return own;
}

answer trial(const call *c)
{
    image images[SIDES][SLICES];
    int place[SLICES];
    call own[SIDES];
    answer answers[SIDES];
    role r;
    int side;

    current_call = c;
    for (r = X; r < SLICES; r++)
        place[r] = (int)below(&placement, PLACES);
    for (side = 0; side < SIDES; side++) {
        own[side] = lent_to(side, c, place, images[side]);
        answers[side] = run_on(side, &own[side]);
    }

    compare_answers(c, answers[LIBRARY], answers[REFERENCE]);
    for (r = X; r < SLICES; r++)
        if (takes(c->function, r))
            compare_slice(c, answers[LIBRARY], r, images[LIBRARY][r], images[REFERENCE][r]);
    compared[c->function][answers[LIBRARY].field[NUMBER]]++;
    if (in_levels(answers[LIBRARY].field[NUMBER]))
        refused_in_level[answers[LIBRARY].field[NUMBER]][answers[LIBRARY].field[PLACE]]++;

    for (r = X; r < SLICES; r++)
        if (writes(c->function, r) && c->slice[r].length > 0)
            memcpy(c->slice[r].at, own[LIBRARY].slice[r].at, c->slice[r].length * element_size[r]);
    current_call = NULL;
    return answers[LIBRARY];
}
