/*
 * A libFuzzer target for the two readers: any bytes as a file, read by the library and by the reference, everything
 * compared as in tests/compare/trial.c. A difference ends the process, which libFuzzer reports with the input.
 *
 * The first byte chooses the reader (its lowest bit), how long an output is (the next two), and which of a point reader's four lists
 * that is (the next three; the others are as long as the file asks, or all are that long); the rest is the file.
 */
#include "../compare/trial.h"

#include "../../include/curlewtable.h"
#include "../common/basics.h"

#include <string.h>

int LLVMFuzzerTestOneInput(const uint8_t *data, size_t size);

static size_t u16_at(const uint8_t *file, size_t length, size_t at)
{
    return at + 2 <= length ? (size_t)(file[at] | file[at + 1] << 8) : 0;
}

/* The places that the file's header asks for; no more than it has bytes, since such a file is incomplete anyway. */
static size_t places_of(function reader, const uint8_t *file, size_t length)
{
    const size_t m = u16_at(file, length, 2), n = u16_at(file, length, 4);
    const size_t places = reader == READ_POINTS ? u16_at(file, length, 6) : CURLEW_CONTROLS(m, n);

    return places < length ? places : length;
}

/* The one list that the choice is for, or SLICES if it is for all outputs. */
static role chosen_list(function reader, unsigned choice)
{
    return reader == READ_POINTS && (choice & 7) <= Q ? (role)(choice & 7) : SLICES;
}

/* Exactly so many, one too few, some more, or none. */
static size_t length_for(size_t places, unsigned choice)
{
    const size_t lengths[] = { places, places > 0 ? places - 1 : 0, places + 5, 0 };
    return lengths[choice & 3];
}

static void lend(call *c, role r, size_t length)
{
    static void *memory[SLICES];

    if (memory[r] == NULL)
        memory[r] = room(capacity[r], element_size[r]);
    memset(memory[r], 0x5C, length * element_size[r]);
    c->slice[r].at = memory[r];
    c->slice[r].length = length;
}

int LLVMFuzzerTestOneInput(const uint8_t *data, size_t size)
{
    call c = { READ_LATTICE, { 0 }, { { NULL, 0 } } };
    const uint8_t *file = data + 1;
    size_t places, length;
    role r, chosen;

    if (size == 0 || size - 1 > 60000)          /* so that the outputs have room too */
        return 0;
    c.function = data[0] & 1 ? READ_POINTS : READ_LATTICE;
    chosen = chosen_list(c.function, data[0] >> 3);
    places = places_of(c.function, file, size - 1);
    length = length_for(places, data[0] >> 1);
    for (r = X; r < SLICES; r++)
        if (writes(c.function, r))
            lend(&c, r, chosen == SLICES || chosen == r ? length : places);
    c.slice[BYTES].at = (void *)file;
    c.slice[BYTES].length = size - 1;
    trial_name("fuzzed file", data[0] >> 3);
    trial(&c);
    return 0;
}
