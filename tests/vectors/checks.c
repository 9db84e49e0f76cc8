/*
 * What the checks of the vectors share. See checks.h.
 */
#include "checks.h"

#include <string.h>

call call_of(function f, list head)
{
    call c;
    size_t at;

    memset(&c, 0, sizeof c);
    c.function = f;
    for (at = 0; at < head.count && at < NUMBERS; at++)
        c.number[at] = (size_t)head.values[at];
    return c;
}

void lend_slice(call *c, role r, void *at, size_t length)
{
    c->slice[r].at = at;
    c->slice[r].length = length;
}

void check_line(const numbers *line, const char *text, size_t least_lists, size_t head)
{
    if (line->lists < least_lists || line->list[0].count != head)
        bad_line(text);
}

int accepted(answer got)
{
    return got.field[NUMBER] == 0;
}

int same_answer(answer got, list expected, size_t fields, size_t results)
{
    answer wanted = { { 0 } };
    const size_t given = accepted(got) ? 2 + fields : 2;
    size_t at;

    if (expected.count != (accepted(got) ? given + results : given))
        return 0;
    for (at = 0; at < given; at++)
        wanted.field[at] = (uint64_t)expected.values[at];
    return memcmp(&wanted, &got, sizeof got) == 0;
}
