/* The stage for a wanted storage in C, by the search that the library has. */
#ifndef STAGE_H
#define STAGE_H

#include "../tests/reference/reference.h"

/* As ref_stage_for, answer for answer. */
ref_stage same_search(size_t columns, size_t rows, const int64_t *heights, size_t heights_len, uint64_t wanted, size_t side);

#endif
