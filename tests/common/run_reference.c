/* Runs a call on the reference. */
#include "call.h"
#include "../reference/reference.h"

#define SIDE(name) ref_##name
#define RUN run_reference
#include "run.inc"
