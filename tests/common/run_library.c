/* Runs a call on the library under test, through its header. */
#include "call.h"
#include "../../include/curlewtable.h"

#define SIDE(name) curlew_##name
#define RUN run_library
#include "run.inc"
