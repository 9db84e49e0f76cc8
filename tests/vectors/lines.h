/*
 * Reads the outside vectors: files of one case a line, numbers in fields that colons part.
 * What cannot be read ends the process with status 2.
 */
#ifndef LINES_H
#define LINES_H

#include "../common/basics.h"
#include "../common/call.h"

#include <stddef.h>
#include <stdint.h>

/* Numbers of 64 bits. One above INT64_MAX, as wanted litres may be, is there by its bits. */
typedef struct {
    int64_t *values;
    size_t count;
} list;

#define MOST_LISTS 8

typedef struct {
    list list[MOST_LISTS];
    size_t lists;
} numbers;

void bad_line(const char *line);

/* The line's fields, to be given back with free_numbers. */
numbers read_numbers(const char *line);
void free_numbers(numbers *line);

/* Bytes of the hex text up to a blank or the end, to be given back with free; "-" is no bytes. Goes on to what follows the blank. */
uint8_t *read_hex(const char **at, size_t *count);

int same_values(const int64_t *left, const int64_t *right, size_t count);

/* Says whether a line agrees with what the runner answers. */
typedef int line_check(const char *line, runner *run);

/* Checks every line of folder/name and prints how many agree and how many differ; returns how many differ. */
size_t run_file(const char *folder, const char *name, line_check *agrees, runner *run);

/*
 * Checks height.txt, slope.txt, refine.txt, raster.txt, above.txt, storage.txt, stage.txt, fit.txt and points.txt on the runner;
 * returns how many lines differ.
 */
size_t run_calls(const char *folder, runner *run);

#endif
