/*
 * Runs every file of the outside vectors against the reference, but for quotient.txt: near of an f64 is part of its fits alone.
 *
 *   vectors FOLDER
 *
 * Prints for each file how many lines agree and how many differ; exit 1 on any difference,
 * 2 if a file cannot be read or has no lines.
 */
#include "reference.h"

#include "../vectors/lines.h"

#include <stdio.h>
#include <stdlib.h>
#include <string.h>

/* v d near(v/d); near is no call of the library, so no runner has it. */
static int near_line(const char *text, runner *run)
{
    numbers line = read_numbers(text);
    const int64_t *v = line.list[0].values;
    int agrees;

    (void)run;
    if (line.lists != 1 || line.list[0].count != 3)
        bad_line(text);
    agrees = ref_near(v[0], v[1]) == v[2];
    free_numbers(&line);
    return agrees;
}

/* standard input and standard output, in hex */
static int program_line(const char *text, runner *run)
{
    const char *at = text;
    size_t input_len, expected_len, got_len;
    uint8_t *input = read_hex(&at, &input_len);
    uint8_t *expected = read_hex(&at, &expected_len);
    uint8_t *output = room(2974, 1);
    int agrees;

    (void)run;
    if (*at != '\0')
        bad_line(text);
    got_len = ref_program(input, input_len, output);
    agrees = got_len == expected_len && memcmp(output, expected, got_len) == 0;
    free(input);
    free(expected);
    free(output);
    return agrees;
}

int main(int argc, char **argv)
{
    size_t differ = 0;

    if (argc != 2) {
        fprintf(stderr, "usage: vectors FOLDER\n");
        return 2;
    }
    differ += run_file(argv[1], "near.txt", near_line, run_reference);
    differ += run_calls(argv[1], run_reference);
    differ += run_file(argv[1], "program.txt", program_line, run_reference);
    return differ == 0 ? 0 : 1;
}
