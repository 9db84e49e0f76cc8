/*
 * A libFuzzer target for the program: any bytes on the standard input of crates/curlew/out/curlew (or of the program that the
 * environment names in CURLEW), and what it writes compared with the reference's answer. A difference ends the process,
 * which libFuzzer reports with the input. The reference's coverage guides the fuzzer.
 */
#include "../reference/reference.h"

#include <stdio.h>
#include <stdlib.h>
#include <string.h>
#include <sys/wait.h>
#include <unistd.h>

#define MOST_OUTPUT 2974

int LLVMFuzzerTestOneInput(const uint8_t *data, size_t size);

static void must(int fine, const char *what)
{
    if (!fine) {
        perror(what);
        abort();
    }
}

/* Runs the program on the bytes of a file; the bytes that it wrote, one more than it may at most. */
static size_t run(FILE *input, uint8_t *output, size_t most)
{
    const char *program = getenv("CURLEW") ? getenv("CURLEW") : "crates/curlew/out/curlew";
    int ends[2], status;
    size_t length = 0;
    ssize_t got;
    pid_t child;

    must(pipe(ends) == 0, "pipe");
    child = fork();
    must(child >= 0, "fork");
    if (child == 0) {
        if (dup2(fileno(input), 0) == 0 && dup2(ends[1], 1) == 1 && close(ends[0]) == 0)
            execl(program, program, (char *)NULL);
        _exit(127);
    }
    close(ends[1]);
    while (length < most && (got = read(ends[0], output + length, most - length)) > 0)
        length += (size_t)got;
    close(ends[0]);
    must(waitpid(child, &status, 0) == child, "waitpid");
    must(!WIFSIGNALED(status) && WEXITSTATUS(status) != 127, "the program ended badly");
    return length;
}

int LLVMFuzzerTestOneInput(const uint8_t *data, size_t size)
{
    static uint8_t due[MOST_OUTPUT], output[MOST_OUTPUT + 1];
    const size_t due_length = ref_program(data, size, due);
    FILE *input = tmpfile();
    size_t length;

    must(input != NULL && fwrite(data, 1, size, input) == size && fflush(input) == 0, "tmpfile");
    must(lseek(fileno(input), 0, SEEK_SET) == 0, "lseek");
    length = run(input, output, sizeof output);
    fclose(input);
    if (length != due_length || memcmp(output, due, length) != 0) {
        fprintf(stderr, "the program writes %zu bytes, the reference %zu\n", length, due_length);
        abort();
    }
    return 0;
}
