/*
 * The parser of the outside vectors, and the walk over a file's lines.
 */
#include "lines.h"

#include <errno.h>
#include <stdio.h>
#include <stdlib.h>
#include <string.h>

void bad_line(const char *line)
{
    fprintf(stderr, "cannot read this line: %.60s\n", line);
    exit(2);
}

/* The numbers from at to end. */
static list read_list(const char *line, const char *at, const char *end)
{
    list result = { room((size_t)(end - at), sizeof(int64_t)), 0 };

    for (;;) {
        char *after;
        at += strspn(at, " ");
        if (at == end)
            return result;
        errno = 0;
        result.values[result.count++] = *at == '-' ? strtoll(at, &after, 10) : (int64_t)strtoull(at, &after, 10);
        if (after == at || after > end || errno != 0)
            bad_line(line);
        at = after;
    }
}

numbers read_numbers(const char *line)
{
    numbers result;
    const char *at = line;

    memset(&result, 0, sizeof result);
    for (;;) {
        const char *end = at + strcspn(at, ":");

        if (result.lists == MOST_LISTS)
            bad_line(line);
        result.list[result.lists++] = read_list(line, at, end);
        if (*end == '\0')
            return result;
        at = end + 1;
    }
}

void free_numbers(numbers *line)
{
    size_t i;
    for (i = 0; i < line->lists; i++)
        free(line->list[i].values);
}

static int hex_digit(char c)
{
    if (c >= '0' && c <= '9')
        return c - '0';
    if (c >= 'a' && c <= 'f')
        return c - 'a' + 10;
    if (c >= 'A' && c <= 'F')
        return c - 'A' + 10;
    return -1;
}

uint8_t *read_hex(const char **at, size_t *count)
{
    size_t digits = strcspn(*at, " "), byte;
    uint8_t *bytes = room(digits / 2, 1);

    *count = 0;
    if (digits != 1 || **at != '-') {
        if (digits % 2 != 0)
            bad_line(*at);
        for (byte = 0; byte < digits / 2; byte++) {
            int high = hex_digit((*at)[2 * byte]), low = hex_digit((*at)[2 * byte + 1]);
            if (high < 0 || low < 0)
                bad_line(*at);
            bytes[byte] = (uint8_t)(high << 4 | low);
        }
        *count = digits / 2;
    }
    *at += digits;
    *at += strspn(*at, " ");
    return bytes;
}

int same_values(const int64_t *left, const int64_t *right, size_t count)
{
    size_t at;
    for (at = 0; at < count; at++)
        if (left[at] != right[at])
            return 0;
    return 1;
}

static char *read_whole_file(const char *path)
{
    FILE *file = fopen(path, "rb");
    size_t used = 0, size = 1 << 16, got;
    char *text = room(size, 1);

    if (file == NULL) {
        fprintf(stderr, "cannot open %s\n", path);
        exit(2);
    }
    while ((got = fread(text + used, 1, size - used, file)) > 0) {
        used += got;
        if (used == size) {
            size *= 2;
            text = realloc(text, size + 1);
            if (text == NULL)
                exit(2);
        }
    }
    if (ferror(file)) {
        fprintf(stderr, "cannot read %s\n", path);
        exit(2);
    }
    fclose(file);
    text[used] = '\0';
    return text;
}

static char *read_named_file(const char *folder, const char *name)
{
    char path[4096];

    if ((size_t)snprintf(path, sizeof path, "%s/%s", folder, name) >= sizeof path) {
        fprintf(stderr, "path too long\n");
        exit(2);
    }
    return read_whole_file(path);
}

/* Ends the line at its newline, or at the carriage return before it, and returns what follows. */
static char *end_line(char *line)
{
    const size_t length = strcspn(line, "\n");
    char *next = line[length] == '\n' ? line + length + 1 : line + length;

    line[length] = '\0';
    if (length > 0 && line[length - 1] == '\r')
        line[length - 1] = '\0';
    return next;
}

size_t run_file(const char *folder, const char *name, line_check *agrees, runner *run)
{
    char *text = read_named_file(folder, name);
    char *line = text, *next;
    size_t number = 0, agree = 0, differ = 0;

    for (; *line != '\0'; line = next) {
        next = end_line(line);
        number++;
        if (*line == '\0')
            continue;
        if (agrees(line, run)) {
            agree++;
        } else {
            differ++;
            printf("%s line %zu differs: %.100s\n", name, number, line);
        }
    }
    free(text);
    if (agree + differ == 0) {
        fprintf(stderr, "%s/%s has no lines\n", folder, name);
        exit(2);
    }
    printf("%-12s %4zu agree %4zu differ\n", name, agree, differ);
    return differ;
}
