/* Prints the packages of a lockfile, and after each those on which it depends.
 *
 *     example Cargo.lock
 */
#include "cargo_lock.h"

#include <stdio.h>
#include <stdlib.h>
#include <string.h>

/* Reads a file into memory that the caller frees, or answers NULL. */
static uint8_t *read_file(const char *path, size_t *length)
{
    FILE *file = fopen(path, "rb");
    uint8_t *bytes = NULL;
    size_t room = 0;

    *length = 0;
    if (file == NULL)
        return NULL;
    do {
        uint8_t *more = realloc(bytes, room = 2 * room + 4096);
        if (more == NULL) {
            free(bytes);
            bytes = NULL;
            break;
        }
        bytes = more;
        *length += fread(bytes + *length, 1, room - *length, file);
    } while (*length == room);
    fclose(file);
    return bytes;
}

/* The lines of the packages, with a byte 0 at the end, in memory that the caller frees. */
static uint32_t read_packages(const uint8_t *text, size_t text_len, char **lines)
{
    size_t length = 0;
    uint8_t none;
    uint32_t status = cargo_lock_packages(text, text_len, &none, 0, &length);

    *lines = malloc(length + 1);
    if (*lines == NULL)
        return CARGO_LOCK_NO_MEMORY;
    if (status == CARGO_LOCK_NO_ROOM)
        status = cargo_lock_packages(text, text_len, (uint8_t *)*lines, length, &length);
    (*lines)[status == CARGO_LOCK_DONE ? length : 0] = 0;
    return status;
}

/* The edges, in memory that the caller frees. */
static uint32_t read_edges(const uint8_t *text, size_t text_len, cargo_lock_edge **edges,
                           size_t *count)
{
    cargo_lock_edge none;
    uint32_t status = cargo_lock_edges(text, text_len, &none, 0, count);

    *edges = malloc((*count + 1) * sizeof **edges);
    if (*edges == NULL)
        return CARGO_LOCK_NO_MEMORY;
    if (status == CARGO_LOCK_NO_ROOM)
        status = cargo_lock_edges(text, text_len, *edges, *count, count);
    return status;
}

/* Prints why the text is no lockfile. */
static void print_fault(const uint8_t *text, size_t text_len, uint32_t status)
{
    uint8_t words[512];
    size_t length = 0;

    if (cargo_lock_fault(text, text_len, words, sizeof words, &length) == CARGO_LOCK_DONE && length)
        fprintf(stderr, "%.*s\n", (int)length, words);
    else
        fprintf(stderr, "status %u\n", status);
}

/* Prints the packages of these lines by name and version, and those that they depend on. */
static int print_all(char *lines, const cargo_lock_edge *edges, size_t count)
{
    size_t packages = 0, package, edge;
    char **names;

    for (char *at = lines; *at; at++)
        packages += *at == '\n';
    names = calloc(packages + 1, sizeof *names);
    if (names == NULL)
        return 1;
    for (package = 0; package < packages; package++) {
        char *end = strchr(lines, '\n');
        char *version = strchr(names[package] = lines, '\t');
        *version = ' ';
        *strchr(version, '\t') = 0;
        lines = end + 1;
    }
    for (package = edge = 0; package < packages; package++) {
        puts(names[package]);
        for (; edge < count && edges[edge].from == package; edge++)
            printf("  %s\n", names[edges[edge].to]);
    }
    free(names);
    return 0;
}

int main(int argc, char **argv)
{
    size_t length, count = 0;
    uint8_t *text = argc == 2 ? read_file(argv[1], &length) : NULL;
    char *lines = NULL;
    cargo_lock_edge *edges = NULL;
    uint32_t status;
    int failed = 1;

    if (text == NULL) {
        fprintf(stderr, "usage: example Cargo.lock\n");
        return 1;
    }
    status = read_packages(text, length, &lines);
    if (status == CARGO_LOCK_DONE)
        status = read_edges(text, length, &edges, &count);
    if (status == CARGO_LOCK_DONE)
        failed = print_all(lines, edges, count);
    else
        print_fault(text, length, status);
    free(edges);
    free(lines);
    free(text);
    return failed;
}
