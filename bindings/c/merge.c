/* Merges two lockfiles over their common ancestor, and prints the merged one, or the lines of the
 * conflicts, or why a lockfile cannot be merged.
 *
 *     merge base.lock ours.lock theirs.lock
 */
#include "cargo_lock.h"

#include <stdio.h>
#include <stdlib.h>

typedef struct {
    uint8_t *bytes;
    size_t length;
} text;

/* Reads a file into memory that the caller frees. The bytes are NULL where that fails. */
static text read_file(const char *path)
{
    FILE *file = fopen(path, "rb");
    text made = {NULL, 0};
    size_t room = 0;

    if (file == NULL)
        return made;
    do {
        uint8_t *more = realloc(made.bytes, room = 2 * room + 4096);
        if (more == NULL) {
            free(made.bytes);
            made.bytes = NULL;
            break;
        }
        made.bytes = more;
        made.length += fread(made.bytes + made.length, 1, room - made.length, file);
    } while (made.length == room);
    fclose(file);
    return made;
}

/* The text of the merge, or the one that says why there is none, in memory that the caller frees. */
static uint32_t merge(const text sides[3], text *merged)
{
    uint32_t status;

    merged->length = sides[1].length + sides[2].length;
    do {
        uint8_t *more = realloc(merged->bytes, merged->length + 1);
        if (more == NULL)
            return CARGO_LOCK_NO_MEMORY;
        merged->bytes = more;
        status = cargo_lock_merge(sides[0].bytes, sides[0].length, sides[1].bytes,
                                  sides[1].length, sides[2].bytes, sides[2].length,
                                  merged->bytes, merged->length, &merged->length);
    } while (status == CARGO_LOCK_NO_ROOM);
    return status;
}

/* Prints what a merge ends with. Returns the status of the program. */
static int print(uint32_t status, text merged)
{
    switch (status) {
    case CARGO_LOCK_DONE:
        fwrite(merged.bytes, 1, merged.length, stdout);
        return 0;
    case CARGO_LOCK_CONFLICTS:
        fwrite(merged.bytes, 1, merged.length, stderr);
        return 1;
    case CARGO_LOCK_BASE_REFUSED:
    case CARGO_LOCK_OURS_REFUSED:
    case CARGO_LOCK_THEIRS_REFUSED:
        fwrite(merged.bytes, 1, merged.length, stderr);
        return 2;
    default:
        fprintf(stderr, "status %u\n", status);
        return 2;
    }
}

int main(int argc, char **argv)
{
    text sides[3] = {{NULL, 0}, {NULL, 0}, {NULL, 0}}, merged = {NULL, 0};
    int failed = 2, side;

    for (side = 0; side < 3 && argc == 4; side++) {
        sides[side] = read_file(argv[side + 1]);
        if (sides[side].bytes == NULL)
            break;
    }
    if (argc != 4)
        fprintf(stderr, "usage: merge BASE OURS THEIRS\n");
    else if (side < 3)
        perror(argv[side + 1]);
    else {
        uint32_t status = merge(sides, &merged);
        failed = print(status, merged);
    }
    for (side = 0; side < 3; side++)
        free(sides[side].bytes);
    free(merged.bytes);
    return failed;
}
