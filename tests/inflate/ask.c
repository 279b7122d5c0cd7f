/* Reads questions from standard input, and writes what is answered to standard output. Each number
   has eight bytes, the lowest first.

   A question is `i` for a stream or `g` for a member, then the limit, the number of the growth that
   is refused or 0, 1 if it is refused alone, how many bytes the input has, and these.

   An answer is its name and zeros up to 24 bytes, then the place behind the stream or the member,
   how many growths there were, how many blocks were left over, how many bytes there are, and these. */
#include "../operations/operations.h"
#include <stdio.h>
#include <stdlib.h>
#include <string.h>

enum { NAME_ROOM = 24 };

/* How an input is asked, as the operations have it. */
typedef struct {
    size_t length;
    size_t limit;
    uint64_t growth;
    bool is_lone;
    bool is_member;
} Asked;

static uint64_t blocks_before;

static void stop(const char *why) {
    fprintf(stderr, "ask: %s\n", why);
    exit(2);
}

static uint64_t number(void) {
    uint64_t found;
    if (fread(&found, sizeof found, 1, stdin) != 1) {
        stop("a question is cut short");
    }
    return found;
}

static void tell(uint64_t found) {
    fwrite(&found, sizeof found, 1, stdout);
}

bool next_input(uint8_t *room, size_t size, Asked *asked) {
    int kind = getchar();
    if (kind == EOF) {
        return false;
    }
    asked->is_member = kind == 'g';
    asked->limit = number();
    asked->growth = number();
    asked->is_lone = number() == 1;
    asked->length = number();
    if (asked->length > size || fread(room, 1, asked->length, stdin) != asked->length) {
        stop("an input is too long or cut short");
    }
    blocks_before = live_blocks();
    return true;
}

void take_result(const uint8_t *name, size_t name_length, const uint8_t *bytes, size_t length,
                 size_t next, uint64_t growths) {
    char room[NAME_ROOM] = {0};
    memcpy(room, name, name_length < NAME_ROOM ? name_length : NAME_ROOM);
    fwrite(room, 1, NAME_ROOM, stdout);
    tell(next);
    tell(growths);
    /* The bytes that are told are a block that is still held. */
    tell(live_blocks() - blocks_before - (length > 0));
    tell(length);
    fwrite(bytes, 1, length, stdout);
}

int main(int count, char **words) {
    return operations_main(count, words);
}
