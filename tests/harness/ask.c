/* Asks the operations one question, and ends with 0 where the rows hold or the test passed, with 1
   where not, and with 2 where nothing was asked.

       ask NAME [FILE]

   NAME is that of a test, or `rows` or `examples`. FILE is the case file of the rows. */
#define _GNU_SOURCE
#include "../operations/operations.h"
#include <stdio.h>
#include <stdlib.h>
#include <string.h>

static const char *name, *path;
static bool is_asked;
static uint32_t answered = NO_OPERATION;

bool next_question(uint8_t *name_at, size_t name_room, uint8_t *path_at, size_t path_room,
                   uint8_t *text, size_t text_room, Lengths *lengths) {
    (void)text;
    (void)text_room;
    size_t name_length = strlen(name), path_length = strlen(path);
    if (is_asked || name_length > name_room || path_length > path_room) {
        return false;
    }
    is_asked = true;
    memcpy(name_at, name, name_length);
    memcpy(path_at, path, path_length);
    *lengths = (Lengths){name_length, path_length, 0, false};
    return true;
}

void take_answer(uint32_t answer) {
    answered = answer;
}

void told(uint32_t outcome, uint64_t growth) {
    (void)outcome;
    (void)growth;
}

int main(int count, char **words) {
    if (count != 2 && count != 3) {
        fputs("usage: ask NAME [FILE]\n", stderr);
        return 2;
    }
    name = words[1];
    path = count == 3 ? words[2] : "";
    operations_main(1, words);
    if (answered != DONE && answered != FAILED) {
        fprintf(stderr, "ask: there is no test `%s`\n", name);
        return 2;
    }
    return answered == FAILED;
}
