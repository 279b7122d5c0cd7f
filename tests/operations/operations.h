/* The operations, and what a harness gives them: questions, and memory that can be refused. */
#ifndef OPERATIONS_H
#define OPERATIONS_H
#include <stdbool.h>
#include <stddef.h>
#include <stdint.h>

/* The program of the operations: it asks `next_question` until there is none. */
int operations_main(int count, char **words);

/* ---- what a harness defines */

/* How long the parts of a question are, and whether its text means a lockfile. */
typedef struct {
    size_t name_length;
    size_t path_length;
    size_t text_length;
    bool is_lockfile;
} Lengths;

/* What is answered to a question. The operation `fuzz` answers bits that only it knows. `FAILED` is
   answered of rows and tests. */
enum { DONE, NO_TEXT, NO_OPERATION, NOT_MADE, NO_ROOM, FAILED };

/* What came of a call that is swept. */
enum {
    WRONG_UNDISTURBED,
    RIGHT_UNDISTURBED,
    MEMORY,
    UNDISTURBED_ANSWER,
    OTHER_ANSWER,
    CHANGED,
    BLOCKS_LEFT
};

/* Writes the next question into the rooms: the name of an operation, the path of a file, and the text
   that it holds. False where there is none. */
bool next_question(uint8_t *name, size_t name_room, uint8_t *path, size_t path_room, uint8_t *text,
                   size_t text_room, Lengths *lengths);

/* Takes the answer to the question. */
void take_answer(uint32_t answer);

/* Takes what came of a call whose growth of this number was refused, 0 where none was. */
void told(uint32_t outcome, uint64_t growth);

/* ---- what memory.c defines */

/* The growth of this number, from 1, is refused, and where it is not alone all that follow it too.
   At 0 none is. `refused` ends that, and answers how many growths there were. */
void refuse(uint64_t growth, bool lone);
uint64_t refused(void);

/* How many blocks are held. */
uint64_t live_blocks(void);

/* Whether growths were refused alone, and how many were, since the last `refuse`. */
bool refuses_alone(void);
uint64_t refusals(void);

/* Writes into the room where the growth was asked for that was refused alone since the last
   `refuse`: the innermost function along the stack that is not of the standard library. Where that
   library's `grow_by_hint` asked on its behalf, its name and ` for ` stand before it. Names are
   without what tells the instances of a function apart. */
void name_place(char *room, size_t size);

/* Reads the names of this program's functions. Walks along the stack end at `top`. */
bool read_names(const void *top);
#endif
