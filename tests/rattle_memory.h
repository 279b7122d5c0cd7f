/* The memory that compiled Rattle asks for, for a program that gives it in place of the kit. */
#ifndef RATTLE_MEMORY_H
#define RATTLE_MEMORY_H
#include <stddef.h>
#include <stdint.h>

/* An answer: whether memory was given, and where. */
typedef struct {
    uint64_t is_given;
    void *at;
} Block;

Block rattle_alloc(size_t size, size_t align);
Block rattle_realloc(void *at, size_t old_size, size_t size, size_t align);
void rattle_dealloc(void *at);

#endif
