/* Texts that are made from lockfiles by a generator of random numbers. */
#ifndef MUTATE_H
#define MUTATE_H
#include <stddef.h>
#include <stdint.h>

typedef struct {
    uint8_t *bytes;
    size_t length;
} Text;

/* The greatest length of a text that is made. */
enum { LONGEST = 1 << 18 };

/* Starts the generator. One seed gives the same texts each time. */
void start_random(uint64_t seed);

/* Makes a text from one of these, at most of the greatest length, which `made` has room for. */
void mutate(const Text *texts, size_t count, Text *made);
#endif
