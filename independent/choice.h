/*
 * The source of choices: everything that the drivers leave open is drawn here, from a seed or from
 * the bytes of a fuzzer's input, so that the same drivers serve both. Choice 0 is everywhere the
 * plain one, since a used-up input gives nothing else. The numbers that a run is called with are
 * read here too.
 */
#ifndef CHOICE_H
#define CHOICE_H

#include <stddef.h>
#include <stdint.h>

typedef struct choice {
    uint64_t seeded;
    int fed; /* by bytes, not by a seed */
    const uint8_t *bytes;
    size_t length;
    size_t place;
} choice;

void choice_seed(choice *from, uint64_t seed);
void choice_feed(choice *from, const uint8_t *bytes, size_t length);

/* Whether the bytes are used up. A seed never is. */
int choice_done(const choice *from);

/* A number below `count`; 0 if `count` is 0. */
uint32_t choice_below(choice *from, uint32_t count);

/* Whether the one case in `count` has come that is not the plain one. */
int choice_one_in(choice *from, uint32_t count);

/* One entry of a list. */
uint32_t choice_of(choice *from, const uint32_t *list, size_t count);
#define CHOICE_OF(from, list) choice_of(from, list, sizeof(list) / sizeof(list)[0])

/* Reads a number off a command line: digits alone, and no more than 64 bits hold. Anything else
 * leaves the number as it is and answers 0. */
int choice_read(const char *text, uint64_t *number);

/* Bytes that look random, from one seed for all runs. A fuzzer would waste its input on them. */
void choice_noise(uint8_t *bytes, size_t length);

#endif
