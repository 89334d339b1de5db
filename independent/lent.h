/*
 * Memory that is lent, states and outputs among it: a copy for each implementation and one of what
 * it held before the call, each between guards that nobody may write.
 */
#ifndef LENT_H
#define LENT_H

#include <stddef.h>
#include <stdint.h>
#include <stdio.h>

#define LENT_GUARD 64u

/* The lent memory begins at any of so many places, so that it is not always aligned. */
#define LENT_SHIFTS 16u

/* A multiple of 8, so that every arena is aligned as the first one is. */
#define LENT_SIZE(most) (LENT_GUARD + LENT_SHIFTS + ((most) + 7) / 8 * 8 + LENT_GUARD)

/* Three arenas for `most` bytes, which begin where a `type` may lie. */
#define LENT_ARENAS(type, name, most) static type name[3 * LENT_SIZE(most) / sizeof(type)]

typedef struct lent {
    uint8_t *library;
    uint8_t *second;
    uint8_t *before;
} lent;

/* Lays out three arenas, `size` bytes in all, one behind the other. */
void lent_lay(lent *memory, void *arenas, size_t size, size_t shift);

/* Fills `length` bytes and both guards. */
void lent_fill(const lent *memory, size_t length, uint8_t byte);

/* Copies `before` to both. */
void lent_spread(const lent *memory, size_t length);

/* Fills the first `length` bytes with `byte`, so that no old message is left there and one that is
 * only claimed to be written is seen. */
void lent_wipe(const lent *memory, size_t length, uint8_t byte);

/* Whether both copies and their guards are the same and, but for `count` bytes at `at`, as before.
 * Takes these into `before`. */
int lent_kept(const lent *memory, size_t length, size_t at, size_t count);

/* Whether the library's copy and its guards are, but for `count` bytes at `at`, as before. Puts
 * these back: the library alone was called. */
int lent_held(const lent *memory, size_t length, size_t at, size_t count);

/* So much of a length as there is memory: at times a call is told of more. */
size_t lent_part(size_t length, size_t most);

/* What the library is lent: null for nothing at times, which its header allows. */
uint8_t *lent_or_null(uint8_t *bytes, size_t length, int null);

/* Prints `length` bytes in hex behind their name, but for the zeros at their end. */
void lent_print(FILE *to, const char *name, const uint8_t *bytes, size_t length);

#endif
