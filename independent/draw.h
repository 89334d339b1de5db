/*
 * What both ends of the cable are fed: settings, lengths, elapsed times, and messages with one slip
 * in them.
 */
#ifndef DRAW_H
#define DRAW_H

#include <stddef.h>
#include <stdint.h>

#include "choice.h"
#include "harsolvek.h"

#define DRAW_OUT_MOST     300u
#define DRAW_MESSAGE_MOST 300u

/* Settings, now and then out of range (29), also such as a cut would make good. */
harsolvek_settings draw_settings(choice *from);

/* Any 16 bits, the edges often. */
uint16_t draw_word(choice *from);

/* The length of an output buffer, mostly the 260 bytes that it needs. */
size_t draw_out_length(choice *from);

/* The length of the lent image or file, mostly the session's. Now and then it is one that a cut to
 * 32 bits would make right. */
size_t draw_lent_length(choice *from, size_t length);

/* The length of an image or a file, not the largest: every class of 01's blocks. */
size_t draw_small_length(choice *from);

/* The length of one that is large; mostly 0, for none. Those in between have room for blocks 254 to
 * 256. Full size, and `edge` beside it, is seldom, since every call then compares a megabyte. */
size_t draw_large_length(choice *from, size_t edge);

/* Elapsed milliseconds, often around what is `left` of a wait or of the silence limit, now and then
 * more than 16 bits hold. */
uint32_t draw_elapsed(choice *from, unsigned limit, unsigned left);

/* A wait: one byte, mostly 0. */
uint8_t draw_wait(choice *from);

/* Puts `length` bytes of noise, at most DRAW_MESSAGE_MOST, from one of 65,536 places in it. */
void draw_noise(choice *from, uint8_t *bytes, size_t length);

/* Makes one slip in a message of `length` bytes and answers its length; DRAW_MESSAGE_MOST bytes
 * have room for it. */
size_t draw_slip(choice *from, uint8_t *bytes, size_t length);

/* Puts a number, low byte first (01, Sizes and numbers). */
void draw_put(uint8_t *bytes, unsigned number);

/* A number from `least` to `most`, the two often: one that a state must not hold. */
uint32_t draw_wrong(choice *from, uint32_t least, uint32_t most);

/* One of so many kinds of damage to the words of a state. Kinds 0 to 3 are made here: all words are
 * zero, one is at the border of some width, one has another bit, all are noise. */
unsigned draw_damage(choice *from, unsigned kinds, uint32_t *word, uint32_t words);

/* A code of which there are `count`, or one that is none. */
uint32_t draw_code(choice *from, unsigned count);

/* A silence limit that is none. */
uint32_t draw_wrong_limit(choice *from);

/* A count of resends that is allowed by no setting. */
uint32_t draw_wrong_resends(choice *from);

/* A number that only a cut to 8 or 16 bits would make `good`. */
uint32_t draw_cut(choice *from, uint32_t good, unsigned bits);

/* A number that is to equal `due`, now and then one beside it or far from it. */
unsigned draw_beside(choice *from, unsigned due);

#endif
