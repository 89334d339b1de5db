/*
 * What driving one end of the cable has in common with driving the other: what a call is lent and
 * answers, and that it leaves alone what it is not lent.
 */
#ifndef CABLE_H
#define CABLE_H

#include "compare.h"
#include "draw.h"
#include "lent.h"

enum cable_kind { CABLE_MESSAGE, CABLE_TIME, CABLE_SUM, CABLE_START };

/* The inputs of a call; the message's bytes are in lent memory. */
typedef struct cable_call {
    enum cable_kind kind;
    size_t memory_length;
    size_t message_length;
    uint32_t elapsed;
    size_t out_length;
    int raw; /* the library's own symbol is called, and not the header's function around it */
    int null;
} cable_call;

typedef struct cable_answer {
    uint64_t number;
    size_t written;
    int stands; /* what the call leaves is a session */
} cable_answer;

typedef struct cable {
    const char *memory_name;
    const char *message_name;
    uint32_t words; /* of a state */
    lent state;
    lent memory;  /* the image or the file */
    lent message; /* the request or the response */
    lent out;
    lent written; /* a size_t */
    cable_call made;
    cable_answer said[COMPARE_SIDES];
} cable;

/* What the library is lent. */
typedef struct cable_pointers {
    uint8_t *memory;
    uint8_t *message;
    uint8_t *out;
    size_t *written;
} cable_pointers;

/* The words of a copy of the state. */
uint32_t *cable_words(uint8_t *copy);

/* Lays out all but the memory. */
void cable_begin(cable *on, const char *memory_name, const char *message_name, uint32_t words);

/* A call of a kind, with nothing lent yet but the state, which `cable_spread` puts there. */
void cable_next(cable *on, compare_run *run, enum cable_kind kind);

/* The same, with so much memory and an output buffer lent. */
void cable_draw(cable *on, compare_run *run, enum cable_kind kind, size_t memory_length);

/* Both get the words of the state that are in `on->state.before`. */
void cable_spread(const cable *on);

/* Puts the state elsewhere, at any place that 4 divides, with nothing of it left. */
void cable_move(cable *on, choice *from);

/* Draws the message of a call, mostly as `rest` puts it, which begins with the type at bytes[1] and
 * answers the length. */
void cable_draw_message(cable *on, choice *from, size_t (*rest)(choice *from, uint8_t *bytes));

cable_pointers cable_lend(const cable *on);

/* Where the second implementation puts how much it has written. */
size_t *cable_second_written(const cable *on);

/* Takes what one of them has answered and written; `stands` is what each says of the state that the
 * call leaves. Returns the number. */
unsigned cable_heard(cable *on, enum compare_side side, uint64_t number, int stands);

/* What differs in what both answered, or null. */
const char *cable_difference(const cable *on);

/* What is wrong about what the library answered on a damaged state that is one, or null: how long a
 * message is, and that the state still is one, also to the second implementation. */
const char *cable_wrong(const cable *on, int stands);

/* What was touched and should not have been, or null: the state is the second one's, the memory, of
 * `length` bytes, changes only in `count` bytes at `at`, and the output buffer where a message is
 * written. */
const char *cable_kept(const cable *on, size_t length, size_t at, size_t count);

/* The same where the library alone was called. What it changed is put back. */
const char *cable_held(const cable *on, size_t length, size_t at, size_t count);

/* Counts the pair of a phase and this kind of call. */
void cable_count(const cable *on, coverage *met, unsigned phase);

void cable_print_call(FILE *to, const cable *on);
void cable_print_answer(FILE *to, const cable *on, enum compare_side side);

#endif
