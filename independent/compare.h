/*
 * The comparison of any part: one call after another is made on the library and on the second
 * implementation, with the same inputs, and after each call everything is compared. Now and then
 * the state is damaged before: where it still is one, the library alone is called. The calls of a
 * part, and what is compared after each, are in its driver, a struct of functions.
 */
#ifndef COMPARE_H
#define COMPARE_H

#include <stdint.h>
#include <stdio.h>

#include "choice.h"
#include "coverage.h"

enum compare_side { COMPARE_LIBRARY, COMPARE_SECOND, COMPARE_SIDES };

typedef struct compare_run {
    choice from;
    uint64_t seed;         /* of `from`, to be printed at a difference; a fed input has none */
    unsigned long most;    /* of `made` */
    coverage met;          /* by the calls that both get */
    unsigned long made;    /* calls that both get */
    unsigned long damaged; /* calls on damaged states */
    int stands;            /* there are states to make calls on */
    const char *what;      /* what differs in the last call, or null */
    int alone;             /* it was made on the library alone, on a damaged state that is one */
} compare_run;

/* A driver. It holds the state, the call that is drawn and its answers. A call is made on copies of
 * the state, which become the state once both have answered alike. */
typedef struct compare_part {
    enum second_part part;
    void (*begin)(void);       /* lays out what is lent; there are no states */
    int (*over)(choice *from); /* whether new states are due, though there are some */
    void (*draw_start)(compare_run *run);
    void (*draw_call)(compare_run *run);

    /* Damages both copies alike, and answers whether they still are a state. Null if the part has no
     * state. */
    int (*damage)(choice *from);

    unsigned (*ask_library)(void); /* answers its number, 256 for one above 255 */
    void (*ask_second)(void);
    const char *(*difference)(void); /* between the answers; null for none */
    const char *(*wrong)(void);      /* about the library's, on a damaged state that still is one */
    void (*settle)(compare_run *run); /* the copies become the states; counts what was met */
    void (*print_call)(FILE *to);
    void (*print_answer)(FILE *to, enum compare_side side);
} compare_part;

/* Drives a part from the beginning, until `most` calls are made or the choices are used up. Answers
 * 1 at the first difference, else 0. */
int compare(compare_run *run, const compare_part *part);

/* Prints the difference at which `compare` has just ended. */
void compare_tell(FILE *to, const compare_run *run, const compare_part *part);

#endif
