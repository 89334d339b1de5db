/*
 * What a program that draws is called with: how much, from which seed, and with which seeded fault.
 */
#ifndef ORDER_H
#define ORDER_H

#include <stdint.h>
#include <stdio.h>

typedef struct order {
    unsigned long count; /* of calls or sessions */
    uint64_t seed;       /* 1 if it is left out */
    int fault;           /* counted from 1; 0 for none */
} order;

/* Reads COUNT [SEED] [--fault N], of so many faults. Answers whether the words are that. */
int order_read(order *given, int count, char **words, int faults);

/* Prints what failed as the command that comes to it again. */
void order_print_again(FILE *to, const char *program, const order *given);

#endif
