/*
 * What the library costs, against the second implementation (independent/second.h): one row is one
 * call of both, from the same state, with the same arguments.
 */
#ifndef BENCH_H
#define BENCH_H

#include <stddef.h>
#include <stdint.h>

#include "harsolvek.h"
#include "second.h"

/* Memory is as the source says at this place, so that no loop is folded away. */
#define BENCH_BARRIER() __asm__ volatile("" ::: "memory")

/* What a call answers: its number, and how many bytes it has written, or the one number that it puts
 * out (the sum, CCI, the place of the next record). */
typedef struct bench_answer {
    int number;
    size_t value;
} bench_answer;

/* One turn puts the saved state back and calls, where `call` is not 0. */
typedef void bench_turn(int call);

typedef struct bench_row {
    const char *name;
    void (*ready)(void); /* makes the saved states and the arguments, for both */
    bench_turn *library;
    bench_turn *second;
    bench_answer due;
} bench_row;

/* What the last call has answered. */
extern bench_answer bench_answered;

/* The output buffer of every call. */
extern uint8_t bench_out[HARSOLVEK_MESSAGE_MOST];

/* Ends the program with an error unless a call that a row gets ready by has answered 0. */
void bench_taken(int number);

/* Each ends with a row without a name. */
extern const bench_row bench_receiver_rows[];
extern const bench_row bench_indoor_rows[];
extern const bench_row bench_mailbox_rows[];
extern const bench_row bench_recording_rows[];

/* Runs on a stack of its own, which lies at the same place in every run. */
void bench_on_stack(void (*run)(void));

/* How many bytes of that stack a run touches. */
size_t bench_touched(void (*run)(void));

#endif
