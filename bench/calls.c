/*
 * Calls of the library and of the second implementation, to be counted from outside (bench/run).
 *
 *     bench WHO ROW N            N turns of a row, each with the call; WHO is library or second
 *     bench WHO ROW N --empty    the same turns without the call
 *     bench WHO ROW stack        prints how many bytes of stack the call touches
 *     bench sizes                prints the sizes of the states, the library's and the second's
 *
 * A wrong answer ends it with an error.
 */
#include <stdio.h>
#include <stdlib.h>
#include <string.h>

#include "bench.h"

bench_answer bench_answered;
uint8_t bench_out[HARSOLVEK_MESSAGE_MOST];

static struct {
    bench_turn *turn;
    int call;
    unsigned long turns;
    bench_answer before; /* what the answer is set to before the call */
    bench_answer due;
} order;

static void fail(const char *what)
{
    fprintf(stderr, "bench: %s\n", what);
    exit(1);
}

void bench_taken(int number)
{
    if (number != 0) {
        fail("a row does not get ready");
    }
}

static void check(void)
{
    if (bench_answered.number != order.due.number || bench_answered.value != order.due.value) {
        fail("a call answers wrongly");
    }
}

/* The empty loop is this one too, so that what it executes is the same but for the call. */
static void loop(void)
{
    unsigned long i;

    for (i = 0; i < order.turns; i++) {
        bench_answered = order.before;
        BENCH_BARRIER();
        order.turn(order.call);
        BENCH_BARRIER();
        check();
    }
}

static void turn(void)
{
    order.turn(order.call);
}

static void print_stack(void)
{
    size_t empty;

    order.call = 0;
    empty = bench_touched(turn);
    order.call = 1;
    printf("%lu\n", (unsigned long)(bench_touched(turn) - empty));
    check();
}

static int print_sizes(void)
{
    printf("%lu %lu receiver\n", (unsigned long)sizeof(harsolvek_receiver),
           (unsigned long)sizeof(second_receiver));
    printf("%lu %lu indoor end\n", (unsigned long)sizeof(harsolvek_indoor),
           (unsigned long)sizeof(second_indoor));
    printf("%lu %lu mailbox\n", (unsigned long)sizeof(harsolvek_mailbox),
           (unsigned long)sizeof(second_mailbox));
    return 0;
}

static const bench_row *row_named(const char *name)
{
    const bench_row *const parts[] = {bench_receiver_rows, bench_indoor_rows, bench_mailbox_rows,
                                      bench_recording_rows};
    size_t i;

    for (i = 0; i < sizeof parts / sizeof parts[0]; i++) {
        const bench_row *row;

        for (row = parts[i]; row->name != NULL; row++) {
            if (strcmp(row->name, name) == 0) {
                return row;
            }
        }
    }
    fail("no such row");
    return NULL;
}

/* The answer is set to one that no call gives; for the empty loop to the one that is due. */
static void set_order(const bench_row *row, int is_second, int is_empty)
{
    const bench_answer none = {-1, 0};

    order.turn = is_second ? row->second : row->library;
    order.call = !is_empty;
    order.due = row->due;
    order.before = is_empty ? row->due : none;
}

int main(int count, char **words)
{
    int is_empty = count == 5 && strcmp(words[4], "--empty") == 0;
    const bench_row *row;

    if (count == 2 && strcmp(words[1], "sizes") == 0) {
        return print_sizes();
    }
    if ((count != 4 && !is_empty) ||
        (strcmp(words[1], "library") != 0 && strcmp(words[1], "second") != 0)) {
        fail("usage: bench library|second ROW N [--empty] | library|second ROW stack | sizes");
    }
    row = row_named(words[2]);
    row->ready();
    set_order(row, strcmp(words[1], "second") == 0, is_empty);
    if (strcmp(words[3], "stack") == 0) {
        print_stack();
    } else {
        order.turns = strtoul(words[3], NULL, 10);
        bench_on_stack(loop);
    }
    return 0;
}
