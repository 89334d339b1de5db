/*
 * A stack of our own. Where a program's own stack lies depends on its environment, and how many
 * instructions a copy takes depends on where the bytes lie.
 */
#define _XOPEN_SOURCE 600
#include <string.h>
#include <ucontext.h>

#include "bench.h"

enum { PATTERN = 0xA5, SIZE = 65536 };

static uint8_t stack[SIZE] __attribute__((aligned(64)));
static ucontext_t outside;
static ucontext_t inside;
static void (*to_run)(void);

/* It goes back by a swap and never returns, since a return would touch more of the stack. */
static void enter(void)
{
    to_run();
    swapcontext(&inside, &outside);
}

void bench_on_stack(void (*run)(void))
{
    to_run = run;
    getcontext(&inside);
    inside.uc_stack.ss_sp = stack;
    inside.uc_stack.ss_size = sizeof stack;
    makecontext(&inside, enter, 0);
    swapcontext(&outside, &inside);
}

size_t bench_touched(void (*run)(void))
{
    size_t kept = 0;

    memset(stack, PATTERN, sizeof stack);
    bench_on_stack(run);
    while (kept < sizeof stack && stack[kept] == PATTERN) {
        kept++;
    }
    return sizeof stack - kept;
}
