/*
 * Compares the library with the second implementation.
 *
 *     drive PART CALLS [SEED]              PART is receiver, indoor, mailbox, recording or all
 *     drive PART CALLS [SEED] --fault N    with a fault in the second one, which must be found
 *     drive faults CALLS [SEED]            whether each fault is found, by the driver of its part
 *     drive list                           the faults
 *
 * CALLS are those that both get. A difference is printed and kept, also that of one fault. The exit
 * is 0 if all is as it should be, 1 if not, 2 if it is called otherwise.
 */
#include <inttypes.h>
#include <string.h>

#include "drive.h"
#include "failed.h"
#include "order.h"

static compare_run run; /* only one is under way at a time */

static int driven(enum second_part part, const order *given)
{
    choice_seed(&run.from, given->seed);
    run.seed = given->seed;
    run.most = given->count;
    return compare(&run, drive_parts[part]);
}

static void tell(FILE *to, const void *failure)
{
    char program[40];
    snprintf(program, sizeof program, "drive %s", coverage_name(run.met.part));
    compare_tell(to, &run, drive_parts[run.met.part]);
    order_print_again(to, program, failure);
}

static void keep(const order *given)
{
    char name[100];
    snprintf(name, sizeof name, "drive-%s-seed%" PRIu64 "-call%lu", coverage_name(run.met.part),
             given->seed, run.made);
    failed_keep(name, given->fault, tell, given);
}

static int agree(enum second_part part, const order *given)
{
    unsigned lacking;
    if (driven(part, given)) {
        keep(given);
        return 0;
    }
    lacking = coverage_print(&run.met, run.made);
    printf("%s: %lu calls, 0 differences, %lu calls on damaged states, ", coverage_name(part),
           run.made, run.damaged);
    if (lacking != 0) {
        printf("but %u things never met\n", lacking);
        return 0;
    }
    printf("every number and pair met\n");
    return 1;
}

/* Whether the driver of a part finds the fault. */
static int found(enum second_part part, int fault, const order *given)
{
    int met;
    second_fault_on = fault;
    met = driven(part, given);
    second_fault_on = 0;
    printf("fault %d (%s): %s call %lu\n", fault, second_faults[fault - 1].what,
           met ? "found at" : "not found up to", run.made);
    return met;
}

static int all_faults(const order *given)
{
    int count = 0;
    printf("faults: seed %" PRIu64 "\n", given->seed);
    for (int fault = 1; fault <= second_fault_count; fault++) {
        count += found(second_faults[fault - 1].part, fault, given);
    }
    printf("faults: %d of %d found\n", count, second_fault_count);
    return count != second_fault_count;
}

static int list(void)
{
    for (int fault = 1; fault <= second_fault_count; fault++) {
        printf("%d: %s: %s\n", fault, coverage_name(second_faults[fault - 1].part),
               second_faults[fault - 1].what);
    }
    return 0;
}

/* A fault is looked for by the driver that is named; by the driver of its own part for all. */
static int chosen(const char *what, enum second_part part, const order *given)
{
    if (strcmp(what, "all") == 0) {
        return given->fault == 0 || second_faults[given->fault - 1].part == part;
    }
    return strcmp(what, coverage_name(part)) == 0;
}

static int shown(enum second_part part, const order *given)
{
    printf("%s: seed %" PRIu64 "\n", coverage_name(part), given->seed);
    if (given->fault == 0) {
        return agree(part, given);
    }
    if (!found(part, given->fault, given)) {
        return 0;
    }
    keep(given);
    return 1;
}

static int all_chosen(const char *what, const order *given)
{
    int result = 2;
    for (int at = 0; at < DRIVE_PARTS && result != 1; at++) {
        enum second_part part = (enum second_part)at;
        if (chosen(what, part, given)) {
            result = !shown(part, given);
        }
    }
    return result;
}

int main(int count, char **words)
{
    order given;
    int result = 2;
    /* What was printed must not be lost if a call ends the program. */
    setvbuf(stdout, NULL, _IOLBF, BUFSIZ);
    if (count == 2 && strcmp(words[1], "list") == 0) {
        return list();
    }
    if (count > 2 && order_read(&given, count - 2, words + 2, second_fault_count)) {
        result = strcmp(words[1], "faults") == 0 && given.fault == 0 ? all_faults(&given)
                                                                     : all_chosen(words[1], &given);
    }
    if (result == 2) {
        fprintf(stderr, "drive receiver|indoor|mailbox|recording|all CALLS [SEED] [--fault N]; "
                        "drive faults CALLS [SEED]; drive list\n");
    }
    return result;
}
