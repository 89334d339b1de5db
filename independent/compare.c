#include "compare.h"

#include <inttypes.h>

#include "harsolvek.h"

/* What is wrong about the number that a damaged state gets which is still a state, or null. */
static const char *number_wrong(enum second_part part, unsigned number)
{
    if (!coverage_knows(part, number)) {
        return "number, which is none of this part";
    }
    return number == HARSOLVEK_SETTINGS ? "number, for the state is one" : NULL;
}

/* Words that are no state get 29 whatever the inputs are, and stay as they are, as does all else
 * that is lent. What other damaged words lead to is the part's to judge. */
static int damaged_differs(compare_run *run, const compare_part *part)
{
    unsigned number;
    run->alone = part->damage(&run->from);
    number = part->ask_library();
    run->damaged++;
    if (!run->alone) {
        part->ask_second();
        run->what = part->difference();
        return run->what != NULL;
    }
    run->what = number_wrong(part->part, number);
    if (run->what == NULL) {
        run->what = part->wrong();
    }
    return run->what != NULL;
}

static int both_differ(compare_run *run, const compare_part *part, unsigned *number)
{
    *number = part->ask_library();
    part->ask_second();
    run->made++;
    run->alone = 0;
    coverage_number(&run->met, *number);
    run->what = part->difference();
    return run->what != NULL;
}

/* A refused start makes nothing: it leaves zeros, and calls go on with the states before it. */
static int start_differs(compare_run *run, const compare_part *part)
{
    unsigned number;
    part->draw_start(run);
    if (both_differ(run, part, &number)) {
        return 1;
    }
    if (number == HARSOLVEK_TAKEN) {
        part->settle(run);
        run->stands = 1;
    }
    return 0;
}

static int step_differs(compare_run *run, const compare_part *part)
{
    unsigned number;
    if (!run->stands || part->over(&run->from)) {
        return start_differs(run, part);
    }
    part->draw_call(run);
    if (part->damage != NULL && choice_one_in(&run->from, 16)) {
        return damaged_differs(run, part);
    }
    if (both_differ(run, part, &number)) {
        return 1;
    }
    part->settle(run);
    return 0;
}

int compare(compare_run *run, const compare_part *part)
{
    run->made = 0;
    run->damaged = 0;
    run->stands = 0;
    coverage_begin(&run->met, part->part);
    part->begin();
    while (run->made < run->most && !choice_done(&run->from)) {
        if (step_differs(run, part)) {
            return 1;
        }
    }
    return 0;
}

void compare_tell(FILE *to, const compare_run *run, const compare_part *part)
{
    fprintf(to, "%s: difference in the %s at call %lu (beside %lu on damaged states)",
            coverage_name(part->part), run->what, run->made, run->damaged);
    if (run->from.fed) {
        fprintf(to, " of the input that was fed\n");
    } else {
        fprintf(to, " of seed %" PRIu64 "\n", run->seed);
    }
    part->print_call(to);
    fprintf(to, "  library:\n");
    part->print_answer(to, COMPARE_LIBRARY);
    if (!run->alone) {
        fprintf(to, "  second:\n");
        part->print_answer(to, COMPARE_SECOND);
    }
}
