#include "order.h"

#include <inttypes.h>
#include <string.h>

#include "choice.h"

int order_read(order *given, int count, char **words, int faults)
{
    uint64_t number;
    int at = 1;
    if (count < 1 || !choice_read(words[0], &number) || (unsigned long)number != number) {
        return 0;
    }
    given->count = (unsigned long)number;
    given->seed = 1;
    given->fault = 0;
    if (at < count && choice_read(words[at], &given->seed)) {
        at++;
    }
    if (at + 2 == count && strcmp(words[at], "--fault") == 0 &&
        choice_read(words[at + 1], &number) && number >= 1 && number <= (uint64_t)faults) {
        given->fault = (int)number;
        at += 2;
    }
    return at == count;
}

void order_print_again(FILE *to, const char *program, const order *given)
{
    fprintf(to, "again: tools/c run %s %lu %" PRIu64, program, given->count, given->seed);
    if (given->fault != 0) {
        fprintf(to, " --fault %d", given->fault);
    }
    fprintf(to, "\n");
}
