/*
 * The same drivers under a fuzzer: the first byte picks the part, the rest are the choices. A
 * difference is printed and ends the program.
 *
 * With FUZZ_STDIN it is a program that takes one input from standard input, for fuzzers that start
 * one for each input:
 *
 *     fuzz              compares
 *     fuzz --fault N    with fault N of `drive list` switched on in the second implementation, to
 *                       show that an input that comes to it ends the program
 */
#include <stdlib.h>

#include "drive.h"

int LLVMFuzzerTestOneInput(const uint8_t *data, size_t size);

int LLVMFuzzerTestOneInput(const uint8_t *data, size_t size)
{
    static compare_run run;
    const compare_part *part;
    if (size == 0) {
        return 0;
    }
    part = drive_parts[data[0] % DRIVE_PARTS];
    choice_feed(&run.from, data + 1, size - 1);
    run.most = 100000;
    if (compare(&run, part)) {
        compare_tell(stdout, &run, part);
        fflush(stdout); /* abort() need not */
        abort();
    }
    return 0;
}

#ifdef FUZZ_STDIN
#include <string.h>

/* Answers whether the words are an order. */
static int read_order(int count, char **words)
{
    uint64_t number = 0;
    if (count == 3 && strcmp(words[1], "--fault") == 0 && choice_read(words[2], &number) &&
        number >= 1 && number <= (uint64_t)second_fault_count) {
        second_fault_on = (int)number;
        return 1;
    }
    return count == 1;
}

int main(int count, char **words)
{
    static uint8_t input[1 << 16];
    if (!read_order(count, words)) {
        fprintf(stderr, "usage: fuzz [--fault N], and an input on standard input\n");
        return 2;
    }
    return LLVMFuzzerTestOneInput(input, fread(input, 1, sizeof input, stdin));
}
#endif
