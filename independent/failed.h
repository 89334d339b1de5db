/*
 * What failed is printed, and kept in a file of target/failed/ for when the output is gone.
 * independent/run makes that folder. The programs are run from the top of the repository, and so
 * are the commands that they print.
 */
#ifndef FAILED_H
#define FAILED_H

#include <stdio.h>

/* Prints a failure on standard output and into target/failed/NAME.txt, and names the file or says
 * that it cannot be written. The name has the number of the seeded fault, unless `fault` is 0. */
void failed_keep(const char *name, int fault, void (*tell)(FILE *to, const void *failure),
                 const void *failure);

#endif
