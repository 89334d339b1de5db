#include "second_faults.h"

int second_fault_on = NO_FAULT;

#define ROW(name, part, what) {part, what},
const struct second_fault second_faults[] = {SECOND_FAULTS(ROW)};
#undef ROW

const int second_fault_count = SECOND_FAULTS_END - 1;
