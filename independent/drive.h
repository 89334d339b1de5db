/*
 * The drivers: what `compare` is given for each part.
 */
#ifndef DRIVE_H
#define DRIVE_H

#include "compare.h"

extern const compare_part drive_receiver; /* on the roof */
extern const compare_part drive_indoor;
extern const compare_part drive_mailbox; /* of the indoor computer to its port controller */
extern const compare_part drive_recording;

enum { DRIVE_PARTS = SECOND_PART_RECORDING + 1 };

/* All of them, in the order of enum second_part. */
extern const compare_part *const drive_parts[DRIVE_PARTS];

#endif
