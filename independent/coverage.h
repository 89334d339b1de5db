/*
 * What a run has met: each number that a part can answer, and each pair of a phase, or of a kind of
 * record, and a kind of call. A run that compared a million calls of one kind would say little.
 */
#ifndef COVERAGE_H
#define COVERAGE_H

#include <stdint.h>

#include "second.h"

/* The columns of both ends of the cable: the kind of message, or time. The types 04 and 06 are no
 * responses (001 T5-16). */
enum coverage_cable {
    COVERAGE_GET_FW_ID,
    COVERAGE_INITIATE,
    COVERAGE_DATA,
    COVERAGE_DATA_NR,
    COVERAGE_VALIDATE,
    COVERAGE_ABORT,
    COVERAGE_DATA_PAUSE,
    COVERAGE_VENDOR_SPECIFIC,
    COVERAGE_MALFORMED,
    COVERAGE_TIME
};

/* The columns of the mailbox: the command that is written, or what comes from the port. */
enum coverage_mailbox {
    COVERAGE_PPM_RESET,
    COVERAGE_CANCEL,
    COVERAGE_CONNECTOR_RESET,
    COVERAGE_ACK_CC_CI,
    COVERAGE_SET_NOTIFICATION_ENABLE,
    COVERAGE_GET_CAPABILITY,
    COVERAGE_GET_CONNECTOR_CAPABILITY,
    COVERAGE_GET_CONNECTOR_STATUS,
    COVERAGE_OTHER_CODE,
    COVERAGE_SUCCESS,
    COVERAGE_FAILURE,
    COVERAGE_CHANGE
};

/* The columns of the records: what is done with one. */
enum coverage_recording { COVERAGE_READ, COVERAGE_WRITTEN };

#define COVERAGE_ROWS    8
#define COVERAGE_COLUMNS 12

/* The blocks whose numbers are looked for: those around the carry into the number's second byte,
 * and the last two of the largest file. */
#define COVERAGE_BLOCKS 4

typedef struct coverage {
    enum second_part part;
    unsigned long numbers[256];
    unsigned long pairs[COVERAGE_ROWS][COVERAGE_COLUMNS];
    unsigned long large; /* calls at full size: an image or a file of more than a million bytes */
    unsigned long blocks[COVERAGE_BLOCKS]; /* how often each of these was taken or sent */
} coverage;

void coverage_begin(coverage *met, enum second_part part);
void coverage_number(coverage *met, unsigned number);
void coverage_pair(coverage *met, unsigned row, unsigned column);
void coverage_size(coverage *met, size_t size);
void coverage_block(coverage *met, unsigned number);

/* The column of a message whose type is known to its reader. */
enum coverage_cable coverage_type(uint8_t type);

/* Whether a part can answer the number. */
int coverage_knows(enum second_part part, unsigned number);

/* Prints what was met in so many calls, and each thing that was not. Answers how many were not. */
unsigned coverage_print(const coverage *met, unsigned long calls);

const char *coverage_name(enum second_part part);

#endif
