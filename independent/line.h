/*
 * A session of both ends of the library over a line that loses, repeats, delays and reorders, drawn
 * from a seed.
 */
#ifndef LINE_H
#define LINE_H

#include <stddef.h>
#include <stdint.h>

#include "choice.h"
#include "harsolvek.h"

#define LINE_FLIGHT_MOST 24u /* messages in flight in one direction; one more is lost */
#define LINE_FILE_MOST   70000u
#define LINE_CARRY       65536u /* in a longer file, block numbers have a second byte */
#define LINE_ROOM        1000u  /* by how much the image memory is at most longer than the file */
#define LINE_GUARD       512u   /* bytes behind the image memory that nobody may touch */
#define LINE_HEAD        4u     /* the bytes of a DATA request before its block */

enum line_type {
    LINE_GET_FW_ID = 0x81,
    LINE_INITIATE = 0x82,
    LINE_DATA = 0x83,
    LINE_VALIDATE = 0x85
};

enum line_kind {
    LINE_CLEAN, /* each message arrives once, in order, before any time passes; the file is newer,
                   fits and is found good */
    LINE_LOSSY,
    LINE_OLD,      /* lossy, and the file is not newer: 42 */
    LINE_SMALL,    /* lossy, and the file does not fit: 43 */
    LINE_UNSIGNED, /* lossy, and the verdict is bad: 45 */
    LINE_KINDS
};

typedef struct line_message {
    size_t length;
    uint8_t bytes[HARSOLVEK_MESSAGE_MOST];
} line_message;

typedef struct line_flight {
    unsigned count;
    line_message messages[LINE_FLIGHT_MOST]; /* the oldest first */
} line_flight;

/* What happens on the line and around it, in percent. */
typedef struct line_rates {
    uint32_t loss;
    uint32_t repeat;
    uint32_t delay;
    uint32_t reorder;
    uint32_t unready; /* a readiness wait above 0 */
    uint32_t later;   /* a later verdict */
} line_rates;

typedef struct line_counts {
    unsigned long steps;
    unsigned long sent; /* requests */
    unsigned long lost;
    unsigned long repeated;
    unsigned long reordered;
} line_counts;

typedef struct line_session {
    uint64_t seed;
    choice choices;
    enum line_kind kind;
    line_rates rates;
    int steady; /* the silence limits and the clocks are such that the receiver can heal a loss */
    int always_good; /* the verdict does not look at the image: demand 3 does not depend on it */
    size_t length;
    size_t capacity;
    harsolvek_receiver receiver;
    harsolvek_indoor indoor;
    line_flight requests;
    line_flight responses;
    line_counts counts;
    line_message arrived; /* in the last step; its length is 0 for none */
    uint8_t answered;     /* in the last step */
    uint8_t sum_answered; /* when the sum was asked for behind the last step */
    uint16_t sum;
    size_t placed; /* so many of the file's bytes have been in the image */
    int good;      /* the receiver has been */
    int done;      /* the indoor end has been */
    int harmed;    /* by a fault that is made once */
    uint8_t file[LINE_FILE_MOST];
    uint16_t sums[LINE_FILE_MOST + 1]; /* of the file's first bytes */
    uint8_t image[LINE_FILE_MOST + LINE_ROOM + LINE_GUARD];
    uint8_t expected[LINE_FILE_MOST + LINE_ROOM + LINE_GUARD]; /* the image as it must be */
} line_session;

/* Draws a session and starts both ends; NULL, or words for what is wrong. */
const char *line_start(line_session *s, uint64_t seed);

/* One thing happens: a message arrives or is lost, or time passes. */
void line_step(line_session *s);

/* Whether nothing is in flight. */
int line_is_still(const line_session *s);

/* How many blocks the file has (01, Sizes and numbers). */
size_t line_blocks(const line_session *s);

/* The number of the block in a DATA request. */
size_t line_number(const line_message *request);

/* What the harness itself does wrong behind a step, to show that the checks can fail. */
struct line_fault {
    const char *what;
    void (*harm)(line_session *s);
    const char *found_by; /* the words of the check that must find it */
};

extern const struct line_fault line_faults[];
extern const size_t line_fault_count;

#endif
