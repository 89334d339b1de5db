/*
 * A second implementation of document 01's rules, written from the documents and not from the
 * proved source, to be compared with it. Its shape is another one: a state is a struct of plain
 * fields, and a call is one chain of tests in document 01's own order. Every call returns document
 * 01's number. What the words of a state hold is written from include/harsolvek.h.
 */
#ifndef SECOND_H
#define SECOND_H

#include <stddef.h>
#include <stdint.h>

/* A start that is refused leaves a state that is all zero. */

/* ---- The receiver ---- */

enum second_receiver_phase { SECOND_IDLE, SECOND_TRANSFER, SECOND_AWAIT, SECOND_GOOD };

/* Any other number is no verdict. */
enum second_verdict { SECOND_VERDICT_GOOD = 1, SECOND_VERDICT_BAD, SECOND_VERDICT_LATER };

typedef struct second_receiver {
    unsigned limit;       /* settings */
    unsigned most;        /* settings: how many resends may be made */
    uint8_t identity[19]; /* settings: 001 T5-18's bytes behind Status, as they were set */
    size_t capacity;
    enum second_receiver_phase phase;
    unsigned blocks; /* accepted */
    size_t bytes;    /* accepted */
    int last_short;  /* of Transfer alone, else 0 */
    unsigned silence;
    unsigned resends; /* made */
} second_receiver;

int second_receiver_start(second_receiver *r, unsigned limit, unsigned resends,
                          const uint8_t identity[19], size_t capacity);
int second_receiver_request(second_receiver *r, uint8_t *image, size_t image_length,
                            const uint8_t *request, size_t request_length, unsigned readiness,
                            unsigned verdict, unsigned later, uint8_t *out, size_t out_length,
                            size_t *written);
int second_receiver_time(second_receiver *r, unsigned elapsed, uint8_t *out, size_t out_length,
                         size_t *written);
int second_receiver_sum(const second_receiver *r, const uint8_t *image, size_t image_length,
                        unsigned *sum);

/* ---- The indoor end ---- */

enum second_indoor_phase {
    SECOND_IDENTIFY,
    SECOND_INITIATE,
    SECOND_SENDING,
    SECOND_VALIDATE,
    SECOND_DONE,
    SECOND_FAILED
};

typedef struct second_indoor {
    unsigned limit;      /* settings */
    unsigned most;       /* settings */
    unsigned vendor;     /* settings */
    unsigned product;    /* settings */
    unsigned version[4]; /* settings */
    size_t length;       /* the file's */
    enum second_indoor_phase phase;
    unsigned asked; /* of SENDING: the block last asked for, else 0 */
    int emptied;    /* of SENDING: whether the empty block has been sent, else 0 */
    unsigned wait;  /* milliseconds left of a wait, 0 for none */
    int reason;     /* of FAILED: 40 to 45, else 0 */
    unsigned silence;
    unsigned resends;
} second_indoor;

int second_indoor_start(second_indoor *s, unsigned limit, unsigned resends, unsigned vendor,
                        unsigned product, const unsigned version[4], const uint8_t *file,
                        size_t file_length, uint8_t *out, size_t out_length, size_t *written);
int second_indoor_response(second_indoor *s, const uint8_t *file, size_t file_length,
                           const uint8_t *response, size_t response_length, uint8_t *out,
                           size_t out_length, size_t *written);
int second_indoor_time(second_indoor *s, const uint8_t *file, size_t file_length, unsigned elapsed,
                       uint8_t *out, size_t out_length, size_t *written);

/* ---- The mailbox ---- */

typedef struct second_mailbox {
    unsigned connectors;
    uint32_t cci;     /* its bits other than 1 to 7 */
    unsigned shown;   /* the connector shown, 0 for none */
    unsigned waiting; /* bit c - 1: a change on connector c waits */
    int on;           /* notifications */
    unsigned mask;    /* 0 while notifications are off */
    int running;
    int due;             /* an acknowledgement */
    unsigned code;       /* of the command that runs, else 0 */
    unsigned connector;  /* which it is for; 0 where it needs none, and where none runs */
    unsigned reset_type; /* 000 T4-5, of CONNECTOR_RESET that runs, else 0 */
    uint8_t message_in[256];
} second_mailbox;

int second_mailbox_fresh(second_mailbox *m, unsigned connectors);
int second_mailbox_write(second_mailbox *m, const uint8_t *control, size_t control_length);
int second_mailbox_success(second_mailbox *m, const uint8_t *bytes, size_t bytes_length);
int second_mailbox_failure(second_mailbox *m);
int second_mailbox_change(second_mailbox *m, unsigned connector, unsigned reason);
uint32_t second_mailbox_cci(const second_mailbox *m);

/* Whether calls can lead to a mailbox with these connectors, and with this command running. */
int second_mailbox_stands(const second_mailbox *m);

/* ---- The states as words ---- */

enum { SECOND_RECEIVER_WORDS = 14, SECOND_INDOOR_WORDS = 13, SECOND_MAILBOX_WORDS = 10 };

/* Reads a state off its words, and answers whether they are a session's or a mailbox's. Of a
 * mailbox MESSAGE_IN, which may be any bytes, is left. */
int second_receiver_read(second_receiver *r, const uint32_t word[SECOND_RECEIVER_WORDS]);
int second_indoor_read(second_indoor *s, const uint32_t word[SECOND_INDOOR_WORDS]);
int second_mailbox_read(second_mailbox *m, const uint32_t word[SECOND_MAILBOX_WORDS]);

/* Puts the words of a state. */
void second_receiver_lay(const second_receiver *r, uint32_t word[SECOND_RECEIVER_WORDS]);
void second_indoor_lay(const second_indoor *s, uint32_t word[SECOND_INDOOR_WORDS]);
void second_mailbox_lay(const second_mailbox *m, uint32_t word[SECOND_MAILBOX_WORDS]);

/* What a call on words that are no state answers. It is lent the words and an output buffer, or
 * MESSAGE_IN, and leaves them as they are. */
int second_receiver_refuse(uint32_t *word, uint8_t *out, size_t out_length);
int second_indoor_refuse(uint32_t *word, uint8_t *out, size_t out_length);
int second_mailbox_refuse(uint32_t *word, uint8_t message_in[256]);

/* ---- The records of a recording ---- */

/* What is at a place of a recording. */
enum second_found { SECOND_RECORD, SECOND_END, SECOND_CUT, SECOND_UNKNOWN };

/* What its kind does not have is 0. */
typedef struct second_record {
    unsigned kind; /* 1 to 4; 0 where there is none */
    uint8_t control[8];
    unsigned connector;
    unsigned reason;
    unsigned length;
} second_record;

enum second_found second_record_read(const uint8_t *recording, size_t recording_length, size_t at,
                                     second_record *record, size_t *next);
int second_record_write(const second_record *record, uint8_t *out, size_t out_length,
                        size_t *written);
int second_record_line(uint32_t cci, unsigned number, uint8_t *out, size_t out_length,
                       size_t *written);
int second_record_stop(uint8_t *out, size_t out_length, size_t *written);

/* ---- Seeded faults ---- */

/* Which call's comparison is to find a fault. */
enum second_part {
    SECOND_PART_RECEIVER,
    SECOND_PART_INDOOR,
    SECOND_PART_MAILBOX,
    SECOND_PART_RECORDING
};

struct second_fault {
    enum second_part part;
    const char *what;
};

/* The fault that is switched on: its place in second_faults, counted from 1; 0 for none. */
extern int second_fault_on;
extern const struct second_fault second_faults[];
extern const int second_fault_count;

#endif
