/*
 * harsolvek.h: firmware updates for a rooftop weather receiver, for C.
 *
 * The receiver on the roof, the indoor end that sends it a file, the indoor computer's mailbox to
 * its port controller, and the records of a recording. The functions are proved in Rattle: for
 * every state, number, length and byte that is handed in, refused ones too, each has one answer and
 * leaves one state of the lent memory. Link with libharsolvek.a (tools/c builds it, for x86-64); it
 * asks the C library for nothing but memcpy and its like. examples/c has a loop for each end to
 * start from, and docs/HAZARDS.md what the rules allow and an operator should know.
 *
 * What holds of every function:
 * - It ends, keeps nothing, and touches no memory but what it is lent, so that any number of
 *   sessions can stand side by side. No pointer may be null but one that is lent with length 0.
 * - The number that it returns says how it went: 0 for taken, else why it was refused (enum
 *   harsolvek_number). A refusal keeps the state and every lent byte, unless the table says
 *   otherwise.
 * - Memory is lent as a pointer and a length in bytes, tested inside. Memory that is written, the
 *   state and `written` among it, must overlap no other memory of the same call.
 * - An output buffer needs HARSOLVEK_MESSAGE_MOST bytes. A message is written into its first
 *   `*written` bytes, the rest is kept, and `*written` is 0 where nothing is to be sent.
 * - A number is as wide as it takes for none to be cut before the library has seen it: what is out
 *   of range is refused, and never taken for another number.
 *
 * A state is an array of words, and a mailbox has its MESSAGE_IN behind them. It holds no pointer
 * and no padding, so that it may be compared, summed, stored and restored byte for byte, on a
 * processor with the same order of bytes. Its fields are read by functions; only the library writes
 * them. Every call tests the state first. It is no session and no mailbox if a field holds what the
 * comment at its function does not name, or what its start refuses, or if a word holds more than
 * its fields: every call then answers 29 and keeps every lent byte, with 0 for `*written`, the sum
 * and CCI, and harsolvek_receiver_is_session and its like answer 0. All bytes zero is such a state,
 * so memory that no start has filled is safe to hand in, and a refused start leaves it. What a call
 * leaves of a session or a mailbox is one again. Other values that no call leaves, as more accepted
 * than the capacity, are answered by the rules as they stand.
 *
 * Time: hand over a message first, and then the milliseconds that passed before it, unless the
 * message ended the silence (at the receiver every number but 20 and 26 to 29, at the indoor end
 * 0): that time is then forgotten. One call is at most one expiry of the silence limit, however
 * long it was, and an expiry sets the silence to 0.
 *
 * Limits: without waits one lost message of any kind but ABORT is made good, if the indoor end has
 * at least one resend and both bounds are kept (docs/HAZARDS.md, part 6):
 *     receiver's limit + round trip < indoor end's limit
 *     indoor end's limit + round trip < receiver's limit * (receiver's resends + 1)
 * Only the receiver heals a loss in Transfer, and it has to be in Await still for a VALIDATE that
 * is sent again. The receiver's silence grows also in a wait that it asked for.
 *
 * The functions whose names end in _raw are the library's own symbols: their parameters are
 * pointers and integers, and their result has 64 bits or is nothing, so that they are the same on
 * every processor. The functions around them are what to call.
 */
#ifndef HARSOLVEK_H
#define HARSOLVEK_H

#include <stddef.h>
#include <stdint.h>

#ifdef __cplusplus
extern "C" {
#endif

/* The version of this header, a byte each for its three numbers; harsolvek_version() is that of the
 * library. 1.1.0: a release is newer by its four versions, and not by the first alone. */
#define HARSOLVEK_VERSION 0x010100u

/* The largest image memory and the largest file, in bytes. */
#define HARSOLVEK_IMAGE_MOST 1048575u
/* The longest message, and what an output buffer needs. */
#define HARSOLVEK_MESSAGE_MOST 260u
/* Every block of a file but its last. */
#define HARSOLVEK_BLOCK_MOST 256u
/* The silence limit, in milliseconds. */
#define HARSOLVEK_LIMIT_LEAST 1u
#define HARSOLVEK_LIMIT_MOST  10000u
/* How often a message may be sent again. */
#define HARSOLVEK_RESENDS_MOST 10u
/* A readiness wait counts 10 ms in the answer to INITIATE and 1 ms in the answer to DATA. The wait
 * of a later verdict counts 1 ms, and is at least 1. */
#define HARSOLVEK_WAIT_MOST 254u
/* CONTROL, MESSAGE_IN, and what a port may report, in bytes. */
#define HARSOLVEK_CONTROL_SIZE    8u
#define HARSOLVEK_MESSAGE_IN_SIZE 256u
#define HARSOLVEK_DATA_MOST       255u
/* A mailbox has at least 1 connector. */
#define HARSOLVEK_CONNECTORS_MOST 8u
/* The longest record, and the longest line that a record prints, in bytes. */
#define HARSOLVEK_RECORD_MOST 9u
#define HARSOLVEK_LINE_MOST   13u
/* The words of a state. */
#define HARSOLVEK_RECEIVER_WORDS 14u
#define HARSOLVEK_INDOOR_WORDS   13u
#define HARSOLVEK_MAILBOX_WORDS  10u

uint64_t harsolvek_version(void);

/* The numbers that are answered. "Kept" means that nothing changes. */
enum harsolvek_number {
    /* taken */
    HARSOLVEK_TAKEN = 0,

    /* The mailbox; all kept. */

    /* CONTROL not 8 bytes */
    HARSOLVEK_CONTROL_LENGTH = 1,
    /* notifications off, not PPM_RESET or 0x05 */
    HARSOLVEK_NOTIFICATIONS_OFF = 2,
    /* running, not CANCEL */
    HARSOLVEK_COMMAND_RUNS = 3,
    /* acknowledgement due, not ACK with bit 17 */
    HARSOLVEK_ACKNOWLEDGEMENT_DUE = 4,
    /* ACK with neither bit, or a bit with nothing to clear */
    HARSOLVEK_NOTHING_TO_CLEAR = 5,
    /* CANCEL, none running */
    HARSOLVEK_NOTHING_TO_CANCEL = 6,
    /* port report, none running */
    HARSOLVEK_NOTHING_RUNS = 7,
    /* port success above 255 bytes */
    HARSOLVEK_DATA_TOO_LONG = 8,
    /* change on connector 0 or above the count */
    HARSOLVEK_NO_SUCH_CONNECTOR = 9,

    /* Both ends of the cable. */

    /* message length, version, type or body length wrong: no response, kept */
    HARSOLVEK_MALFORMED = 20,
    /* known type, wrong phase: the receiver answers with the unexpected-request status, none to
     * ABORT and to what is not built, and keeps its phase; at the indoor end kept */
    HARSOLVEK_UNEXPECTED = 21,
    /* block number not the one due: OK response asking for the due one, wait 0; image kept */
    HARSOLVEK_NOT_DUE = 22,
    /* block passes capacity: address status, 255; Idle */
    HARSOLVEK_PASSES_CAPACITY = 23,
    /* non-empty after a short block, or empty with none accepted: file status, 255; Idle */
    HARSOLVEK_WRONG_FILE = 24,
    /* verdict bad: failure; Idle */
    HARSOLVEK_IMAGE_BAD = 25,
    /* readiness or later-wait out of range, or no such verdict: kept */
    HARSOLVEK_OUT_OF_RANGE = 26,
    /* output buffer under 260 bytes: kept; at a start no session */
    HARSOLVEK_BUFFER_SHORT = 27,
    /* lent image or file length not the session's: kept */
    HARSOLVEK_LENT_LENGTH = 28,
    /* settings: nothing made; or a state that is no session and no mailbox: kept */
    HARSOLVEK_SETTINGS = 29,

    /* The indoor end: 40 to 45 leave it Failed. ABORT is sent at 40, 43 and 44. */

    /* silence */
    HARSOLVEK_SILENCE = 40,
    /* status not OK, or INITIATE or VALIDATE wait 255 */
    HARSOLVEK_REFUSED = 41,
    /* not newer: another vendor or product, or versions that do not come later */
    HARSOLVEK_NOT_NEWER = 42,
    /* larger than the MaxImageSize of a ready answer */
    HARSOLVEK_TOO_LARGE = 43,
    /* asked j above n, or a wrong close */
    HARSOLVEK_WRONG_NUMBER = 44,
    /* VALIDATE: status OK, wait 0, success bit clear */
    HARSOLVEK_NOT_VALID = 45,
    /* file length 0 or above 1,048,575: no session */
    HARSOLVEK_FILE_SIZE = 46
};

/* FWVersion1 to FWVersion4 of a firmware, the most significant first. Of two firmwares the later one
 * has the greater number at the first place at which they differ. */
typedef struct harsolvek_versions {
    uint16_t first;
    uint16_t second;
    uint16_t third;
    uint16_t fourth;
} harsolvek_versions;

/* The session settings of either end: the silence limit in milliseconds, 1 to 10,000, and how often
 * a message may be sent again, 0 to 10. */
typedef struct harsolvek_settings {
    uint32_t limit;
    uint32_t resends;
} harsolvek_settings;

/* ---- The receiver on the roof ---- */

/* What GET_FW_ID is answered with (USB PD Firmware Update 1.0, Table 5-18, behind its Status).
 * Reserved bits are sent as zero. */
typedef struct harsolvek_identity {
    uint16_t vendor;
    uint16_t product;
    uint8_t hardware;
    uint8_t silicon;
    harsolvek_versions versions;
    uint8_t bank;
    uint8_t flags1;
    uint8_t flags2;
    uint8_t flags3;
    uint8_t flags4;
} harsolvek_identity;

enum harsolvek_receiver_phase {
    HARSOLVEK_RECEIVER_IDLE = 0,
    HARSOLVEK_RECEIVER_TRANSFER = 1,
    HARSOLVEK_RECEIVER_AWAIT = 2, /* for VALIDATE */
    HARSOLVEK_RECEIVER_GOOD = 3   /* the image is marked good */
};

/* What the receiver is told of the image's signature with each request. There is no verdict 0, so
 * that a forgotten one is refused. */
enum harsolvek_verdict {
    HARSOLVEK_VERDICT_GOOD = 1,
    HARSOLVEK_VERDICT_BAD = 2,
    HARSOLVEK_VERDICT_LATER = 3 /* with a wait of 1 to 254 */
};

/* What comes with a request. `readiness` is a wait of 0 to 254: INITIATE is answered with it, and
 * enters Transfer only if it is 0; a taken block is answered with it, to be waited before the next
 * one. `verdict` is an enum harsolvek_verdict, and `later` the wait of a later verdict, else passed
 * over. */
typedef struct harsolvek_given {
    uint32_t readiness;
    uint32_t verdict;
    uint32_t later;
} harsolvek_given;

/* A session. */
typedef struct harsolvek_receiver {
    uint32_t word[HARSOLVEK_RECEIVER_WORDS];
} harsolvek_receiver;

uint64_t harsolvek_receiver_layout_1(void);
uint64_t harsolvek_receiver_start_raw(harsolvek_receiver *state, const harsolvek_settings *settings,
                                      const uint16_t *numbers, const uint8_t *bytes,
                                      uint64_t capacity);
uint64_t harsolvek_receiver_request_raw(harsolvek_receiver *state, uint8_t *image,
                                        uint64_t image_length, const uint8_t *request,
                                        uint64_t request_length, const harsolvek_given *given,
                                        uint8_t *out, uint64_t out_length, uint64_t *written);
uint64_t harsolvek_receiver_time_raw(harsolvek_receiver *state, uint32_t elapsed, uint8_t *out,
                                     uint64_t out_length, uint64_t *written);
uint64_t harsolvek_receiver_sum_raw(const harsolvek_receiver *state, const uint8_t *image,
                                    uint64_t image_length, uint16_t *sum);
uint64_t harsolvek_receiver_is_session_raw(const harsolvek_receiver *state);

/* Whether the state is a session: 1 or 0. */
static inline int harsolvek_receiver_is_session(const harsolvek_receiver *state)
{
    return harsolvek_receiver_layout_1() == HARSOLVEK_RECEIVER_WORDS &&
           harsolvek_receiver_is_session_raw(state) != 0;
}

/* Starts a session in Idle for an image memory of `capacity` bytes. Writes the state alone. 29: a
 * limit outside 1 to 10,000, more than 10 resends, or a capacity above 1,048,575; the state is then
 * all zero. */
static inline uint8_t harsolvek_receiver_start(harsolvek_receiver *state,
                                               const harsolvek_settings *settings,
                                               const harsolvek_identity *identity, size_t capacity)
{
    const uint16_t numbers[6] = {identity->vendor,         identity->product,
                                 identity->versions.first, identity->versions.second,
                                 identity->versions.third, identity->versions.fourth};
    const uint8_t bytes[7] = {identity->hardware, identity->silicon, identity->bank,
                              identity->flags1,   identity->flags2,  identity->flags3,
                              identity->flags4};
    (void)harsolvek_receiver_layout_1();
    return (uint8_t)harsolvek_receiver_start_raw(state, settings, numbers, bytes, capacity);
}

/* One request as it arrived. Borrows the image memory (to put the block into), the request, and the
 * output buffer (for the response). Refusals in this order: 29 (the state), 28, 27, 26, 20, 21, 22,
 * 24, 23, 25. The image changes only where a block is taken: its bytes, at 256 times its number. */
static inline uint8_t harsolvek_receiver_request(harsolvek_receiver *state, uint8_t *image,
                                                 size_t image_length, const uint8_t *request,
                                                 size_t request_length,
                                                 const harsolvek_given *given, uint8_t *out,
                                                 size_t out_length, size_t *written)
{
    uint64_t count;
    const uint64_t number = harsolvek_receiver_request_raw(
        state, image, image_length, request, request_length, given, out, out_length, &count);
    *written = (size_t)count;
    return (uint8_t)number;
}

/* `elapsed` milliseconds have passed in which no request ended the silence. Borrows the output
 * buffer. At the silence limit, in Transfer and Await, a DATA response is written while resends are
 * left; with none left the phase becomes Idle, with number 0 and nothing written: look at the
 * phase. In Idle and Good nothing changes. Refusals: 29 (the state), 27. */
static inline uint8_t harsolvek_receiver_time(harsolvek_receiver *state, uint32_t elapsed,
                                              uint8_t *out, size_t out_length, size_t *written)
{
    uint64_t count;
    const uint64_t number = harsolvek_receiver_time_raw(state, elapsed, out, out_length, &count);
    *written = (size_t)count;
    return (uint8_t)number;
}

/* The sum of the accepted bytes modulo 65,536. Borrows the image memory, to read. Refusals: 29 (the
 * state), 28; the sum is then 0. */
static inline uint8_t harsolvek_receiver_sum(const harsolvek_receiver *state, const uint8_t *image,
                                             size_t image_length, uint16_t *sum)
{
    return (uint8_t)harsolvek_receiver_sum_raw(state, image, image_length, sum);
}

/* The fields of a session. Of a state that is none they say nothing. */

/* What it was started with. */
static inline harsolvek_settings harsolvek_receiver_settings(const harsolvek_receiver *state)
{
    const harsolvek_settings settings = {state->word[0], state->word[1]};
    return settings;
}

static inline size_t harsolvek_receiver_capacity(const harsolvek_receiver *state)
{
    return state->word[2];
}

static inline harsolvek_identity harsolvek_receiver_identity(const harsolvek_receiver *state)
{
    const uint32_t *word = state->word + 9;
    const harsolvek_identity identity = {(uint16_t)word[0],
                                         (uint16_t)(word[0] >> 16),
                                         (uint8_t)word[1],
                                         (uint8_t)(word[1] >> 8),
                                         {(uint16_t)(word[1] >> 16), (uint16_t)word[2],
                                          (uint16_t)(word[2] >> 16), (uint16_t)word[3]},
                                         (uint8_t)(word[3] >> 16),
                                         (uint8_t)(word[3] >> 24),
                                         (uint8_t)word[4],
                                         (uint8_t)(word[4] >> 8),
                                         (uint8_t)(word[4] >> 16)};
    return identity;
}

/* An enum harsolvek_receiver_phase. */
static inline uint32_t harsolvek_receiver_phase(const harsolvek_receiver *state)
{
    return state->word[3];
}

/* How many blocks were accepted, 0 to 65,535, and how many bytes: the first so many of the image. 0
 * in Idle. */
static inline uint32_t harsolvek_receiver_blocks(const harsolvek_receiver *state)
{
    return state->word[4];
}

static inline size_t harsolvek_receiver_bytes(const harsolvek_receiver *state)
{
    return state->word[5];
}

/* 1 in Transfer if the last block was short, else 0, and 0 elsewhere. */
static inline uint32_t harsolvek_receiver_last_short(const harsolvek_receiver *state)
{
    return state->word[6];
}

/* In milliseconds, 0 to 65,535. */
static inline uint32_t harsolvek_receiver_silence(const harsolvek_receiver *state)
{
    return state->word[7];
}

/* How many resends were made, 0 to 255. */
static inline uint32_t harsolvek_receiver_resends(const harsolvek_receiver *state)
{
    return state->word[8];
}

/* ---- The indoor end ---- */

/* What the file is offered as. It is newer than what a receiver reports if vendor and product agree
 * and its versions are later. Equal ones are not. */
typedef struct harsolvek_release {
    uint16_t vendor;
    uint16_t product;
    harsolvek_versions versions;
} harsolvek_release;

enum harsolvek_indoor_phase {
    HARSOLVEK_INDOOR_IDENTIFY = 0,
    HARSOLVEK_INDOOR_INITIATE = 1,
    HARSOLVEK_INDOOR_TRANSFER = 2,
    HARSOLVEK_INDOOR_VALIDATE = 3,
    HARSOLVEK_INDOOR_DONE = 4,  /* the receiver has marked the image good */
    HARSOLVEK_INDOOR_FAILED = 5 /* for a reason */
};

/* A session. */
typedef struct harsolvek_indoor {
    uint32_t word[HARSOLVEK_INDOOR_WORDS];
} harsolvek_indoor;

uint64_t harsolvek_indoor_layout_1(void);
uint64_t harsolvek_indoor_start_raw(harsolvek_indoor *state, const harsolvek_settings *settings,
                                    const harsolvek_release *release, const uint8_t *file,
                                    uint64_t file_length, uint8_t *out, uint64_t out_length,
                                    uint64_t *written);
uint64_t harsolvek_indoor_response_raw(harsolvek_indoor *state, const uint8_t *file,
                                       uint64_t file_length, const uint8_t *response,
                                       uint64_t response_length, uint8_t *out, uint64_t out_length,
                                       uint64_t *written);
uint64_t harsolvek_indoor_time_raw(harsolvek_indoor *state, const uint8_t *file,
                                   uint64_t file_length, uint32_t elapsed, uint8_t *out,
                                   uint64_t out_length, uint64_t *written);
uint64_t harsolvek_indoor_is_session_raw(const harsolvek_indoor *state);

/* Whether the state is a session: 1 or 0. */
static inline int harsolvek_indoor_is_session(const harsolvek_indoor *state)
{
    return harsolvek_indoor_layout_1() == HARSOLVEK_INDOOR_WORDS &&
           harsolvek_indoor_is_session_raw(state) != 0;
}

/* Starts a session and writes GET_FW_ID. Borrows the file, of which only the length is looked at,
 * and the output buffer. Refusals: 29, 46, 27; the state is then all zero. Every later call borrows
 * the same file. */
static inline uint8_t harsolvek_indoor_start(harsolvek_indoor *state,
                                             const harsolvek_settings *settings,
                                             const harsolvek_release *release, const uint8_t *file,
                                             size_t file_length, uint8_t *out, size_t out_length,
                                             size_t *written)
{
    uint64_t count;
    uint64_t number;
    (void)harsolvek_indoor_layout_1();
    number = harsolvek_indoor_start_raw(state, settings, release, file, file_length, out,
                                        out_length, &count);
    *written = (size_t)count;
    return (uint8_t)number;
}

/* One response as it arrived. Borrows the file, the response, and the output buffer (for the next
 * request, or ABORT with 43 and 44). Refusals: 29 (the state), 28, 27, 20, 21, and 21 for every
 * response in Done and Failed; it fails with 41 to 45, and the state then is Failed. */
static inline uint8_t harsolvek_indoor_response(harsolvek_indoor *state, const uint8_t *file,
                                                size_t file_length, const uint8_t *response,
                                                size_t response_length, uint8_t *out,
                                                size_t out_length, size_t *written)
{
    uint64_t count;
    const uint64_t number = harsolvek_indoor_response_raw(state, file, file_length, response,
                                                          response_length, out, out_length, &count);
    *written = (size_t)count;
    return (uint8_t)number;
}

/* `elapsed` milliseconds have passed in which no response was taken. Borrows the file and the
 * output buffer. In a wait the silence does not grow; the call that ends it writes the request
 * again, and the time left over is dropped. At the silence limit Identify, Initiate and Validate
 * write their request again while resends are left; with none left, and in Transfer at once, it
 * fails with 40, ABORT is written, and the state is Failed. In Done and Failed nothing changes (0).
 * Refusals: 29 (the state), 28, 27. */
static inline uint8_t harsolvek_indoor_time(harsolvek_indoor *state, const uint8_t *file,
                                            size_t file_length, uint32_t elapsed, uint8_t *out,
                                            size_t out_length, size_t *written)
{
    uint64_t count;
    const uint64_t number =
        harsolvek_indoor_time_raw(state, file, file_length, elapsed, out, out_length, &count);
    *written = (size_t)count;
    return (uint8_t)number;
}

/* The fields of a session. Of a state that is none they say nothing. */

/* What it was started with. */
static inline harsolvek_settings harsolvek_indoor_settings(const harsolvek_indoor *state)
{
    const harsolvek_settings settings = {state->word[0], state->word[1]};
    return settings;
}

/* The file's. */
static inline size_t harsolvek_indoor_length(const harsolvek_indoor *state)
{
    return state->word[2];
}

static inline harsolvek_release harsolvek_indoor_release(const harsolvek_indoor *state)
{
    const uint32_t *word = state->word + 10;
    const harsolvek_release release = {(uint16_t)word[0],
                                       (uint16_t)(word[0] >> 16),
                                       {(uint16_t)word[1], (uint16_t)(word[1] >> 16),
                                        (uint16_t)word[2], (uint16_t)(word[2] >> 16)}};
    return release;
}

/* An enum harsolvek_indoor_phase. */
static inline uint32_t harsolvek_indoor_phase(const harsolvek_indoor *state)
{
    return state->word[3];
}

/* In Transfer the block last asked for, 0 to 65,535; 0 elsewhere. */
static inline uint32_t harsolvek_indoor_asked(const harsolvek_indoor *state)
{
    return state->word[4];
}

/* What is left in milliseconds of the wait that the receiver asked for, 0 to 65,535, in Initiate,
 * Transfer and Validate; 0 elsewhere. */
static inline uint32_t harsolvek_indoor_wait(const harsolvek_indoor *state)
{
    return state->word[5];
}

/* 1 in Transfer once the empty block has been sent, else 0, and 0 elsewhere. */
static inline uint32_t harsolvek_indoor_emptied(const harsolvek_indoor *state)
{
    return state->word[6];
}

/* In milliseconds, 0 to 65,535. */
static inline uint32_t harsolvek_indoor_silence(const harsolvek_indoor *state)
{
    return state->word[7];
}

/* How many resends were made, 0 to 255. */
static inline uint32_t harsolvek_indoor_resends(const harsolvek_indoor *state)
{
    return state->word[8];
}

/* Why it failed, 40 to 45 in Failed; 0 elsewhere. */
static inline uint32_t harsolvek_indoor_reason(const harsolvek_indoor *state)
{
    return state->word[9];
}

/* ---- The indoor computer's mailbox to its port controller ---- */

/* The status of the last command. */
enum harsolvek_status {
    HARSOLVEK_STATUS_NOTHING = 0,
    HARSOLVEK_STATUS_RESET_DONE = 1,
    HARSOLVEK_STATUS_BUSY = 2,      /* a command runs */
    HARSOLVEK_STATUS_COMPLETED = 3, /* with data of a length */
    HARSOLVEK_STATUS_FAILED = 4,
    HARSOLVEK_STATUS_NOT_SUPPORTED = 5,
    HARSOLVEK_STATUS_CANCELLED = 6,
    HARSOLVEK_STATUS_ACKNOWLEDGED = 7
};

/* What the port is to do. `code` is CONNECTOR_RESET, GET_CAPABILITY, GET_CONNECTOR_CAPABILITY or
 * GET_CONNECTOR_STATUS: no other command runs. `connector` is 1 to the count, 0 for GET_CAPABILITY,
 * and `reset_type` is CONNECTOR_RESET's. */
typedef struct harsolvek_command {
    uint8_t code;
    uint8_t connector;
    uint8_t reset_type;
} harsolvek_command;

/* A mailbox. */
typedef struct harsolvek_mailbox {
    uint32_t word[HARSOLVEK_MAILBOX_WORDS];
    uint8_t message_in[HARSOLVEK_MESSAGE_IN_SIZE];
} harsolvek_mailbox;

uint64_t harsolvek_mailbox_layout_1(void);
uint64_t harsolvek_mailbox_fresh_raw(uint32_t *words, uint8_t *message_in, uint32_t connectors);
uint64_t harsolvek_mailbox_write_raw(uint32_t *words, uint8_t *message_in, const uint8_t *control,
                                     uint64_t control_length);
uint64_t harsolvek_mailbox_success_raw(uint32_t *words, uint8_t *message_in, const uint8_t *bytes,
                                       uint64_t bytes_length);
uint64_t harsolvek_mailbox_failure_raw(uint32_t *words, uint8_t *message_in);
uint64_t harsolvek_mailbox_change_raw(uint32_t *words, uint8_t *message_in, uint32_t connector,
                                      uint16_t reason);
uint64_t harsolvek_mailbox_cci_raw(const uint32_t *words, uint32_t *cci);
uint64_t harsolvek_mailbox_is_mailbox_raw(const uint32_t *words);

/* Whether the state is a mailbox: 1 or 0. Any bytes may be its MESSAGE_IN. */
static inline int harsolvek_mailbox_is_mailbox(const harsolvek_mailbox *state)
{
    return harsolvek_mailbox_layout_1() == HARSOLVEK_MAILBOX_WORDS &&
           harsolvek_mailbox_is_mailbox_raw(state->word) != 0;
}

/* A mailbox with CCI 0 and notifications off. 29: connectors outside 1 to 8; the state is then all
 * zero, MESSAGE_IN too. */
static inline uint8_t harsolvek_mailbox_fresh(harsolvek_mailbox *state, uint32_t connectors)
{
    (void)harsolvek_mailbox_layout_1();
    return (uint8_t)harsolvek_mailbox_fresh_raw(state->word, state->message_in, connectors);
}

/* A write of CONTROL. Borrows it, to read. Refusals: 29 (the state), 1; then PPM_RESET is taken,
 * and any other command may meet 2, 3, 4, 5, 6, in this order. */
static inline uint8_t harsolvek_mailbox_write(harsolvek_mailbox *state, const uint8_t *control,
                                              size_t control_length)
{
    return (uint8_t)harsolvek_mailbox_write_raw(state->word, state->message_in, control,
                                                control_length);
}

/* The port reports success with these bytes. Borrows them, to read. Refusals: 29 (the state), 7, 8.
 */
static inline uint8_t harsolvek_mailbox_success(harsolvek_mailbox *state, const uint8_t *bytes,
                                                size_t bytes_length)
{
    return (uint8_t)harsolvek_mailbox_success_raw(state->word, state->message_in, bytes,
                                                  bytes_length);
}

/* The port reports failure. Refusals: 29 (the state), 7. */
static inline uint8_t harsolvek_mailbox_failure(harsolvek_mailbox *state)
{
    return (uint8_t)harsolvek_mailbox_failure_raw(state->word, state->message_in);
}

/* A change on a connector, with the 16 bits of its reason. One that is dropped is 0 too: while
 * notifications are off, or if its reason meets the mask in no bit but bit 0. Refusals: 29 (the
 * state), 9. */
static inline uint8_t harsolvek_mailbox_change(harsolvek_mailbox *state, uint32_t connector,
                                               uint16_t reason)
{
    return (uint8_t)harsolvek_mailbox_change_raw(state->word, state->message_in, connector, reason);
}

/* The 32 bits of CCI. Refusal: 29 (the state); CCI is then 0. */
static inline uint8_t harsolvek_mailbox_cci(const harsolvek_mailbox *state, uint32_t *cci)
{
    return (uint8_t)harsolvek_mailbox_cci_raw(state->word, cci);
}

/* The HARSOLVEK_MESSAGE_IN_SIZE bytes of MESSAGE_IN, where they lie. */
static inline const uint8_t *harsolvek_mailbox_message_in(const harsolvek_mailbox *state)
{
    return state->message_in;
}

/* The fields of a mailbox. Of a state that is none they say nothing. */

static inline uint32_t harsolvek_mailbox_connectors(const harsolvek_mailbox *state)
{
    return state->word[0];
}

/* The connector shown, 1 to the count, or 0 for none. */
static inline uint32_t harsolvek_mailbox_shown(const harsolvek_mailbox *state)
{
    return state->word[1];
}

/* Connector c waits if bit c - 1 is set; no bit above the count is. */
static inline uint32_t harsolvek_mailbox_waiting(const harsolvek_mailbox *state)
{
    return state->word[2];
}

/* 1 if notifications are on, else 0; 1 while a command runs. */
static inline uint32_t harsolvek_mailbox_notifications(const harsolvek_mailbox *state)
{
    return state->word[3];
}

/* 0 to 65,535; 0 while notifications are off. */
static inline uint32_t harsolvek_mailbox_mask(const harsolvek_mailbox *state)
{
    return state->word[4];
}

/* An enum harsolvek_status. */
static inline uint32_t harsolvek_mailbox_status(const harsolvek_mailbox *state)
{
    return state->word[5];
}

/* The length of the data, 0 to 255 in Completed; 0 elsewhere. */
static inline uint32_t harsolvek_mailbox_length(const harsolvek_mailbox *state)
{
    return state->word[6];
}

/* The command that runs, in Busy, with a connector of 0 to the count and a reset type of 0 to 255;
 * all 0 elsewhere. */
static inline harsolvek_command harsolvek_mailbox_command(const harsolvek_mailbox *state)
{
    const harsolvek_command command = {(uint8_t)state->word[7], (uint8_t)state->word[8],
                                       (uint8_t)state->word[9]};
    return command;
}

/* ---- The records of a recording ---- */

enum harsolvek_record_kind {
    HARSOLVEK_RECORD_CONTROL = 1, /* a write of `control` */
    HARSOLVEK_RECORD_CHANGE = 2,  /* a change on `connector` for `reason` */
    HARSOLVEK_RECORD_SUCCESS = 3, /* the port's success with `length` zero bytes */
    HARSOLVEK_RECORD_FAILURE = 4  /* the port's failure */
};

/* A record. `kind` is an enum harsolvek_record_kind. What its kind does not have is 0 when it is
 * read, and passed over when it is written. */
typedef struct harsolvek_record {
    uint32_t kind;
    uint16_t reason;
    uint8_t connector;
    uint8_t length;
    uint8_t control[HARSOLVEK_CONTROL_SIZE];
} harsolvek_record;

/* What is found at a place of a recording. */
enum harsolvek_found {
    HARSOLVEK_FOUND_RECORD = 0,
    HARSOLVEK_FOUND_END = 1,    /* the recording ends here, behind a whole record */
    HARSOLVEK_FOUND_CUT = 2,    /* it ends within a record of a known kind */
    HARSOLVEK_FOUND_UNKNOWN = 3 /* a kind that there is not */
};

uint64_t harsolvek_recording_layout_1(void);
uint64_t harsolvek_record_read_raw(const uint8_t *recording, uint64_t recording_length, uint64_t at,
                                   uint32_t *kind, uint16_t *reason, uint8_t *connector,
                                   uint8_t *length, uint8_t *control, uint64_t *next);
uint64_t harsolvek_record_write_raw(uint32_t kind, uint16_t reason, uint8_t connector,
                                    uint8_t length, const uint8_t *control, uint8_t *out,
                                    uint64_t out_length, uint64_t *written);
uint64_t harsolvek_record_line_raw(uint32_t cci, uint8_t number, uint8_t *out, uint64_t out_length,
                                   uint64_t *written);
uint64_t harsolvek_record_stop_raw(uint8_t *out, uint64_t out_length, uint64_t *written);

/* The record at place `at` of a recording, and where the next one begins: an enum harsolvek_found.
 * Borrows the recording, to read. Where no record is found, `*record` is all zero and `*next` is
 * `at`. */
static inline uint32_t harsolvek_record_read(const uint8_t *recording, size_t recording_length,
                                             size_t at, harsolvek_record *record, size_t *next)
{
    uint64_t place;
    uint64_t found;
    (void)harsolvek_recording_layout_1();
    found =
        harsolvek_record_read_raw(recording, recording_length, at, &record->kind, &record->reason,
                                  &record->connector, &record->length, record->control, &place);
    *next = (size_t)place;
    return (uint32_t)found;
}

/* Writes a record into the first bytes of the output buffer. Refusals: 27, for a buffer under
 * HARSOLVEK_RECORD_MOST bytes, whatever the record; 20, for a kind that there is not. Nothing is
 * then written. */
static inline uint8_t harsolvek_record_write(const harsolvek_record *record, uint8_t *out,
                                             size_t out_length, size_t *written)
{
    uint64_t count;
    uint64_t number;
    (void)harsolvek_recording_layout_1();
    number = harsolvek_record_write_raw(record->kind, record->reason, record->connector,
                                        record->length, record->control, out, out_length, &count);
    *written = (size_t)count;
    return (uint8_t)number;
}

/* The line that a record prints: CCI behind it as 8 capital hex digits, a space, its number, a
 * newline, and no zero byte behind them. Refusal: 27, for a buffer under HARSOLVEK_LINE_MOST bytes;
 * nothing is then written. */
static inline uint8_t harsolvek_record_line(uint32_t cci, uint8_t number, uint8_t *out,
                                            size_t out_length, size_t *written)
{
    uint64_t count;
    const uint64_t answer = harsolvek_record_line_raw(cci, number, out, out_length, &count);
    *written = (size_t)count;
    return (uint8_t)answer;
}

/* The line `stop`, which a cut record and an unknown kind print. Refusal: 27, as above. */
static inline uint8_t harsolvek_record_stop(uint8_t *out, size_t out_length, size_t *written)
{
    uint64_t count;
    const uint64_t answer = harsolvek_record_stop_raw(out, out_length, &count);
    *written = (size_t)count;
    return (uint8_t)answer;
}

#ifdef __cplusplus
}
#endif

#endif
