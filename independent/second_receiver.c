/*
 * The receiver (01, The receiver's phases).
 */
#include <string.h>

#include "second.h"
#include "second_faults.h"

/* 001 T5-20, T5-22, T5-24: WaitTime 255 says that nothing more is wanted. */
enum {
    BLOCK = 256,
    BLOCK_AT = 4,
    LONGEST = 260,
    LARGEST_IMAGE = 1048575,
    LONGEST_WAIT = 254,
    NO_MORE = 255
};

/* 001 T5-2. */
enum { VERSION_1_0 = 0x01 };

/* 001 T5-3. A response has its request's type without bit 7 (001 T5-16). */
enum {
    GET_FW_ID = 0x81,
    INITIATE = 0x82,
    DATA = 0x83,
    DATA_NR = 0x84,
    VALIDATE = 0x85,
    ABORT = 0x86,
    DATA_PAUSE = 0x87,
    VENDOR_SPECIFIC = 0xFF
};

/* 001 T5-29. */
enum { STATUS_OK = 0x00, ERR_FILE = 0x02, ERR_ADDRESS = 0x08, ERR_UNEXPECTED_REQUEST = 0x82 };

static unsigned number_at(const uint8_t *low)
{
    return (unsigned)low[0] + 256u * low[1];
}

/* 01: a response buffer is written in its first bytes only. */
static void write_response(uint8_t *out, size_t *written, const uint8_t *message, size_t length)
{
    memcpy(out, message, length);
    *written = length;
    if (fault(RECEIVER_BYTE_BEHIND_CLEARED)) {
        out[length] = 0;
    }
}

/* 001 T5-18: SiVersion and the four flag bytes have reserved bits, and a reserved bit is zero when
 * written. */
static void write_identity(const second_receiver *r, uint8_t *out, size_t *written)
{
    uint8_t message[22] = {VERSION_1_0, GET_FW_ID & 0x7F, STATUS_OK};

    memcpy(message + 3, r->identity, sizeof r->identity);
    if (!fault(RECEIVER_RESERVED_BITS_SENT)) {
        message[8] &= 0xF0;
        message[18] &= 0x0F;
        message[19] &= 0x03;
        message[20] &= 0x1F;
        message[21] &= 0x0F;
    }
    write_response(out, written, message, sizeof message);
}

/* 001 T5-20. */
static void write_initiate(uint8_t *out, size_t *written, unsigned status, unsigned wait_time,
                           size_t size)
{
    const uint8_t message[7] = {VERSION_1_0,
                                INITIATE & 0x7F,
                                (uint8_t)status,
                                (uint8_t)wait_time,
                                (uint8_t)(size & 0xFF),
                                (uint8_t)(size >> 8 & 0xFF),
                                (uint8_t)(size >> 16 & 0x0F)};

    write_response(out, written, message, sizeof message);
}

/* 001 T5-22. NumDataNR is always 0 (01, The receiver's phases). */
static void write_data(uint8_t *out, size_t *written, unsigned status, unsigned wait_time,
                       unsigned number)
{
    const uint8_t message[7] = {VERSION_1_0,
                                DATA & 0x7F,
                                (uint8_t)status,
                                (uint8_t)wait_time,
                                0,
                                (uint8_t)(number & 0xFF),
                                (uint8_t)(number >> 8 & 0xFF)};

    write_response(out, written, message, sizeof message);
}

/* 001 T5-24. */
static void write_validate(uint8_t *out, size_t *written, unsigned status, unsigned wait_time,
                           unsigned success)
{
    const uint8_t message[5] = {VERSION_1_0, VALIDATE & 0x7F, (uint8_t)status, (uint8_t)wait_time,
                                (uint8_t)success};

    write_response(out, written, message, sizeof message);
}

/* 01: the closing answer carries the accepted count, where 001 T5-22 would have zero. */
static void write_close(const second_receiver *r, uint8_t *out, size_t *written)
{
    write_data(out, written, STATUS_OK, NO_MORE,
               fault(RECEIVER_CLOSE_CARRIES_ZERO) ? 0 : r->blocks);
}

/* 01: going to Idle sets accepted to zero, and the image bytes stay as they lie. */
static void go_idle(second_receiver *r)
{
    r->phase = SECOND_IDLE;
    r->blocks = 0;
    r->bytes = 0;
    r->last_short = 0;
}

/* 20, in the order length, version, type, length of that type. Of the requests that are not built
 * any length is right. */
static int well_formed(const uint8_t *request, size_t length)
{
    size_t longest = fault(RECEIVER_REQUEST_OF_261_TAKEN) ? LONGEST + 1 : LONGEST;

    if (length < 2 || length > longest || request[0] != VERSION_1_0) {
        return 0;
    }
    switch (request[1]) {
    case GET_FW_ID:
    case VALIDATE:
    case ABORT:
        return length == 2;
    case INITIATE:
        return length == 10;
    case DATA:
        return length >= BLOCK_AT;
    case DATA_NR:
    case DATA_PAUSE:
    case VENDOR_SPECIFIC:
        return 1;
    default:
        return 0;
    }
}

/* 21: whether a request of this type has no place in the phase. */
static int unexpected(const second_receiver *r, unsigned type)
{
    switch (type) {
    case GET_FW_ID:
        return 0;
    case INITIATE:
        return r->phase != SECOND_IDLE &&
               (r->phase != SECOND_TRANSFER ||
                (r->blocks > 0 && !fault(RECEIVER_INITIATE_STARTS_AFRESH)));
    case DATA:
        return r->phase != SECOND_TRANSFER && r->phase != SECOND_AWAIT;
    case VALIDATE:
        return r->phase != SECOND_AWAIT && r->phase != SECOND_GOOD;
    case ABORT:
        return r->phase != SECOND_TRANSFER && r->phase != SECOND_AWAIT &&
               !(fault(RECEIVER_ABORT_TAKEN_IN_IDLE) && r->phase == SECOND_IDLE);
    default:
        return 1;
    }
}

/* 01: an answer with a status other than OK has WaitTime 255 and its later fields zero. Other types
 * get none. */
static void write_unexpected(uint8_t *out, size_t *written, unsigned type)
{
    if (fault(RECEIVER_21_WRITES_NOTHING)) {
        return;
    }
    if (type == INITIATE) {
        write_initiate(out, written, ERR_UNEXPECTED_REQUEST, NO_MORE, 0);
    } else if (type == DATA) {
        write_data(out, written, ERR_UNEXPECTED_REQUEST, NO_MORE, 0);
    } else if (type == VALIDATE) {
        write_validate(out, written, ERR_UNEXPECTED_REQUEST, NO_MORE, 0);
    }
}

/* 01: a readiness above 0 keeps the phase, so a Transfer with nothing accepted stays one. */
static void take_initiate(second_receiver *r, unsigned readiness, uint8_t *out, size_t *written)
{
    if (readiness == 0 || fault(RECEIVER_INITIATE_WAIT_ENTERS_TRANSFER)) {
        go_idle(r);
        r->phase = SECOND_TRANSFER;
    }
    write_initiate(out, written, STATUS_OK, readiness, r->capacity);
}

/* The blocks before this one are whole, so its end in the image is the count of bytes accepted. */
static void take_block(second_receiver *r, uint8_t *image, size_t at, const uint8_t *block,
                       size_t length, unsigned readiness, uint8_t *out, size_t *written)
{
    memcpy(image + at, block, length);
    r->blocks++;
    r->bytes = at + length;
    r->last_short = length < BLOCK && !fault(RECEIVER_SHORT_NOT_REMEMBERED);
    write_data(out, written, STATUS_OK, readiness, r->blocks);
}

/* In Await the closing answer is given again, whatever number and block come (01, The receiver's
 * phases). */
static void take_close(second_receiver *r, uint8_t *out, size_t *written)
{
    r->phase = SECOND_AWAIT;
    r->last_short = 0;
    write_close(r, out, written);
}

/* A bad verdict has been answered before; in Good the verdict no longer counts. */
static void take_validate(second_receiver *r, unsigned verdict, unsigned later, uint8_t *out,
                          size_t *written)
{
    if (r->phase == SECOND_AWAIT && verdict == SECOND_VERDICT_LATER) {
        write_validate(out, written, STATUS_OK, later, 0);
    } else {
        r->phase = SECOND_GOOD;
        write_validate(out, written, STATUS_OK, 0, 1);
    }
}

int second_receiver_start(second_receiver *r, unsigned limit, unsigned resends,
                          const uint8_t identity[19], size_t capacity)
{
    limit = fault(RECEIVER_LIMIT_CUT) ? limit % 65536 : limit;
    resends = fault(RECEIVER_RESENDS_CUT) ? resends % 256 : resends;
    capacity = fault(RECEIVER_CAPACITY_CUT) ? (uint32_t)capacity : capacity;
    if (limit < 1 || limit > 10000 || resends > 10 || capacity > LARGEST_IMAGE) {
        if (!fault(RECEIVER_REFUSED_START_KEEPS_STATE)) {
            memset(r, 0, sizeof *r);
        }
        return 29;
    }
    r->limit = limit;
    r->most = resends;
    memcpy(r->identity, identity, sizeof r->identity);
    r->capacity = capacity;
    r->silence = 0;
    r->resends = 0;
    go_idle(r);
    return 0;
}

/* 26. */
static int out_of_range(unsigned readiness, unsigned verdict, unsigned later)
{
    unsigned longest_readiness =
        fault(RECEIVER_READINESS_255_TAKEN) ? LONGEST_WAIT + 1 : LONGEST_WAIT;
    unsigned least_later = fault(RECEIVER_LATER_0_TAKEN) ? 0 : 1;

    return readiness > longest_readiness || verdict < SECOND_VERDICT_GOOD ||
           verdict > SECOND_VERDICT_LATER ||
           (verdict == SECOND_VERDICT_LATER && (later < least_later || later > LONGEST_WAIT));
}

int second_receiver_request(second_receiver *r, uint8_t *image, size_t image_length,
                            const uint8_t *request, size_t request_length, unsigned readiness,
                            unsigned verdict, unsigned later, uint8_t *out, size_t out_length,
                            size_t *written)
{
    int wait_wrong;
    unsigned type;
    unsigned number = 0;
    size_t length = 0;
    size_t at;
    int block_due;
    int file_wrong;
    int passes;

    readiness = fault(RECEIVER_READINESS_CUT) ? readiness % 256 : readiness;
    verdict = fault(RECEIVER_VERDICT_CUT) ? verdict % 256 : verdict;
    later = fault(RECEIVER_LATER_CUT) ? later % 256 : later;
    wait_wrong = out_of_range(readiness, verdict, later);
    *written = 0;
    if (image_length != r->capacity && !(fault(RECEIVER_27_BEFORE_28) && out_length < LONGEST)) {
        return 28;
    }
    if (out_length < LONGEST) {
        return 27;
    }
    if (wait_wrong && !(fault(RECEIVER_26_AFTER_20) && !well_formed(request, request_length))) {
        return 26;
    }
    if (!well_formed(request, request_length)) {
        if (fault(RECEIVER_20_ENDS_SILENCE)) {
            r->silence = 0;
        }
        return 20;
    }

    type = request[1];
    if (!(fault(RECEIVER_21_KEEPS_SILENCE) && unexpected(r, type))) {
        r->silence = 0;
        r->resends = 0;
    }
    if (unexpected(r, type)) {
        write_unexpected(out, written, type);
        return 21;
    }

    if (type == DATA) {
        number = number_at(request + 2);
        length = request_length - BLOCK_AT;
    }
    block_due = type == DATA && r->phase == SECOND_TRANSFER;
    at = fault(RECEIVER_BLOCK_APPENDED) ? r->bytes : (size_t)BLOCK * number;
    file_wrong =
        length > 0 ? r->last_short : r->blocks == 0 && !fault(RECEIVER_EMPTY_FIRST_BLOCK_CLOSES);
    passes =
        length > 0 && (at + length > r->capacity ||
                       (fault(RECEIVER_EXACT_FILL_PASSES_CAPACITY) && at + length == r->capacity));

    if (fault(RECEIVER_AWAIT_COMPARES_NUMBER) && type == DATA && r->phase == SECOND_AWAIT &&
        number != r->blocks) {
        write_data(out, written, STATUS_OK, 0, r->blocks);
        return 22;
    }
    if (block_due && number != r->blocks && !fault(RECEIVER_BLOCK_NUMBER_NOT_COMPARED) &&
        !fault(RECEIVER_BLOCK_APPENDED)) {
        write_data(out, written, STATUS_OK, fault(RECEIVER_22_CARRIES_READINESS) ? readiness : 0,
                   r->blocks);
        return 22;
    }
    if (block_due && file_wrong && !(fault(RECEIVER_23_BEFORE_24) && passes)) {
        write_data(out, written, ERR_FILE, NO_MORE,
                   fault(RECEIVER_24_CARRIES_NUMBER) ? r->blocks : 0);
        go_idle(r);
        return 24;
    }
    if (block_due && passes) {
        write_data(out, written, ERR_ADDRESS, NO_MORE, 0);
        if (!fault(RECEIVER_23_KEEPS_TRANSFER)) {
            go_idle(r);
        }
        return 23;
    }
    if (type == VALIDATE && verdict == SECOND_VERDICT_BAD &&
        (r->phase == SECOND_AWAIT || fault(RECEIVER_GOOD_HEARS_BAD))) {
        write_validate(out, written, STATUS_OK, 0, 0);
        if (!fault(RECEIVER_BAD_KEEPS_AWAIT)) {
            go_idle(r);
        }
        return 25;
    }

    if (type == GET_FW_ID) {
        write_identity(r, out, written);
    } else if (type == INITIATE) {
        take_initiate(r, readiness, out, written);
    } else if (block_due && length > 0) {
        take_block(r, image, at, request + BLOCK_AT, length, readiness, out, written);
    } else if (type == DATA) {
        take_close(r, out, written);
    } else if (type == VALIDATE) {
        take_validate(r, verdict, later, out, written);
    } else {
        go_idle(r);
    }
    return 0;
}

int second_receiver_time(second_receiver *r, unsigned elapsed, uint8_t *out, size_t out_length,
                         size_t *written)
{
    uint64_t silence;
    unsigned most;

    *written = 0;
    if (out_length < LONGEST) {
        return 27;
    }
    if (r->phase != SECOND_TRANSFER && r->phase != SECOND_AWAIT) {
        return 0;
    }
    silence = r->silence + (uint64_t)(fault(RECEIVER_ELAPSED_CUT) ? elapsed % 65536 : elapsed);
    if (silence < r->limit || (fault(RECEIVER_LIMIT_REACHED_IS_NO_EXPIRY) && silence == r->limit)) {
        r->silence = (unsigned)silence;
        return 0;
    }

    /* 01, Sizes and numbers: a call that passes several limits is one expiry, and what it passed
     * them by is dropped. */
    r->silence = fault(RECEIVER_EXPIRY_KEEPS_REST) ? (unsigned)(silence - r->limit) : 0;
    most = fault(RECEIVER_ONE_RESEND_TOO_MANY) ? r->most + 1 : r->most;
    if (r->resends >= most) {
        if (fault(RECEIVER_EXPIRY_KEEPS_COUNTS)) {
            r->phase = SECOND_IDLE;
            r->last_short = 0;
        } else {
            go_idle(r);
        }
        return 0;
    }
    r->resends++;
    if (r->phase == SECOND_TRANSFER) {
        write_data(out, written, STATUS_OK, 0,
                   fault(RECEIVER_RESEND_ASKS_FOR_LAST) && r->blocks > 0 ? r->blocks - 1
                                                                         : r->blocks);
    } else if (fault(RECEIVER_AWAIT_RESENDS_WITH_WAIT_0)) {
        write_data(out, written, STATUS_OK, 0, r->blocks);
    } else {
        write_close(r, out, written);
    }
    return 0;
}

int second_receiver_sum(const second_receiver *r, const uint8_t *image, size_t image_length,
                        unsigned *sum)
{
    unsigned added = 0;
    size_t i;

    if (image_length != r->capacity) {
        return 28;
    }
    for (i = 0; i < r->bytes; i++) {
        added += image[i];
    }
    *sum = fault(RECEIVER_SUM_NOT_WRAPPED) ? added : added % 65536;
    return 0;
}
