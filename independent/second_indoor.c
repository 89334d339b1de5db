/*
 * The indoor end (01, The indoor end's phases).
 */
#include <string.h>

#include "second.h"
#include "second_faults.h"

/* 001 T5-20, T5-22, T5-24: WaitTime 255 says that nothing more is wanted. */
enum { BLOCK = 256, BLOCK_AT = 4, LONGEST = 260, LARGEST_IMAGE = 1048575, NO_MORE = 255 };

/* 001 T5-2. */
enum { VERSION_1_0 = 0x01 };

/* 001 T5-3 and T5-16. */
enum {
    GET_FW_ID_REQUEST = 0x81,
    INITIATE_REQUEST = 0x82,
    DATA_REQUEST = 0x83,
    VALIDATE_REQUEST = 0x85,
    ABORT_REQUEST = 0x86,
    GET_FW_ID_RESPONSE = 0x01,
    INITIATE_RESPONSE = 0x02,
    DATA_RESPONSE = 0x03,
    VALIDATE_RESPONSE = 0x05,
    DATA_PAUSE_RESPONSE = 0x07,
    VENDOR_SPECIFIC_RESPONSE = 0x7F
};

/* 001 T5-29. */
enum { STATUS_OK = 0x00 };

static unsigned number_at(const uint8_t *low)
{
    return (unsigned)low[0] + 256u * low[1];
}

static void put_number(uint8_t *low, unsigned number)
{
    low[0] = (uint8_t)(number & 0xFF);
    low[1] = (uint8_t)(number >> 8 & 0xFF);
}

/* 01's n, the least whole number with 256 n at or above the length. */
static unsigned block_count(const second_indoor *s)
{
    if (fault(INDOOR_BLOCK_TOO_MANY)) {
        return (unsigned)(s->length / BLOCK + 1);
    }
    return (unsigned)((s->length + BLOCK - 1) / BLOCK);
}

static void write_bare(uint8_t *out, size_t *written, unsigned type)
{
    out[0] = VERSION_1_0;
    out[1] = (uint8_t)type;
    *written = 2;
}

/* 001 T5-6. */
static void write_initiate(const second_indoor *s, uint8_t *out, size_t *written)
{
    size_t i;

    write_bare(out, written, INITIATE_REQUEST);
    for (i = 0; i < 4; i++) {
        unsigned version = s->version[i];

        if (fault(INDOOR_VERSIONS_HIGH_BYTE_FIRST)) {
            version = version >> 8 | (version & 0xFF) << 8;
        }
        put_number(out + 2 + 2 * i, version);
    }
    *written = 10;
}

/* 001 T5-8. The block behind the last one is the empty one that closes the transfer. */
static void write_block(second_indoor *s, const uint8_t *file, uint8_t *out, size_t *written)
{
    size_t at = (size_t)BLOCK * s->asked;
    size_t length = at >= s->length ? 0 : s->length - at;

    if (length > BLOCK) {
        length = BLOCK;
    }
    write_bare(out, written, DATA_REQUEST);
    put_number(out + 2, s->asked);
    if (length > 0) {
        memcpy(out + BLOCK_AT, file + at, length);
    }
    *written = BLOCK_AT + length;

    /* Once true this stays so until the session ends, also if an older block is sent again. */
    if (s->asked == block_count(s)) {
        s->emptied = 1;
    } else if (fault(INDOOR_EMPTIED_FORGOTTEN)) {
        s->emptied = 0;
    }
}

/* Each phase has one request, which its start, its resends and the end of its wait send alike. */
static void write_due(second_indoor *s, const uint8_t *file, uint8_t *out, size_t *written)
{
    if (s->phase == SECOND_IDENTIFY) {
        write_bare(out, written, GET_FW_ID_REQUEST);
    } else if (s->phase == SECOND_INITIATE) {
        write_initiate(s, out, written);
    } else if (s->phase == SECOND_SENDING) {
        write_block(s, file, out, written);
    } else if (s->phase == SECOND_VALIDATE) {
        write_bare(out, written, VALIDATE_REQUEST);
    }
}

static void enter(second_indoor *s, enum second_indoor_phase phase)
{
    s->phase = phase;
    s->asked = 0;
    s->emptied = 0;
    s->wait = 0;
    s->reason = 0;
    s->silence = 0;
}

/* 01: ABORT is sent once at 40, 43 and 44. */
static int fail(second_indoor *s, int number, uint8_t *out, size_t *written)
{
    enter(s, SECOND_FAILED);
    s->reason = number;
    s->resends = 0;
    if (number == 40 || (number == 43 && !fault(INDOOR_43_SENDS_NO_ABORT)) || number == 44 ||
        (number == 41 && fault(INDOOR_41_SENDS_ABORT))) {
        write_bare(out, written, ABORT_REQUEST);
    }
    return number;
}

/* 20, in the order length, version, type, length of that type. Of the responses that are not built
 * any length is right. */
static int well_formed(const uint8_t *response, size_t length)
{
    if (length < 2 || length > LONGEST || response[0] != VERSION_1_0) {
        return 0;
    }
    switch (response[1]) {
    case GET_FW_ID_RESPONSE:
        return length == 22;
    case INITIATE_RESPONSE:
    case DATA_RESPONSE:
        return length == 7;
    case VALIDATE_RESPONSE:
        return length == 5;
    case DATA_PAUSE_RESPONSE:
    case VENDOR_SPECIFIC_RESPONSE:
        return 1;
    default:
        return 0;
    }
}

/* Done and Failed wait for none, and 00 is no response's type (001 T5-16). */
static unsigned type_due(const second_indoor *s)
{
    switch (s->phase) {
    case SECOND_IDENTIFY:
        return GET_FW_ID_RESPONSE;
    case SECOND_INITIATE:
        return INITIATE_RESPONSE;
    case SECOND_SENDING:
        return DATA_RESPONSE;
    case SECOND_VALIDATE:
        return VALIDATE_RESPONSE;
    default:
        return 0;
    }
}

/* 001 section 5.3.1: FWVersion2 counts within FWVersion1, 3 within 2 and 4 within 3, so the four are
 * digits of one number to the base 65,536. */
static uint64_t version_number(const unsigned version[4])
{
    const int exchanged = fault(INDOOR_THIRD_VERSION_BEFORE_SECOND);
    const uint64_t two = ((uint64_t)version[0] << 16) + version[exchanged ? 2 : 1];
    const uint64_t three = (two << 16) + version[exchanged ? 1 : 2];

    if (fault(INDOOR_FIRST_VERSION_ALONE)) {
        return version[0];
    }
    return (three << 16) + (fault(INDOOR_FOURTH_VERSION_FORGOTTEN) ? 0 : version[3]);
}

/* Equal is not later (02 a). */
static int later(const unsigned ours[4], const unsigned theirs[4])
{
    if (fault(INDOOR_ANY_GREATER_VERSION_DECIDES)) {
        return ours[0] > theirs[0] || ours[1] > theirs[1] || ours[2] > theirs[2] ||
               ours[3] > theirs[3];
    }
    if (version_number(ours) == version_number(theirs)) {
        return fault(INDOOR_EQUAL_VERSION_IS_NEWER);
    }
    return version_number(ours) > version_number(theirs);
}

/* 02 a): vendor and product agree, and the file's four versions come later. */
static int newer(const second_indoor *s, const uint8_t *response)
{
    const unsigned reported[4] = {number_at(response + 9), number_at(response + 11),
                                  number_at(response + 13), number_at(response + 15)};

    if (number_at(response + 3) != s->vendor && !fault(INDOOR_VENDOR_NOT_COMPARED)) {
        return 0;
    }
    if (number_at(response + 5) != s->product && !fault(INDOOR_PRODUCT_NOT_COMPARED)) {
        return 0;
    }
    return later(s->version, reported);
}

/* 001 T5-20: MaxImageSize is 20 bits, and the four reserved ones above it are ignored when read. */
static int too_large(const second_indoor *s, const uint8_t *response)
{
    unsigned high = fault(INDOOR_SIZE_NOT_MASKED) ? response[6] : response[6] & 0x0F;
    size_t size = number_at(response + 4) + (size_t)65536 * high;

    return s->length > size || (fault(INDOOR_EXACT_SIZE_TOO_SMALL) && s->length == size);
}

/* 44: WaitTime 255 is the close only behind the empty block and with the number n; any other asks
 * for a block up to n. */
static int asks_wrongly(const second_indoor *s, const uint8_t *response)
{
    unsigned number = number_at(response + 5);
    unsigned n = block_count(s);

    if (response[3] == NO_MORE) {
        return (!s->emptied && !fault(INDOOR_CLOSE_BEFORE_EMPTY)) ||
               (number != n && !fault(INDOOR_CLOSE_OF_ANY_NUMBER));
    }
    return (number > n && !fault(INDOOR_ABOVE_N_SENDS_EMPTY)) ||
           (number == n && fault(INDOOR_N_IS_REFUSED));
}

/* 001 T5-24: success is bit 0 of Flags alone; the other bits are reserved. */
static int successful(const uint8_t *response)
{
    return fault(INDOOR_SUCCESS_FROM_ALL_FLAGS) ? response[4] == 1 : response[4] & 1;
}

/* 01: WaitTime counts 10 ms in an INITIATE response and 1 ms in the others; WaitTime 255 of a DATA
 * response is no wait. */
static unsigned wait_asked(const second_indoor *s, const uint8_t *response)
{
    if (s->phase == SECOND_INITIATE) {
        return fault(INDOOR_INITIATE_WAIT_IN_1_MS) ? response[3] : 10u * response[3];
    }
    if (s->phase == SECOND_SENDING) {
        return response[3] == NO_MORE ? 0 : response[3];
    }
    if (s->phase == SECOND_VALIDATE) {
        return fault(INDOOR_VALIDATE_WAIT_IN_10_MS) ? 10u * response[3] : response[3];
    }
    return 0;
}

/* 01: an accepted response without a wait writes the next request in the same call. */
static void take_response(second_indoor *s, const uint8_t *file, const uint8_t *response,
                          uint8_t *out, size_t *written)
{
    s->silence = 0;
    if (!fault(INDOOR_RESPONSE_KEEPS_RESENDS)) {
        s->resends = 0;
    }
    s->wait = wait_asked(s, response);
    if (s->phase == SECOND_SENDING && response[3] != NO_MORE) {
        s->asked = number_at(response + 5);
        if (fault(INDOOR_EMPTIED_WHEN_WAIT_BEGINS) && s->asked == block_count(s)) {
            s->emptied = 1;
        }
    }
    if (s->wait > 0 &&
        !(fault(INDOOR_SUCCESS_IN_A_WAIT) && s->phase == SECOND_VALIDATE && successful(response))) {
        return;
    }

    if (s->phase == SECOND_IDENTIFY) {
        enter(s, SECOND_INITIATE);
    } else if (s->phase == SECOND_INITIATE) {
        enter(s, SECOND_SENDING);
    } else if (s->phase == SECOND_VALIDATE) {
        enter(s, SECOND_DONE);
    } else if (response[3] == NO_MORE) {
        enter(s, SECOND_VALIDATE);
    }
    write_due(s, file, out, written);
}

int second_indoor_start(second_indoor *s, unsigned limit, unsigned resends, unsigned vendor,
                        unsigned product, const unsigned version[4], const uint8_t *file,
                        size_t file_length, uint8_t *out, size_t out_length, size_t *written)
{
    limit = fault(INDOOR_LIMIT_CUT) ? limit % 65536 : limit;
    resends = fault(INDOOR_RESENDS_CUT) ? resends % 256 : resends;
    *written = 0;
    if (!fault(INDOOR_REFUSED_START_KEEPS_STATE)) {
        memset(s, 0, sizeof *s);
    }
    if (limit < 1 || limit > 10000 || resends > 10) {
        return 29;
    }
    if ((file_length == 0 || file_length > LARGEST_IMAGE) &&
        !(fault(INDOOR_START_27_BEFORE_46) && out_length < LONGEST)) {
        return 46;
    }
    if (out_length < LONGEST) {
        return 27;
    }

    s->limit = limit;
    s->most = resends;
    s->vendor = vendor;
    s->product = product;
    memcpy(s->version, version, sizeof s->version);
    s->length = file_length;
    s->resends = 0;
    enter(s, SECOND_IDENTIFY);
    write_due(s, file, out, written);
    return 0;
}

int second_indoor_response(second_indoor *s, const uint8_t *file, size_t file_length,
                           const uint8_t *response, size_t response_length, uint8_t *out,
                           size_t out_length, size_t *written)
{
    int sends_again;
    int refused;
    int wrong_block;

    *written = 0;
    if (file_length != s->length) {
        return 28;
    }
    if (out_length < LONGEST) {
        return 27;
    }
    if (!well_formed(response, response_length)) {
        return 20;
    }
    if (response[1] != type_due(s) ||
        (fault(INDOOR_RESPONSE_IN_A_WAIT_PASSED_OVER) && s->wait > 0)) {
        if (fault(INDOOR_21_ENDS_SILENCE)) {
            s->silence = 0;
        }
        return 21;
    }

    sends_again = s->phase == SECOND_INITIATE || s->phase == SECOND_VALIDATE;
    refused = response[2] != STATUS_OK ||
              (sends_again && response[3] == NO_MORE && !fault(INDOOR_WAIT_255_WAITS));
    wrong_block = s->phase == SECOND_SENDING && asks_wrongly(s, response);
    if (refused && !(fault(INDOOR_44_BEFORE_41) && wrong_block)) {
        return fail(s, 41, out, written);
    }
    if (s->phase == SECOND_IDENTIFY && !newer(s, response)) {
        return fail(s, 42, out, written);
    }
    if (s->phase == SECOND_INITIATE && (response[3] == 0 || fault(INDOOR_SIZE_OF_A_WAIT_JUDGED)) &&
        too_large(s, response)) {
        return fail(s, 43, out, written);
    }
    if (wrong_block) {
        return fail(s, 44, out, written);
    }
    if (s->phase == SECOND_VALIDATE && response[3] == 0 && !successful(response)) {
        return fail(s, 45, out, written);
    }

    take_response(s, file, response, out, written);
    return 0;
}

int second_indoor_time(second_indoor *s, const uint8_t *file, size_t file_length, unsigned elapsed,
                       uint8_t *out, size_t out_length, size_t *written)
{
    uint64_t passed = fault(INDOOR_ELAPSED_CUT) ? elapsed % 65536 : elapsed;
    uint64_t silence = s->silence + passed;
    unsigned most = fault(INDOOR_ONE_RESEND_TOO_FEW) && s->most > 0 ? s->most - 1 : s->most;

    *written = 0;
    if (file_length != s->length) {
        return 28;
    }
    if (out_length < LONGEST) {
        if (fault(INDOOR_27_COUNTS_TIME) && s->phase < SECOND_DONE && s->wait == 0 &&
            silence < s->limit) {
            s->silence = (unsigned)silence;
        }
        return 27;
    }
    if (s->phase == SECOND_DONE || s->phase == SECOND_FAILED) {
        return 0;
    }
    if (passed < s->wait) {
        s->wait -= (unsigned)passed;
        if (fault(INDOOR_SILENCE_GROWS_IN_A_WAIT)) {
            s->silence = (unsigned)silence;
        }
        return 0;
    }

    /* 01: the call that ends a wait sends, its leftover time is dropped, and this is not a
     * resend. */
    if (s->wait > 0) {
        s->silence = fault(INDOOR_LEFTOVER_OF_WAIT_KEPT) ? (unsigned)(passed - s->wait) : 0;
        s->resends += fault(INDOOR_WAIT_COUNTS_AS_RESEND) ? 1 : 0;
        s->wait = 0;
        write_due(s, file, out, written);
        return 0;
    }

    if (silence < s->limit || (fault(INDOOR_LIMIT_REACHED_IS_NO_EXPIRY) && silence == s->limit)) {
        s->silence = (unsigned)silence;
        return 0;
    }
    if ((s->phase == SECOND_SENDING && !fault(INDOOR_TRANSFER_RESENDS)) || s->resends >= most) {
        return fail(s, 40, out, written);
    }
    s->silence = 0;
    s->resends += fault(INDOOR_EACH_LIMIT_IS_AN_EXPIRY) ? (unsigned)(silence / s->limit) : 1;
    write_due(s, file, out, written);
    return 0;
}
