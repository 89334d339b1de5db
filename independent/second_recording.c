/*
 * The records of a recording, and the lines that they print (01, Replay program).
 */
#include <string.h>

#include "second.h"
#include "second_faults.h"

enum { CONTROL = 1, CHANGE = 2, SUCCESS = 3, FAILURE = 4 };

/* The longest record, and the longest line: 8 digits, a space, 3 digits and a newline. */
enum { RECORD_MOST = 9, LINE_MOST = 13 };

/* How many bytes a record has with its kind; 0 for a kind that is none. */
static size_t size_of(unsigned kind)
{
    switch (kind) {
    case CONTROL:
        return 1 + 8;
    case CHANGE:
        return 1 + 1 + 2;
    case SUCCESS:
        return 1 + 1;
    case FAILURE:
        return 1;
    default:
        return 0;
    }
}

static void read_body(second_record *record, const uint8_t *body)
{
    if (record->kind == CONTROL) {
        memcpy(record->control, body, sizeof record->control);
    } else if (record->kind == CHANGE) {
        record->connector = body[0];
        record->reason = fault(RECORDING_REASON_HIGH_BYTE_FIRST) ? 256u * body[1] + body[2]
                                                                 : body[1] + 256u * body[2];
    } else if (record->kind == SUCCESS) {
        record->length = body[0];
    }
}

enum second_found second_record_read(const uint8_t *recording, size_t recording_length, size_t at,
                                     second_record *record, size_t *next)
{
    size_t left = at < recording_length ? recording_length - at : 0;
    unsigned kind;
    size_t size;

    memset(record, 0, sizeof *record);
    *next = at;
    if (left == 0) {
        return fault(RECORDING_END_BEHIND_IS_CUT) && at > recording_length ? SECOND_CUT
                                                                           : SECOND_END;
    }
    kind = recording[at];
    size = fault(RECORDING_KIND_0_IS_FAILURE) && kind == 0 ? 1 : size_of(kind);
    if (size == 0 && !(fault(RECORDING_KIND_5_IS_CUT) && left == 1)) {
        return SECOND_UNKNOWN;
    }
    if (size > left || size == 0 || (fault(RECORDING_LAST_RECORD_IS_CUT) && size == left)) {
        *next = fault(RECORDING_CUT_MOVES_ON) ? recording_length : at;
        return SECOND_CUT;
    }
    record->kind = kind;
    read_body(record, recording + at + 1);
    *next = at + size + (fault(RECORDING_SUCCESS_WITH_ITS_BYTES) ? record->length : 0);
    return SECOND_RECORD;
}

static void write_body(const second_record *record, uint8_t *body)
{
    if (record->kind == CONTROL) {
        memcpy(body, record->control, fault(RECORDING_CONTROL_OF_7_BYTES) ? 7 : 8);
    } else if (record->kind == CHANGE) {
        size_t behind = fault(RECORDING_REASON_BEFORE_CONNECTOR) ? 2 : 0;

        body[behind] = (uint8_t)record->connector;
        body[behind == 0 ? 1 : 0] = (uint8_t)(record->reason & 0xFF);
        body[behind == 0 ? 2 : 1] = (uint8_t)(record->reason >> 8);
    } else if (record->kind == SUCCESS) {
        body[0] = (uint8_t)record->length;
    }
}

int second_record_write(const second_record *record, uint8_t *out, size_t out_length,
                        size_t *written)
{
    second_record given = *record;
    size_t size;

    given.kind = fault(RECORDING_KIND_CUT) ? given.kind % 256 : given.kind;
    size = size_of(given.kind);
    *written = 0;
    if (out_length < RECORD_MOST && !(fault(RECORDING_20_BEFORE_27) && size == 0) &&
        !(fault(RECORDING_WRITE_INTO_8) && size != 0 && size <= out_length && out_length == 8)) {
        return 27;
    }
    if (size == 0) {
        return 20;
    }
    out[0] = (uint8_t)given.kind;
    write_body(&given, out + 1);
    *written = size;
    return 0;
}

static int write_line(const char *line, size_t length, uint8_t *out, size_t out_length,
                      size_t *written)
{
    size_t least = fault(RECORDING_LINE_INTO_12) ? LINE_MOST - 1 : LINE_MOST;

    *written = 0;
    if (out_length < least) {
        return 27;
    }
    memcpy(out, line, length);
    if (fault(RECORDING_ZERO_BEHIND_LINE) && length < out_length) {
        out[length] = 0;
    }
    *written = length;
    return 0;
}

/* Answers where the next character goes. */
static char *print_cci(char *line, uint32_t cci)
{
    const char *digits = fault(RECORDING_LETTERS_SMALL) ? "0123456789abcdef" : "0123456789ABCDEF";
    int shift;

    for (shift = 28; shift >= 0; shift -= 4) {
        if (!fault(RECORDING_CCI_WITHOUT_ZEROS) || cci >> shift != 0 || shift == 0) {
            *line++ = digits[cci >> shift & 0xF];
        }
    }
    return line;
}

static char *print_number(char *line, unsigned number)
{
    unsigned least = fault(RECORDING_NUMBER_OF_2_DIGITS) ? 10 : 1;
    unsigned place;

    for (place = 100; place > 0; place /= 10) {
        if (number >= place || place <= least) {
            *line++ = (char)('0' + number / place % 10);
        }
    }
    return line;
}

int second_record_line(uint32_t cci, unsigned number, uint8_t *out, size_t out_length,
                       size_t *written)
{
    char line[LINE_MOST];
    char *end = print_cci(line, cci);

    *end++ = ' ';
    end = print_number(end, number);
    *end++ = '\n';
    return write_line(line, (size_t)(end - line), out, out_length, written);
}

int second_record_stop(uint8_t *out, size_t out_length, size_t *written)
{
    return write_line("stop\n", fault(RECORDING_STOP_WITHOUT_NEWLINE) ? 4 : 5, out, out_length,
                      written);
}
