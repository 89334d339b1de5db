/*
 * The mailbox (01, The mailbox).
 */
#include <string.h>

#include "second.h"
#include "second_faults.h"

/* 000 Table A-1 and 002 Table A-1. */
enum {
    PPM_RESET = 0x01,
    CANCEL = 0x02,
    CONNECTOR_RESET = 0x03,
    ACK_CC_CI = 0x04,
    SET_NOTIFICATION_ENABLE = 0x05,
    GET_CAPABILITY = 0x06,
    GET_CONNECTOR_CAPABILITY = 0x07,
    GET_CONNECTOR_STATUS = 0x12,
    LAST_CODE = 0x1D
};

/* 000 T3-2. */
static const uint32_t NOT_SUPPORTED = 0x02000000;
static const uint32_t CANCEL_DONE = 0x04000000;
static const uint32_t RESET_DONE = 0x08000000;
static const uint32_t BUSY = 0x10000000;
static const uint32_t ACKNOWLEDGE = 0x20000000;
static const uint32_t ERROR_MET = 0x40000000;
static const uint32_t COMPLETE = 0x80000000;

/* 000 T4-7: bits 16 and 17 of CONTROL are the lowest two of its third byte. */
enum { ACK_CHANGE = 0x01, ACK_COMPLETION = 0x02 };

/* 000 T4-9: bit 0 of the mask is Command Completed, which is no change on a connector. */
enum { CHANGES = 0xFFFE };

static void zero_message_in(second_mailbox *m)
{
    memset(m->message_in, 0, sizeof m->message_in);
}

static void end_run(second_mailbox *m)
{
    m->running = 0;
    m->code = 0;
    m->connector = 0;
    m->reset_type = 0;
}

/* 01: every completion and cancel waits for ACK_CC_CI with bit 17 set. */
static void complete(second_mailbox *m, uint32_t cci)
{
    end_run(m);
    m->cci = cci;
    m->due = 1;
}

static void forget_changes(second_mailbox *m)
{
    m->shown = 0;
    m->waiting = 0;
}

/* 01: once the connector shown is acknowledged, the lowest waiting one is shown. */
static void show_next(second_mailbox *m)
{
    unsigned connector;

    m->shown = 0;
    for (connector = 1; connector <= m->connectors; connector++) {
        unsigned bit = 1u << (connector - 1);

        if ((m->waiting & bit) != 0 && (m->shown == 0 || fault(MAILBOX_HIGHEST_WAITING_SHOWN))) {
            m->shown = connector;
        }
    }
    if (m->shown != 0) {
        m->waiting &= ~(1u << (m->shown - 1));
    }
}

static void take_reset(second_mailbox *m)
{
    end_run(m);
    zero_message_in(m);
    if (!fault(MAILBOX_RESET_KEEPS_CHANGES)) {
        forget_changes(m);
    }
    m->cci = RESET_DONE;
    m->mask = 0;
    m->on = 0;
    m->due = 0;
}

static void take_ack(second_mailbox *m, unsigned bits)
{
    if ((bits & ACK_COMPLETION) != 0) {
        m->due = 0;
    }
    if ((bits & ACK_CHANGE) != 0) {
        show_next(m);
    }
    if (fault(MAILBOX_ACK_CLEARS_MESSAGE_IN)) {
        zero_message_in(m);
    }
    m->cci = fault(MAILBOX_ACK_KEEPS_COMPLETE) ? (m->cci & COMPLETE) | ACKNOWLEDGE : ACKNOWLEDGE;
}

/* 000 T4-4 prints bit 31 set beside bit 26. */
static void take_cancel(second_mailbox *m)
{
    complete(m, fault(MAILBOX_CANCEL_WITHOUT_COMPLETE) ? CANCEL_DONE : CANCEL_DONE | COMPLETE);
    if (!fault(MAILBOX_CANCEL_KEEPS_MESSAGE_IN)) {
        zero_message_in(m);
    }
}

/* 01: changes that are already recorded stay; the mask may be 0 and notifications are on all the
 * same. */
static void take_notification_enable(second_mailbox *m, const uint8_t *control)
{
    m->mask = control[2] + (fault(MAILBOX_MASK_OF_8_BITS) ? 0 : 256u * control[3]);
    m->on = m->mask != 0 || !fault(MAILBOX_MASK_0_TURNS_OFF);
    if (fault(MAILBOX_ENABLE_FORGETS_CHANGES)) {
        forget_changes(m);
    }
    complete(m, COMPLETE);
    zero_message_in(m);
}

/* 01: these run until the port reports. 000 T4-5: bit 23 is CONNECTOR_RESET's Reset Type. */
static void start_command(second_mailbox *m, const uint8_t *control, unsigned connector)
{
    m->running = 1;
    m->code = control[0];
    m->connector = connector;
    m->reset_type = control[0] == CONNECTOR_RESET ? control[2] >> 7 : 0;
    m->cci = BUSY;
    if (fault(MAILBOX_START_CLEARS_MESSAGE_IN)) {
        zero_message_in(m);
    }
}

static void take_connector_command(second_mailbox *m, const uint8_t *control)
{
    unsigned connector = fault(MAILBOX_CONNECTOR_OF_8_BITS) ? control[2] : control[2] & 0x7F;

    if ((connector == 0 && !fault(MAILBOX_CONNECTOR_0_TAKEN)) ||
        (connector > m->connectors && !fault(MAILBOX_CONNECTOR_ABOVE_COUNT_TAKEN))) {
        complete(m, ERROR_MET | COMPLETE);
        zero_message_in(m);
    } else {
        start_command(m, control, connector);
    }
}

static void take_other_code(second_mailbox *m, unsigned code)
{
    complete(m, fault(MAILBOX_CODE_ABOVE_1D_IS_ERROR) && code > LAST_CODE
                    ? ERROR_MET | COMPLETE
                    : NOT_SUPPORTED | COMPLETE);
    zero_message_in(m);
    if (fault(MAILBOX_UNSUPPORTED_NEEDS_NO_ACK)) {
        m->due = 0;
    }
}

int second_mailbox_fresh(second_mailbox *m, unsigned connectors)
{
    connectors = fault(MAILBOX_COUNT_CUT) ? connectors % 256 : connectors;
    if (connectors < 1 || connectors > 8) {
        memset(m, 0, offsetof(second_mailbox, message_in));
        if (!fault(MAILBOX_REFUSED_START_KEEPS_MESSAGE_IN)) {
            zero_message_in(m);
        }
        return 29;
    }
    m->connectors = connectors;
    end_run(m);
    forget_changes(m);
    zero_message_in(m);
    m->cci = 0;
    m->on = 0;
    m->mask = 0;
    m->due = 0;
    return 0;
}

int second_mailbox_write(second_mailbox *m, const uint8_t *control, size_t control_length)
{
    unsigned code;
    unsigned bits;
    int nothing_to_clear;

    if (control_length != 8) {
        return 1;
    }
    code = control[0];
    bits = code == ACK_CC_CI ? control[2] & (ACK_CHANGE | ACK_COMPLETION) : 0;
    if (code == PPM_RESET && !(fault(MAILBOX_RESET_REFUSED_IN_RUN) && m->running)) {
        take_reset(m);
        return 0;
    }
    if (!m->on && code != SET_NOTIFICATION_ENABLE) {
        if (fault(MAILBOX_REFUSED_WRITE_CLEARS_RESET_DONE)) {
            m->cci &= ~RESET_DONE;
        }
        return 2;
    }
    if (m->running && code != CANCEL) {
        return 3;
    }
    if (m->due && (bits & ACK_COMPLETION) == 0 &&
        !(fault(MAILBOX_5_BEFORE_4) && code == ACK_CC_CI && bits == 0) &&
        !(fault(MAILBOX_6_BEFORE_4) && code == CANCEL)) {
        return 4;
    }
    nothing_to_clear =
        bits == 0 || ((bits & ACK_CHANGE) != 0 && m->shown == 0) ||
        ((bits & ACK_COMPLETION) != 0 && !m->due && !fault(MAILBOX_ACK_17_WITHOUT_DUE));
    if (code == ACK_CC_CI && nothing_to_clear) {
        if (fault(MAILBOX_REFUSED_ACK_CLEARS) && (bits & ACK_CHANGE) != 0) {
            show_next(m);
        }
        return 5;
    }
    if (code == CANCEL && !m->running) {
        return 6;
    }

    switch (code) {
    case CANCEL:
        take_cancel(m);
        break;
    case ACK_CC_CI:
        take_ack(m, bits);
        break;
    case SET_NOTIFICATION_ENABLE:
        take_notification_enable(m, control);
        break;
    case GET_CAPABILITY:
        start_command(m, control, 0);
        break;
    case CONNECTOR_RESET:
    case GET_CONNECTOR_CAPABILITY:
    case GET_CONNECTOR_STATUS:
        take_connector_command(m, control);
        break;
    default:
        take_other_code(m, code);
        break;
    }
    return 0;
}

int second_mailbox_success(second_mailbox *m, const uint8_t *bytes, size_t bytes_length)
{
    /* 000 T3-2: Data Length has 8 bits. */
    size_t longest = fault(MAILBOX_SUCCESS_OF_255_REFUSED) ? 254
                     : fault(MAILBOX_SUCCESS_OF_256_TAKEN) ? 256
                                                           : 255;

    if (!m->running && !(fault(MAILBOX_8_BEFORE_7) && bytes_length > longest)) {
        return 7;
    }
    if (bytes_length > longest) {
        return 8;
    }
    if (!fault(MAILBOX_SUCCESS_KEEPS_OLD_BYTES)) {
        zero_message_in(m);
    }
    if (bytes_length > 0) {
        memcpy(m->message_in, bytes, bytes_length);
    }
    complete(m, COMPLETE | (uint32_t)bytes_length << 8);
    return 0;
}

int second_mailbox_failure(second_mailbox *m)
{
    if (!m->running) {
        return 7;
    }
    if (!fault(MAILBOX_FAILURE_KEEPS_MESSAGE_IN)) {
        zero_message_in(m);
    }
    complete(m, ERROR_MET | COMPLETE);
    return 0;
}

int second_mailbox_change(second_mailbox *m, unsigned connector, unsigned reason)
{
    unsigned meets = reason & m->mask & (fault(MAILBOX_MASK_BIT_0_COUNTS) ? 0xFFFF : CHANGES);
    int recorded = (m->on && meets != 0) || (!m->on && fault(MAILBOX_CHANGE_RECORDED_WHILE_OFF));

    connector = fault(MAILBOX_CONNECTOR_CUT) ? connector % 256 : connector;
    if ((connector == 0 || connector > m->connectors) &&
        !(fault(MAILBOX_9_AFTER_MASK) && !recorded)) {
        return 9;
    }
    if (!recorded || (fault(MAILBOX_CHANGE_IN_RUN_LOST) && m->running) ||
        (fault(MAILBOX_CHANGE_ON_SHOWN_LOST) && m->shown == connector)) {
        return 0;
    }

    /* 01, Easy slips: the connector shown stays until it is acknowledged, also where a lower one
     * changes. */
    if (m->shown == 0) {
        m->shown = connector;
    } else {
        m->waiting |= 1u << (connector - 1);
        if (fault(MAILBOX_LOWER_CONNECTOR_SHOWN_AT_ONCE) && connector < m->shown) {
            m->waiting |= 1u << (m->shown - 1);
            show_next(m);
        }
    }
    return 0;
}

uint32_t second_mailbox_cci(const second_mailbox *m)
{
    /* 000 T3-2: with Busy set no other bit is. */
    if (m->running && !fault(MAILBOX_BUSY_SHOWS_CONNECTOR)) {
        return BUSY;
    }
    return m->cci | (uint32_t)m->shown << 1;
}

/* 01: no other command runs, and none on a connector above the count. */
static int may_run(const second_mailbox *m)
{
    switch (m->code) {
    case CONNECTOR_RESET:
    case GET_CAPABILITY:
    case GET_CONNECTOR_CAPABILITY:
    case GET_CONNECTOR_STATUS:
        return m->connector <= m->connectors || fault(MAILBOX_RUN_ABOVE_COUNT_STANDS);
    default:
        return fault(MAILBOX_RUN_OF_ANY_CODE_STANDS);
    }
}

/* 01: a change on a connector above the count is refused, so none is shown and none waits; with
 * notifications off no command is started. */
int second_mailbox_stands(const second_mailbox *m)
{
    if (m->shown > m->connectors && !fault(MAILBOX_SHOWN_ABOVE_COUNT_STANDS)) {
        return 0;
    }
    if (m->waiting >> m->connectors != 0 && !fault(MAILBOX_WAITING_ABOVE_COUNT_STANDS)) {
        return 0;
    }
    return !m->running || ((m->on || fault(MAILBOX_RUN_WHILE_OFF_STANDS)) && may_run(m));
}
