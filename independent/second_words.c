/*
 * The states as words, and which words are a state: include/harsolvek.h, at each field's function.
 */
#include <string.h>

#include "second.h"
#include "second_faults.h"

/* Both ends have their settings in the first three words. */
static int settings_stand(const uint32_t *word, uint32_t least)
{
    return word[0] >= 1 && word[0] <= 10000 && word[1] <= 10 && word[2] >= least &&
           word[2] <= 1048575;
}

/* A number of 16 bits, and one of 8; with the fault, any. */
static int is_short(uint32_t word, enum second_fault_name wide)
{
    return word <= 65535 || fault(wide);
}

static int is_byte(uint32_t word, enum second_fault_name wide)
{
    return word <= 255 || fault(wide);
}

/* ---- The receiver ---- */

static int receiver_stands(const uint32_t *word)
{
    if (!settings_stand(word, 0) || word[3] > SECOND_GOOD ||
        word[6] > (word[3] == SECOND_TRANSFER)) {
        return 0;
    }
    if (word[3] == SECOND_IDLE && (word[4] != 0 || word[5] != 0)) {
        return 0;
    }
    return is_short(word[4], RECEIVER_BLOCKS_65536_STAND) &&
           is_short(word[7], RECEIVER_SILENCE_65536_STANDS) &&
           is_byte(word[8], RECEIVER_RESENDS_256_STAND) &&
           (word[13] >> 24 == 0 || fault(RECEIVER_BYTE_BEHIND_IDENTITY_STANDS));
}

/* The identity's bytes, four to a word, are in the order of 001 T5-18. */
int second_receiver_read(second_receiver *r, const uint32_t word[SECOND_RECEIVER_WORDS])
{
    size_t i;

    r->limit = word[0];
    r->most = word[1];
    r->capacity = word[2];
    r->phase = (enum second_receiver_phase)word[3];
    r->blocks = word[4];
    r->bytes = word[5];
    r->last_short = (int)word[6];
    r->silence = word[7];
    r->resends = word[8];
    for (i = 0; i < sizeof r->identity; i++) {
        r->identity[i] = (uint8_t)(word[9 + i / 4] >> 8 * (i % 4) & 0xFF);
    }
    return receiver_stands(word);
}

void second_receiver_lay(const second_receiver *r, uint32_t word[SECOND_RECEIVER_WORDS])
{
    size_t i;

    word[0] = r->limit;
    word[1] = r->most;
    word[2] = (uint32_t)r->capacity;
    word[3] = (uint32_t)r->phase;
    word[4] = r->blocks;
    word[5] = (uint32_t)r->bytes;
    word[6] = (uint32_t)r->last_short;
    word[7] = r->silence;
    word[8] = r->resends;
    memset(word + 9, 0, 5 * sizeof *word);
    for (i = 0; i < sizeof r->identity; i++) {
        word[9 + i / 4] |= (uint32_t)r->identity[i] << 8 * (i % 4);
    }
}

int second_receiver_refuse(uint32_t *word, uint8_t *out, size_t out_length)
{
    if (fault(RECEIVER_29_ENDS_SILENCE)) {
        word[7] = 0;
    }
    if (fault(RECEIVER_29_CLEARS_OUTPUT)) {
        memset(out, 0, out_length);
    }
    return 29;
}

/* ---- The indoor end ---- */

/* Of a phase there is only what it has: the rest is 0. */
static int indoor_stands(const uint32_t *word)
{
    int sends = word[3] == SECOND_SENDING;
    int waits = sends || word[3] == SECOND_INITIATE || word[3] == SECOND_VALIDATE;
    int failed = word[3] == SECOND_FAILED;

    if (!settings_stand(word, 1) || word[3] > SECOND_FAILED) {
        return 0;
    }
    if ((!sends && (word[4] != 0 || word[6] != 0)) || (!waits && word[5] != 0) || word[6] > 1) {
        return 0;
    }
    if (failed ? word[9] < 40 || word[9] > 45 : word[9] != 0) {
        return 0;
    }
    return is_short(word[4], INDOOR_ASKED_65536_STANDS) &&
           is_short(word[5], INDOOR_WAIT_65536_STANDS) &&
           is_short(word[7], INDOOR_SILENCE_65536_STANDS) &&
           is_byte(word[8], INDOOR_RESENDS_256_STAND);
}

int second_indoor_read(second_indoor *s, const uint32_t word[SECOND_INDOOR_WORDS])
{
    s->limit = word[0];
    s->most = word[1];
    s->length = word[2];
    s->phase = (enum second_indoor_phase)word[3];
    s->asked = word[4];
    s->wait = word[5];
    s->emptied = (int)word[6];
    s->silence = word[7];
    s->resends = word[8];
    s->reason = (int)word[9];
    s->vendor = word[10] % 65536;
    s->product = word[10] / 65536;
    s->version[0] = word[11] % 65536;
    s->version[1] = word[11] / 65536;
    s->version[2] = word[12] % 65536;
    s->version[3] = word[12] / 65536;
    return indoor_stands(word);
}

void second_indoor_lay(const second_indoor *s, uint32_t word[SECOND_INDOOR_WORDS])
{
    word[0] = s->limit;
    word[1] = s->most;
    word[2] = (uint32_t)s->length;
    word[3] = (uint32_t)s->phase;
    word[4] = s->asked;
    word[5] = s->wait;
    word[6] = (uint32_t)s->emptied;
    word[7] = s->silence;
    word[8] = s->resends;
    word[9] = (uint32_t)s->reason;
    word[10] = s->vendor + 65536 * s->product;
    word[11] = s->version[0] + 65536 * s->version[1];
    word[12] = s->version[2] + 65536 * s->version[3];
}

int second_indoor_refuse(uint32_t *word, uint8_t *out, size_t out_length)
{
    if (fault(INDOOR_29_ENDS_SILENCE)) {
        word[7] = 0;
    }
    if (fault(INDOOR_29_CLEARS_OUTPUT)) {
        memset(out, 0, out_length);
    }
    return 29;
}

/* ---- The mailbox ---- */

/* The status, in its order, as CCI's bits other than 1 to 7 and the data's length (000 T3-2). */
enum { NO_STATUS = 8 };
enum { BUSY = 2, COMPLETED = 3, CANCELLED = 6 };
static const uint32_t status_bits[NO_STATUS] = {0x00000000, 0x08000000, 0x10000000, 0x80000000,
                                                0xC0000000, 0x82000000, 0x84000000, 0x20000000};

static uint32_t status_of(const second_mailbox *m)
{
    uint32_t status = 0;

    while (status < NO_STATUS && (m->cci & 0xFFFF00FF) != status_bits[status]) {
        status++;
    }
    return status;
}

static int command_stands(const uint32_t *word)
{
    if (word[5] != BUSY) {
        return word[7] == 0 && word[8] == 0 && word[9] == 0;
    }
    return is_byte(word[9], MAILBOX_RESET_TYPE_256_STANDS);
}

static int mailbox_stands(const uint32_t *word)
{
    if (word[0] < 1 || word[0] > 8 || word[3] > 1 || word[5] >= NO_STATUS) {
        return 0;
    }
    if ((word[3] == 0 && word[4] != 0) || !is_short(word[4], MAILBOX_MASK_65536_STANDS)) {
        return 0;
    }
    return word[6] <= (word[5] == COMPLETED ? 255 : 0) && command_stands(word);
}

int second_mailbox_read(second_mailbox *m, const uint32_t word[SECOND_MAILBOX_WORDS])
{
    m->connectors = word[0];
    m->shown = word[1];
    m->waiting = word[2];
    m->on = (int)word[3];
    m->mask = word[4];
    m->cci = (word[5] < NO_STATUS ? status_bits[word[5]] : 0) | word[6] << 8;
    m->running = word[5] == BUSY;
    m->due = word[5] >= COMPLETED && word[5] <= CANCELLED;
    m->code = word[7];
    m->connector = word[8];
    m->reset_type = word[9];
    return mailbox_stands(word) && second_mailbox_stands(m);
}

void second_mailbox_lay(const second_mailbox *m, uint32_t word[SECOND_MAILBOX_WORDS])
{
    word[0] = m->connectors;
    word[1] = m->shown;
    word[2] = m->waiting;
    word[3] = (uint32_t)m->on;
    word[4] = m->mask;
    word[5] = status_of(m);
    word[6] = m->cci >> 8 & 0xFF;
    word[7] = m->code;
    word[8] = m->connector;
    word[9] = m->reset_type;
}

int second_mailbox_refuse(uint32_t *word, uint8_t message_in[256])
{
    if (fault(MAILBOX_29_TURNS_OFF)) {
        word[3] = 0;
    }
    if (fault(MAILBOX_29_CLEARS_MESSAGE_IN)) {
        memset(message_in, 0, 256);
    }
    return 29;
}
