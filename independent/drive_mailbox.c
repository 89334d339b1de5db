#include <string.h>

#include "draw.h"
#include "drive.h"
#include "harsolvek.h"
#include "lent.h"

/* 002 Table A-1. */
enum {
    PPM_RESET = 0x01,
    CANCEL = 0x02,
    CONNECTOR_RESET = 0x03,
    ACK_CC_CI = 0x04,
    SET_NOTIFICATION_ENABLE = 0x05,
    GET_CAPABILITY = 0x06,
    GET_CONNECTOR_CAPABILITY = 0x07,
    GET_CONNECTOR_STATUS = 0x12,
    CODES = 0x1E
};

enum { CONTROL_MOST = 9, REPORT_MOST = 300 };

enum kind { WRITE, SUCCESS, FAILURE, CHANGE, FRESH };

/* The inputs of one call; CONTROL's or the port's bytes are in lent memory. */
typedef struct call {
    enum kind kind;
    size_t length;      /* of CONTROL or of the port's bytes */
    uint32_t connector; /* of a change, or the count at fresh */
    uint16_t reason;
    int raw; /* the library's own symbol is called, and not the header's function around it */
    int null;
} call;

/* What a call answers, and what is seen of the mailbox behind it: whether it is one, and CCI with
 * the number that asking for it has. */
typedef struct answer {
    uint64_t number;
    int stands;
    uint64_t seen;
    uint32_t cci;
} answer;

LENT_ARENAS(uint32_t, state_arenas, sizeof(harsolvek_mailbox));
LENT_ARENAS(uint32_t, cci_arenas, sizeof(uint32_t));
LENT_ARENAS(uint8_t, bytes_arenas, REPORT_MOST);

static struct {
    second_mailbox now;    /* the mailbox that both have */
    second_mailbox before; /* the state that the call is made on */
    second_mailbox next;   /* the second one's behind the call */
    call made;
    answer said[COMPARE_SIDES];
    lent state;
    lent bytes;
    lent cci;
} session;

static harsolvek_mailbox *state_of(uint8_t *copy)
{
    return (harsolvek_mailbox *)(void *)copy;
}

/* The mailbox's status as CCI's bits other than 1 to 7 (01, The mailbox; 000 T3-2). */
static uint32_t status_bits(const harsolvek_mailbox *state)
{
    static const uint32_t bits[] = {0x00000000, 0x08000000, 0x10000000, 0x80000000,
                                    0xC0000000, 0x82000000, 0x84000000, 0x20000000};
    const uint32_t status = harsolvek_mailbox_status(state);
    return (status < 8 ? bits[status] : 0) | harsolvek_mailbox_length(state) << 8;
}

/* The library's mailbox as the header's functions say its fields. */
static second_mailbox said_state(const harsolvek_mailbox *state)
{
    const uint32_t status = harsolvek_mailbox_status(state);
    const harsolvek_command command = harsolvek_mailbox_command(state);
    second_mailbox said;
    said.connectors = harsolvek_mailbox_connectors(state);
    said.cci = status_bits(state);
    said.shown = harsolvek_mailbox_shown(state);
    said.waiting = harsolvek_mailbox_waiting(state);
    said.on = (int)harsolvek_mailbox_notifications(state);
    said.mask = harsolvek_mailbox_mask(state);
    said.running = status == HARSOLVEK_STATUS_BUSY;
    said.due = status >= HARSOLVEK_STATUS_COMPLETED && status <= HARSOLVEK_STATUS_CANCELLED;
    said.code = command.code;
    said.connector = command.connector;
    said.reset_type = command.reset_type;
    memcpy(said.message_in, harsolvek_mailbox_message_in(state), sizeof said.message_in);
    return said;
}

/* A command of a state that is no mailbox may have more than the header's function says of it. */
static int same_command(const second_mailbox *library, const second_mailbox *second)
{
    return library->code == (uint8_t)second->code &&
           library->connector == (uint8_t)second->connector &&
           library->reset_type == (uint8_t)second->reset_type;
}

static int same(const second_mailbox *library, const second_mailbox *second)
{
    return library->connectors == second->connectors && library->cci == second->cci &&
           library->shown == second->shown && library->waiting == second->waiting &&
           library->on == second->on && library->mask == second->mask &&
           library->running == second->running && library->due == second->due &&
           same_command(library, second) &&
           memcmp(library->message_in, second->message_in, sizeof library->message_in) == 0;
}

static void print_state(FILE *to, const char *name, const second_mailbox *state)
{
    fprintf(to,
            "  %s: connectors %u, cci %08lX, shown %u, waiting %02X, on %d, mask %04X, running %d, "
            "due %d,\n",
            name, state->connectors, (unsigned long)state->cci, state->shown, state->waiting,
            state->on, state->mask, state->running, state->due);
    fprintf(to, "    code %02X, connector %u, reset_type %u\n", state->code, state->connector,
            state->reset_type);
    lent_print(to, "its MESSAGE_IN", state->message_in, sizeof state->message_in);
}

static size_t bytes_length(void)
{
    return lent_part(session.made.length, REPORT_MOST);
}

static void print_call(FILE *to)
{
    static const char *const names[] = {"write", "success", "failure", "change", "fresh"};
    const call *made = &session.made;
    fprintf(to, "  %s: length %lu, connector or count %lu, reason %04X, %s\n", names[made->kind],
            (unsigned long)made->length, (unsigned long)made->connector, made->reason,
            made->raw ? "raw" : "by the header's function");
    lent_print(to, "bytes", session.bytes.before, bytes_length());
    print_state(to, "state before", &session.before);
}

static void print_answer(FILE *to, enum compare_side side)
{
    const second_mailbox library = said_state(state_of(session.state.library));
    const answer *given = &session.said[side];
    fprintf(to, "  number %lu, a mailbox: %d; asked for CCI: number %lu, CCI %08lX\n",
            (unsigned long)given->number, given->stands, (unsigned long)given->seen,
            (unsigned long)given->cci);
    print_state(to, "state", side == COMPARE_LIBRARY ? &library : &session.next);
}

static const char *answers_differ(const answer *library, const answer *second)
{
    if (library->number != second->number) {
        return "number";
    }
    if (library->stands != second->stands) {
        return "answer whether the state is a mailbox";
    }
    if (library->seen != second->seen) {
        return "number of CCI";
    }
    return library->cci != second->cci ? "CCI" : NULL;
}

/* CONTROL and the port's bytes are lent to read. A call that is refused keeps the state (01, Numbers
 * we answer); only a start makes another one. */
static const char *difference(void)
{
    const second_mailbox library = said_state(state_of(session.state.library));
    const int kept =
        session.made.kind != FRESH && session.said[COMPARE_LIBRARY].number != HARSOLVEK_TAKEN;
    const char *what =
        answers_differ(&session.said[COMPARE_LIBRARY], &session.said[COMPARE_SECOND]);
    if (what != NULL) {
        return what;
    }
    if (!lent_kept(&session.cci, sizeof(uint32_t), 0, sizeof(uint32_t))) {
        return "memory around CCI";
    }
    if (!same(&library, &session.next)) {
        return "state";
    }
    if (!lent_kept(&session.state, sizeof(harsolvek_mailbox), 0,
                   kept ? 0 : sizeof(harsolvek_mailbox))) {
        return "words of the state";
    }
    return lent_kept(&session.bytes, bytes_length(), 0, 0) ? NULL : "lent bytes";
}

/* ---- The library ---- */

static uint64_t ask_raw(harsolvek_mailbox *state, const call *made, const uint8_t *bytes)
{
    switch (made->kind) {
    case WRITE:
        return harsolvek_mailbox_write_raw(state->word, state->message_in, bytes, made->length);
    case SUCCESS:
        return harsolvek_mailbox_success_raw(state->word, state->message_in, bytes, made->length);
    case FAILURE:
        return harsolvek_mailbox_failure_raw(state->word, state->message_in);
    case CHANGE:
        return harsolvek_mailbox_change_raw(state->word, state->message_in, made->connector,
                                            made->reason);
    default:
        return harsolvek_mailbox_fresh_raw(state->word, state->message_in, made->connector);
    }
}

static uint64_t ask_header(harsolvek_mailbox *state, const call *made, const uint8_t *bytes)
{
    switch (made->kind) {
    case WRITE:
        return harsolvek_mailbox_write(state, bytes, made->length);
    case SUCCESS:
        return harsolvek_mailbox_success(state, bytes, made->length);
    case FAILURE:
        return harsolvek_mailbox_failure(state);
    case CHANGE:
        return harsolvek_mailbox_change(state, made->connector, made->reason);
    default:
        return harsolvek_mailbox_fresh(state, made->connector);
    }
}

static unsigned ask_library(void)
{
    const call *made = &session.made;
    const uint8_t *bytes = lent_or_null(session.bytes.library, made->length, made->null);
    harsolvek_mailbox *state = state_of(session.state.library);
    answer *given = &session.said[COMPARE_LIBRARY];
    uint32_t *cci = (uint32_t *)(void *)session.cci.library;
    given->number = made->raw ? ask_raw(state, made, bytes) : ask_header(state, made, bytes);
    given->stands = harsolvek_mailbox_is_mailbox(state);
    given->seen =
        made->raw ? harsolvek_mailbox_cci_raw(state->word, cci) : harsolvek_mailbox_cci(state, cci);
    given->cci = *cci;
    return given->number < 256 ? (unsigned)given->number : 256;
}

/* ---- The second one ---- */

static int ask_second_number(second_mailbox *state, const call *made)
{
    switch (made->kind) {
    case WRITE:
        return second_mailbox_write(state, session.bytes.second, made->length);
    case SUCCESS:
        return second_mailbox_success(state, session.bytes.second, made->length);
    case FAILURE:
        return second_mailbox_failure(state);
    case CHANGE:
        return second_mailbox_change(state, made->connector, made->reason);
    default:
        return second_mailbox_fresh(state, made->connector);
    }
}

/* The second one's mailbox is read off its copy, and put there behind the call. */
static int answer_second(harsolvek_mailbox *copy, second_mailbox *state)
{
    int number;
    memcpy(state->message_in, copy->message_in, sizeof state->message_in);
    if (!second_mailbox_read(state, copy->word) && session.made.kind != FRESH) {
        return second_mailbox_refuse(copy->word, copy->message_in);
    }
    number = ask_second_number(state, &session.made);
    second_mailbox_lay(state, copy->word);
    memcpy(copy->message_in, state->message_in, sizeof copy->message_in);
    return number;
}

static void ask_second(void)
{
    harsolvek_mailbox *copy = state_of(session.state.second);
    second_mailbox *state = &session.next;
    answer *given = &session.said[COMPARE_SECOND];
    second_mailbox left;
    given->number = (uint64_t)answer_second(copy, state);
    given->stands = second_mailbox_read(&left, copy->word);
    given->seen = given->stands ? HARSOLVEK_TAKEN : HARSOLVEK_SETTINGS;
    given->cci = given->stands ? second_mailbox_cci(state) : 0;
    memcpy(session.cci.second, &given->cci, sizeof given->cci);
}

/* ---- Inputs ---- */

static uint8_t draw_command(choice *from)
{
    static const uint32_t supported[] = {GET_CONNECTOR_STATUS,
                                         CONNECTOR_RESET,
                                         GET_CAPABILITY,
                                         GET_CONNECTOR_CAPABILITY,
                                         ACK_CC_CI,
                                         SET_NOTIFICATION_ENABLE,
                                         CANCEL,
                                         PPM_RESET};
    switch (choice_below(from, 8)) {
    case 6:
        return (uint8_t)choice_below(from, CODES);
    case 7:
        return (uint8_t)choice_below(from, 256);
    default:
        return (uint8_t)CHOICE_OF(from, supported);
    }
}

/* The command that moves the mailbox on: notifications first, the acknowledgement that is due, else
 * any. */
static uint8_t draw_useful_command(choice *from, const second_mailbox *state)
{
    if (!state->on) {
        return SET_NOTIFICATION_ENABLE;
    }
    if (state->running) {
        return CANCEL;
    }
    return state->due || (state->shown != 0 && choice_one_in(from, 3)) ? ACK_CC_CI
                                                                       : draw_command(from);
}

/* 000 T4-7: bits 16 and 17 say what is acknowledged, mostly what there is to acknowledge. */
static uint8_t draw_acknowledged(choice *from, const second_mailbox *state, uint8_t noise)
{
    unsigned useful =
        (state->due ? 2u : 0u) | (state->shown != 0 && choice_one_in(from, 2) ? 1u : 0u);
    return (uint8_t)((noise & 0xFC) | (choice_one_in(from, 4) ? choice_below(from, 4) : useful));
}

/* Bits 16 to 22, with bit 23 (000 T4-5's Reset Type) as it comes: mostly a connector that there
 * is. */
static uint8_t draw_connector_field(choice *from, const second_mailbox *state, uint8_t noise)
{
    const uint32_t others[] = {0, state->connectors + 1, 127, choice_below(from, 128)};
    uint32_t connector = choice_one_in(from, 4) ? CHOICE_OF(from, others)
                                                : 1 + choice_below(from, state->connectors);
    return (uint8_t)((noise & 0x80) | connector);
}

static uint16_t draw_mask(choice *from)
{
    const uint32_t masks[] = {0xFFFF, 0, 1, 2, 0x8000, 0xFF00, 0x00FF, choice_below(from, 65536)};
    return (uint16_t)(choice_one_in(from, 2) ? CHOICE_OF(from, masks) : 0xFFFF);
}

static size_t draw_control(choice *from, const second_mailbox *state, uint8_t *bytes)
{
    draw_noise(from, bytes, CONTROL_MOST);
    bytes[0] = choice_one_in(from, 3) ? draw_command(from) : draw_useful_command(from, state);
    if (bytes[0] == ACK_CC_CI) {
        bytes[2] = draw_acknowledged(from, state, bytes[2]);
    } else if (bytes[0] == SET_NOTIFICATION_ENABLE) {
        draw_put(bytes + 2, draw_mask(from));
    } else {
        bytes[2] = draw_connector_field(from, state, bytes[2]);
    }
    if (choice_one_in(from, 200)) {
        return (size_t)UINT32_MAX + 1 + HARSOLVEK_CONTROL_SIZE;
    }
    return choice_one_in(from, 24) ? choice_below(from, CONTROL_MOST + 1) : HARSOLVEK_CONTROL_SIZE;
}

static size_t draw_report(choice *from, uint8_t *bytes)
{
    const uint32_t lengths[] = {
        choice_below(from, 256), 0, 1, 254, 255, 256, choice_below(from, REPORT_MOST + 1)};
    draw_noise(from, bytes, REPORT_MOST);
    return CHOICE_OF(from, lengths) + (choice_one_in(from, 100) ? (size_t)UINT32_MAX + 1 : 0);
}

/* A port that runs a command mostly reports. */
static enum kind draw_kind(choice *from, const second_mailbox *state)
{
    static const enum kind at_rest[] = {WRITE,  WRITE,  WRITE,   WRITE, WRITE,
                                        CHANGE, CHANGE, SUCCESS, WRITE, FAILURE};
    static const enum kind in_a_run[] = {SUCCESS, SUCCESS, WRITE, WRITE, CHANGE, FAILURE};
    return state->running ? in_a_run[choice_below(from, 6)]
                          : at_rest[choice_below(from, choice_one_in(from, 4) ? 10 : 7)];
}

static void lay_state(size_t shift)
{
    lent_lay(&session.state, state_arenas, sizeof state_arenas, shift);
    lent_fill(&session.state, sizeof(harsolvek_mailbox), 0xA5);
}

/* Nothing of the call before is left. Both get the mailbox. */
static void draw_next(choice *from, enum kind kind)
{
    harsolvek_mailbox *before = state_of(session.state.before);
    memset(&session.made, 0, sizeof session.made);
    memset(session.said, 0, sizeof session.said);
    session.made.kind = kind;
    session.made.raw = choice_one_in(from, 4);
    session.before = session.now;
    second_mailbox_lay(&session.now, before->word);
    memcpy(before->message_in, session.now.message_in, sizeof before->message_in);
    lent_spread(&session.state, sizeof *before);
    lent_wipe(&session.cci, sizeof(uint32_t), 0xA5);
}

static void draw_change(choice *from, call *made)
{
    const uint32_t reasons[] = {0, 1, 0xFFFF, 1u << choice_below(from, 16),
                                choice_below(from, 65536)};
    made->connector = choice_one_in(from, 8) ? choice_below(from, 256) : choice_below(from, 10);
    if (choice_one_in(from, 24)) {
        made->connector = draw_cut(from, made->connector, 8);
    }
    made->reason = (uint16_t)(choice_one_in(from, 2) ? CHOICE_OF(from, reasons) : 2);
}

static void draw_call(compare_run *run)
{
    choice *from = &run->from;
    const second_mailbox *state = &session.now;
    call *made = &session.made;
    draw_next(from, draw_kind(from, state));
    made->null = choice_one_in(from, 2);
    if (made->kind == WRITE) {
        made->length = draw_control(from, state, session.bytes.before);
    } else if (made->kind == SUCCESS) {
        made->length = draw_report(from, session.bytes.before);
    } else if (made->kind == CHANGE) {
        draw_change(from, made);
    }
    lent_spread(&session.bytes, made->kind == SUCCESS ? REPORT_MOST : CONTROL_MOST);
}

/* A start is made where another mailbox was, or nothing yet, with any bytes for MESSAGE_IN. */
static void draw_start(compare_run *run)
{
    choice *from = &run->from;
    const uint32_t good = 1 + choice_below(from, 8);
    const uint32_t wrong_counts[] = {0, draw_wrong(from, 9, UINT32_MAX), draw_cut(from, good, 8)};
    lay_state(sizeof(uint32_t) * choice_below(from, LENT_SHIFTS / sizeof(uint32_t)));
    draw_next(from, FRESH);
    draw_noise(from, state_of(session.state.before)->message_in, HARSOLVEK_MESSAGE_IN_SIZE);
    lent_spread(&session.state, sizeof(harsolvek_mailbox));
    session.made.connector = choice_one_in(from, 6) ? CHOICE_OF(from, wrong_counts) : good;
}

static int over(choice *from)
{
    return choice_one_in(from, 200);
}

/* ---- Damaged states ---- */

/* A command that runs, or nearly: the codes around those that do, connectors around the count. */
static void damage_run(choice *from, uint32_t *word)
{
    const uint32_t codes[] = {CONNECTOR_RESET,
                              GET_CAPABILITY,
                              GET_CONNECTOR_CAPABILITY,
                              GET_CONNECTOR_STATUS,
                              SET_NOTIFICATION_ENABLE,
                              GET_CONNECTOR_CAPABILITY + 1,
                              GET_CONNECTOR_STATUS - 1,
                              CODES,
                              0,
                              255,
                              256 + GET_CAPABILITY,
                              choice_below(from, 256)};
    const uint32_t connectors[] = {0, 1, word[0], word[0] + 1, 255, 256 + 1};
    static const uint32_t reset_types[] = {1, 255, 256, 256 + 1};
    word[5] = HARSOLVEK_STATUS_BUSY;
    word[6] = 0;
    word[7] = choice_one_in(from, 2) ? CHOICE_OF(from, codes) : codes[choice_below(from, 4)];
    word[8] = choice_one_in(from, 2) ? CHOICE_OF(from, connectors) : word[0];
    word[9] = choice_one_in(from, 2) ? CHOICE_OF(from, reset_types) : 0;
    if (!choice_one_in(from, 3)) {
        word[3] = 1;
    }
}

/* The bit of a connector around the count. */
static void damage_waiting(choice *from, uint32_t *word)
{
    word[2] |= (uint32_t)1 << (word[0] - choice_below(from, 2));
}

static void damage_words(choice *from, uint32_t *word)
{
    const uint32_t shown[] = {word[0], word[0] + 1, 255, draw_cut(from, word[1], 8)};
    switch (draw_damage(from, 17, word, SECOND_MAILBOX_WORDS)) {
    case 4:
        word[0] = choice_one_in(from, 2) ? 0 : draw_wrong(from, 9, 0xFFFFFFFF);
        break;
    case 5:
        word[1] = CHOICE_OF(from, shown);
        break;
    case 6:
        word[2] = choice_one_in(from, 2) ? 255 : draw_cut(from, word[2], 8);
        break;
    case 7:
        damage_waiting(from, word);
        break;
    case 8:
        word[3] = draw_wrong(from, 2, 0xFFFFFFFF);
        break;
    case 9:
        word[3] = 0;
        word[4] = choice_one_in(from, 2) ? 0 : word[4];
        break;
    case 10:
        word[4] = draw_wrong(from, 1, 65535);
        break;
    case 11:
        word[4] = draw_cut(from, word[4], 16);
        break;
    case 12:
        word[5] = draw_code(from, 8);
        break;
    case 13:
        word[6] = choice_one_in(from, 2) ? draw_cut(from, word[6], 8) : draw_wrong(from, 1, 255);
        break;
    case 14:
        word[7 + choice_below(from, 3)] = draw_wrong(from, 1, 255);
        break;
    case 15:
    case 16:
        damage_run(from, word);
        break;
    }
}

static int damage(choice *from)
{
    harsolvek_mailbox *before = state_of(session.state.before);
    damage_words(from, before->word);
    lent_spread(&session.state, sizeof *before);
    return second_mailbox_read(&session.before, before->word);
}

/* The rules say of every mailbox what a call leads to, also of one that no call leaves, and it
 * stays a mailbox. */
static const char *wrong(void)
{
    ask_second();
    return session.said[COMPARE_SECOND].stands ? difference() : "state, which is no mailbox";
}

/* ---- The calls ---- */

static void begin(void)
{
    memset(&session, 0, sizeof session);
    lay_state(0);
    lent_lay(&session.bytes, bytes_arenas, sizeof bytes_arenas, 3);
    lent_fill(&session.bytes, REPORT_MOST, 0xA5);
    lent_lay(&session.cci, cci_arenas, sizeof cci_arenas, 4);
    lent_fill(&session.cci, sizeof(uint32_t), 0xA5);
}

static enum coverage_mailbox column(const call *made)
{
    if (made->kind != WRITE) {
        return (enum coverage_mailbox)(COVERAGE_SUCCESS + (made->kind - SUCCESS));
    }
    switch (session.bytes.before[0]) {
    case PPM_RESET:
    case CANCEL:
    case CONNECTOR_RESET:
    case ACK_CC_CI:
    case SET_NOTIFICATION_ENABLE:
    case GET_CAPABILITY:
    case GET_CONNECTOR_CAPABILITY:
        return (enum coverage_mailbox)(session.bytes.before[0] - 1);
    case GET_CONNECTOR_STATUS:
        return COVERAGE_GET_CONNECTOR_STATUS;
    default:
        return COVERAGE_OTHER_CODE;
    }
}

static void settle(compare_run *run)
{
    uint32_t word[SECOND_MAILBOX_WORDS];
    second_mailbox_lay(&session.before, word);
    session.now = session.next;
    if (session.made.kind != FRESH &&
        session.said[COMPARE_LIBRARY].number != HARSOLVEK_CONTROL_LENGTH) {
        coverage_pair(&run->met, word[5], column(&session.made));
    }
}

const compare_part drive_mailbox = {
    SECOND_PART_MAILBOX, begin,      over,  draw_start, draw_call,  damage,      ask_library,
    ask_second,          difference, wrong, settle,     print_call, print_answer};
