#include <string.h>

#include "cable.h"
#include "drive.h"

/* The requests (001 T5-16). */
enum {
    GET_FW_ID = 0x81,
    INITIATE,
    DATA,
    DATA_NR,
    VALIDATE,
    ABORT,
    DATA_PAUSE,
    VENDOR_SPECIFIC = 0xFF
};

LENT_ARENAS(uint8_t, image_arenas, HARSOLVEK_IMAGE_MOST + 1);
LENT_ARENAS(uint16_t, sum_arenas, sizeof(uint16_t));

static cable roof;

static struct {
    second_receiver now;    /* the session that both have */
    second_receiver before; /* the state that the call is made on */
    second_receiver next;   /* the second one's behind the call */
    unsigned sums[COMPARE_SIDES];
    lent sum;
    harsolvek_given given;
    harsolvek_settings settings; /* of a start, as the next two */
    harsolvek_identity identity;
    size_t capacity;
    size_t image_size;
} session;

/* 001 T5-18, behind Status. */
static void identity_bytes(uint8_t bytes[19], const harsolvek_identity *identity)
{
    draw_put(bytes, identity->vendor);
    draw_put(bytes + 2, identity->product);
    bytes[4] = identity->hardware;
    bytes[5] = identity->silicon;
    draw_put(bytes + 6, identity->versions.first);
    draw_put(bytes + 8, identity->versions.second);
    draw_put(bytes + 10, identity->versions.third);
    draw_put(bytes + 12, identity->versions.fourth);
    bytes[14] = identity->bank;
    bytes[15] = identity->flags1;
    bytes[16] = identity->flags2;
    bytes[17] = identity->flags3;
    bytes[18] = identity->flags4;
}

static harsolvek_receiver *library_state(void)
{
    return (harsolvek_receiver *)(void *)roof.state.library;
}

/* The library's state as the header's functions say its fields. */
static second_receiver said_state(const harsolvek_receiver *state)
{
    const harsolvek_settings settings = harsolvek_receiver_settings(state);
    const harsolvek_identity identity = harsolvek_receiver_identity(state);
    second_receiver said;
    said.limit = settings.limit;
    said.most = settings.resends;
    identity_bytes(said.identity, &identity);
    said.capacity = harsolvek_receiver_capacity(state);
    said.phase = (enum second_receiver_phase)harsolvek_receiver_phase(state);
    said.blocks = harsolvek_receiver_blocks(state);
    said.bytes = harsolvek_receiver_bytes(state);
    said.last_short = (int)harsolvek_receiver_last_short(state);
    said.silence = harsolvek_receiver_silence(state);
    said.resends = harsolvek_receiver_resends(state);
    return said;
}

static int same(const second_receiver *a, const second_receiver *b)
{
    return a->limit == b->limit && a->most == b->most &&
           memcmp(a->identity, b->identity, sizeof a->identity) == 0 &&
           a->capacity == b->capacity && a->phase == b->phase && a->blocks == b->blocks &&
           a->bytes == b->bytes && a->last_short == b->last_short && a->silence == b->silence &&
           a->resends == b->resends;
}

static void print_state(FILE *to, const char *name, const second_receiver *state)
{
    fprintf(to,
            "  %s: limit %u, most %u, capacity %lu, phase %u, blocks %u, bytes %lu, last_short %d, "
            "silence %u, resends %u\n",
            name, state->limit, state->most, (unsigned long)state->capacity, (unsigned)state->phase,
            state->blocks, (unsigned long)state->bytes, state->last_short, state->silence,
            state->resends);
    lent_print(to, "its identity", state->identity, sizeof state->identity);
}

static void print_call(FILE *to)
{
    const harsolvek_given *given = &session.given;
    cable_print_call(to, &roof);
    fprintf(to, "  readiness %lu, verdict %lu, later %lu; settings %lu and %lu, capacity %lu\n",
            (unsigned long)given->readiness, (unsigned long)given->verdict,
            (unsigned long)given->later, (unsigned long)session.settings.limit,
            (unsigned long)session.settings.resends, (unsigned long)session.capacity);
    print_state(to, "state before", &session.before);
}

static void print_answer(FILE *to, enum compare_side side)
{
    const second_receiver library = said_state(library_state());
    cable_print_answer(to, &roof, side);
    fprintf(to, "  sum %u\n", session.sums[side]);
    print_state(to, "state", side == COMPARE_LIBRARY ? &library : &session.next);
}

/* The image changes only where a block is taken. */
static const char *difference(void)
{
    const second_receiver library = said_state(library_state());
    const second_receiver *second = &session.next;
    const char *what = cable_difference(&roof);
    int taken = second->blocks > session.before.blocks && roof.made.kind == CABLE_MESSAGE;
    size_t at = taken ? (size_t)256 * session.before.blocks : 0;
    size_t count = taken ? second->bytes - session.before.bytes : 0;
    if (what != NULL) {
        return what;
    }
    if (session.sums[COMPARE_LIBRARY] != session.sums[COMPARE_SECOND] ||
        !lent_kept(&session.sum, sizeof(uint16_t), 0, sizeof(uint16_t))) {
        return "sum";
    }
    return same(&library, second) ? cable_kept(&roof, session.image_size, at, count) : "state";
}

/* ---- The library ---- */

static uint64_t ask_request(harsolvek_receiver *state)
{
    const cable_call *made = &roof.made;
    const cable_pointers lent = cable_lend(&roof);
    if (made->raw) {
        return harsolvek_receiver_request_raw(state, lent.memory, made->memory_length, lent.message,
                                              made->message_length, &session.given, lent.out,
                                              made->out_length, lent.written);
    }
    return harsolvek_receiver_request(state, lent.memory, made->memory_length, lent.message,
                                      made->message_length, &session.given, lent.out,
                                      made->out_length, lent.written);
}

static uint64_t ask_time(harsolvek_receiver *state)
{
    const cable_call *made = &roof.made;
    const cable_pointers lent = cable_lend(&roof);
    if (made->raw) {
        return harsolvek_receiver_time_raw(state, made->elapsed, lent.out, made->out_length,
                                           lent.written);
    }
    return harsolvek_receiver_time(state, made->elapsed, lent.out, made->out_length, lent.written);
}

static uint64_t ask_sum(const harsolvek_receiver *state)
{
    const uint8_t *image = cable_lend(&roof).memory;
    uint16_t *sum = (uint16_t *)(void *)session.sum.library;
    const uint64_t number =
        roof.made.raw ? harsolvek_receiver_sum_raw(state, image, roof.made.memory_length, sum)
                      : harsolvek_receiver_sum(state, image, roof.made.memory_length, sum);
    session.sums[COMPARE_LIBRARY] = *sum;
    return number;
}

static uint64_t ask_library_number(harsolvek_receiver *state)
{
    switch (roof.made.kind) {
    case CABLE_MESSAGE:
        return ask_request(state);
    case CABLE_TIME:
        return ask_time(state);
    case CABLE_SUM:
        return ask_sum(state);
    default:
        return harsolvek_receiver_start(state, &session.settings, &session.identity,
                                        session.capacity);
    }
}

static unsigned ask_library(void)
{
    harsolvek_receiver *state = library_state();
    const uint64_t number = ask_library_number(state);
    return cable_heard(&roof, COMPARE_LIBRARY, number, harsolvek_receiver_is_session(state));
}

/* ---- The second one ---- */

static int ask_second_sum(second_receiver *state)
{
    unsigned sum = 0;
    uint16_t told;
    const int number =
        second_receiver_sum(state, roof.memory.second, roof.made.memory_length, &sum);
    session.sums[COMPARE_SECOND] = sum;
    told = (uint16_t)sum;
    memcpy(session.sum.second, &told, sizeof told);
    return number;
}

static int ask_second_start(second_receiver *state)
{
    uint8_t identity[19];
    identity_bytes(identity, &session.identity);
    return second_receiver_start(state, session.settings.limit, session.settings.resends, identity,
                                 session.capacity);
}

static int ask_second_number(second_receiver *state)
{
    const cable_call *made = &roof.made;
    const harsolvek_given *given = &session.given;
    switch (made->kind) {
    case CABLE_MESSAGE:
        return second_receiver_request(state, roof.memory.second, made->memory_length,
                                       roof.message.second, made->message_length, given->readiness,
                                       given->verdict, given->later, roof.out.second,
                                       made->out_length, cable_second_written(&roof));
    case CABLE_TIME:
        return second_receiver_time(state, made->elapsed, roof.out.second, made->out_length,
                                    cable_second_written(&roof));
    case CABLE_SUM:
        return ask_second_sum(state);
    default:
        return ask_second_start(state);
    }
}

/* Where there is no session: nothing is written, and the sum is 0. */
static int ask_second_refused(uint32_t *word)
{
    const uint16_t no_sum = 0;
    if (roof.made.kind == CABLE_SUM) {
        memcpy(session.sum.second, &no_sum, sizeof no_sum);
    } else {
        *cable_second_written(&roof) = 0;
    }
    return second_receiver_refuse(word, roof.out.second,
                                  lent_part(roof.made.out_length, DRAW_OUT_MOST));
}

static void ask_second(void)
{
    uint32_t *word = cable_words(roof.state.second);
    second_receiver *state = &session.next;
    second_receiver left;
    int number;
    if (!second_receiver_read(state, word) && roof.made.kind != CABLE_START) {
        number = ask_second_refused(word);
    } else {
        number = ask_second_number(state);
        second_receiver_lay(state, word);
    }
    cable_heard(&roof, COMPARE_SECOND, (uint64_t)number, second_receiver_read(&left, word));
}

/* ---- Inputs ---- */

/* The length of a block that fills what is left of the image, is short, empty, or passes the
 * capacity. */
static size_t draw_block_length(choice *from, const second_receiver *state)
{
    size_t start = (size_t)256 * state->blocks;
    uint32_t room = start < state->capacity ? (uint32_t)(state->capacity - start) : 0;
    uint32_t fits = room < 256 ? room : 256;
    const uint32_t lengths[] = {
        fits, fits, fits, 0, 256, fits < 256 ? fits + 1 : 255, choice_below(from, 257)};
    if ((state->last_short || room == 0) && !choice_one_in(from, 4)) {
        return 0;
    }
    return CHOICE_OF(from, lengths);
}

/* Mostly the number that is due; outside Transfer none is, and any may come. */
static unsigned draw_number(choice *from, const second_receiver *state)
{
    return state->phase == SECOND_TRANSFER || choice_one_in(from, 2)
               ? draw_beside(from, state->blocks)
               : draw_word(from);
}

/* The type that moves the session on in its phase, or any. */
static uint8_t draw_type(choice *from, enum second_receiver_phase phase)
{
    static const uint8_t useful[] = {INITIATE, DATA, VALIDATE};
    static const uint32_t types[] = {GET_FW_ID, INITIATE, DATA,       DATA_NR,
                                     VALIDATE,  ABORT,    DATA_PAUSE, VENDOR_SPECIFIC};
    return phase == SECOND_GOOD || choice_one_in(from, 5) ? (uint8_t)CHOICE_OF(from, types)
                                                          : useful[phase];
}

static size_t draw_request(choice *from, uint8_t *bytes)
{
    const second_receiver *state = &session.now;
    bytes[1] = draw_type(from, state->phase);
    switch (bytes[1]) {
    case INITIATE:
        return 10;
    case DATA:
        draw_put(bytes + 2, draw_number(from, state));
        return 4 + draw_block_length(from, state);
    case DATA_NR:
    case DATA_PAUSE:
    case VENDOR_SPECIFIC:
        return 2 + choice_below(from, 259);
    default:
        return 2;
    }
}

static uint32_t draw_later(choice *from)
{
    const uint32_t good[] = {1, 254, 1 + choice_below(from, 254)};
    const uint32_t wrong[] = {0, 255, draw_cut(from, CHOICE_OF(from, good), 8)};
    return choice_one_in(from, 6) ? CHOICE_OF(from, wrong) : CHOICE_OF(from, good);
}

static uint32_t draw_verdict(choice *from)
{
    static const uint32_t verdicts[] = {HARSOLVEK_VERDICT_GOOD, HARSOLVEK_VERDICT_BAD,
                                        HARSOLVEK_VERDICT_LATER};
    const uint32_t unknown[] = {0, 4, 255, draw_cut(from, CHOICE_OF(from, verdicts), 8)};
    return choice_one_in(from, 24) ? CHOICE_OF(from, unknown) : CHOICE_OF(from, verdicts);
}

static uint32_t draw_readiness(choice *from)
{
    const uint32_t wait = draw_wait(from);
    return choice_one_in(from, 32) ? draw_cut(from, wait, 8) : wait;
}

/* Near the end of a large image, as if up to 4,095 whole blocks had been accepted, or to where
 * block numbers begin to have a second byte: both states get the counts that these would leave, for
 * feeding them would take a thousand times as long. The image stays as it is filled, as if the
 * blocks held that. */
static void jump(choice *from)
{
    second_receiver *state = &session.now;
    unsigned whole = (unsigned)(state->capacity / 256);
    unsigned back = choice_below(from, 3);
    unsigned blocks = whole >= 4000 && !choice_one_in(from, 8) ? whole - back : 256 - back;
    if (state->phase == SECOND_TRANSFER && state->blocks == 0 && whole >= blocks) {
        state->blocks = blocks;
        state->bytes = (size_t)256 * blocks;
    }
}

/* Both get the session. */
static void spread(void)
{
    second_receiver_lay(&session.now, cable_words(roof.state.before));
    cable_spread(&roof);
    lent_wipe(&session.sum, sizeof(uint16_t), 0xA5);
    memset(session.sums, 0, sizeof session.sums);
    session.before = session.now;
}

static void draw_call(compare_run *run)
{
    static const enum cable_kind kinds[] = {
        CABLE_MESSAGE, CABLE_MESSAGE, CABLE_MESSAGE, CABLE_MESSAGE, CABLE_MESSAGE,
        CABLE_MESSAGE, CABLE_MESSAGE, CABLE_TIME,    CABLE_TIME,    CABLE_SUM};
    choice *from = &run->from;
    const second_receiver *state = &session.now;
    enum cable_kind kind;
    if (choice_one_in(from, 2)) {
        jump(from);
    }
    kind = kinds[choice_below(from, 10)];
    memset(&session.given, 0, sizeof session.given);
    cable_draw(&roof, run, kind, draw_lent_length(from, state->capacity));
    if (kind == CABLE_MESSAGE) {
        cable_draw_message(&roof, from, draw_request);
        session.given.readiness = draw_readiness(from);
        session.given.verdict = draw_verdict(from);
        session.given.later = draw_later(from);
    } else if (kind == CABLE_TIME) {
        roof.made.elapsed = draw_elapsed(from, state->limit, state->limit - state->silence);
    }
    spread();
}

static harsolvek_identity draw_identity(choice *from)
{
    uint8_t noise[19];
    harsolvek_identity identity;
    draw_noise(from, noise, sizeof noise);
    identity.vendor = (uint16_t)(noise[0] << 8 | noise[1]);
    identity.product = (uint16_t)(noise[2] << 8 | noise[3]);
    identity.hardware = noise[4];
    identity.silicon = noise[5];
    identity.versions.first = (uint16_t)(noise[6] << 8 | noise[7]);
    identity.versions.second = (uint16_t)(noise[8] << 8 | noise[9]);
    identity.versions.third = (uint16_t)(noise[10] << 8 | noise[11]);
    identity.versions.fourth = (uint16_t)(noise[12] << 8 | noise[13]);
    identity.bank = noise[14];
    identity.flags1 = noise[15];
    identity.flags2 = noise[16];
    identity.flags3 = noise[17];
    identity.flags4 = noise[18];
    return identity;
}

static size_t draw_capacity(choice *from)
{
    static const size_t too_large[] = {HARSOLVEK_IMAGE_MOST + 1, (size_t)UINT32_MAX + 1,
                                       (size_t)UINT32_MAX + 601, SIZE_MAX};
    size_t large;
    if (choice_one_in(from, 16)) {
        return too_large[choice_below(from, 4)];
    }
    large = draw_large_length(from, 4095 * 256 - 1);
    if (large != 0) {
        return large;
    }
    return choice_one_in(from, 12) ? 0 : draw_small_length(from);
}

/* A start is made where another session was, or nothing yet. */
static void draw_start(compare_run *run)
{
    session.settings = draw_settings(&run->from);
    session.identity = draw_identity(&run->from);
    session.capacity = draw_capacity(&run->from);
    cable_next(&roof, run, CABLE_START);
    cable_move(&roof, &run->from);
    spread();
}

/* Good ends only with a new session (01, The receiver's phases). */
static int over(choice *from)
{
    return choice_one_in(from, session.now.phase == SECOND_GOOD ? 12 : 100);
}

/* ---- Damaged states ---- */

static void damage_words(choice *from, uint32_t *word)
{
    const uint32_t bytes[] = {0xFFFFFFFF, word[2] + 1, word[2], draw_wrong(from, 1, 0xFFFFFFFF)};
    const uint32_t blocks[] = {draw_wrong(from, 1, 65535), draw_wrong(from, 65536, 0xFFFFFFFF)};
    switch (draw_damage(from, 16, word, SECOND_RECEIVER_WORDS)) {
    case 4:
        word[0] = draw_wrong_limit(from);
        break;
    case 5:
        word[1] = draw_wrong_resends(from);
        break;
    case 6:
        word[2] = draw_wrong(from, HARSOLVEK_IMAGE_MOST + 1, 0xFFFFFFFF);
        break;
    case 7:
        word[3] = draw_code(from, 4);
        break;
    case 8:
        word[4] = CHOICE_OF(from, blocks);
        break;
    case 9:
        word[5] = CHOICE_OF(from, bytes);
        break;
    case 10:
        word[4] = blocks[0];
        word[5] = CHOICE_OF(from, bytes);
        break;
    case 11:
        word[6] = draw_wrong(from, 1 + choice_below(from, 2), 0xFFFFFFFF);
        break;
    case 12:
        word[7] =
            choice_one_in(from, 2) ? draw_cut(from, word[7], 16) : draw_wrong(from, word[0], 65535);
        break;
    case 13:
        word[8] =
            choice_one_in(from, 2) ? draw_cut(from, word[8], 8) : draw_wrong(from, word[1], 255);
        break;
    case 14:
        word[13] |= draw_wrong(from, 1, 255) << 24;
        break;
    case 15:
        word[3] = HARSOLVEK_RECEIVER_IDLE;
        break;
    }
}

/* A block mostly has the number that is due now. */
static int damage(choice *from)
{
    uint32_t *word = cable_words(roof.state.before);
    damage_words(from, word);
    if (roof.made.kind == CABLE_MESSAGE && !choice_one_in(from, 3)) {
        draw_put(roof.message.before + 2, word[4]);
        lent_spread(&roof.message, DRAW_MESSAGE_MOST);
    }
    cable_spread(&roof);
    return second_receiver_read(&session.before, word);
}

/* No rule says what so many accepted blocks and bytes lead to. The image changes only where a block
 * is taken, at 256 times its number. */
static const char *wrong(void)
{
    second_receiver left;
    const int stands = second_receiver_read(&left, cable_words(roof.state.library));
    const uint8_t *request = roof.message.before;
    const char *what = cable_wrong(&roof, stands);
    int done = roof.said[COMPARE_LIBRARY].number == HARSOLVEK_TAKEN;
    int taken = done && roof.made.kind == CABLE_MESSAGE && request[1] == DATA &&
                session.before.phase == SECOND_TRANSFER && roof.made.message_length > 4;
    size_t at = taken ? 256 * (size_t)(request[2] + 256 * request[3]) : 0;
    size_t count = taken ? roof.made.message_length - 4 : 0;
    if (what != NULL) {
        return what;
    }
    if ((!done && session.sums[COMPARE_LIBRARY] != 0) ||
        !lent_held(&session.sum, sizeof(uint16_t), 0, sizeof(uint16_t))) {
        return "sum";
    }
    return cable_held(&roof, session.image_size, at, count);
}

/* ---- The calls ---- */

static void lay_image(size_t size, size_t shift, uint8_t byte)
{
    lent_lay(&roof.memory, image_arenas, sizeof image_arenas, shift);
    lent_fill(&roof.memory, size, byte);
    session.image_size = size;
}

static void begin(void)
{
    memset(&session, 0, sizeof session);
    cable_begin(&roof, "image", "request", SECOND_RECEIVER_WORDS);
    lent_lay(&session.sum, sum_arenas, sizeof sum_arenas, 2);
    lent_fill(&session.sum, sizeof(uint16_t), 0xA5);
    lay_image(0, 0, 0xA5);
}

static void count(coverage *met)
{
    const second_receiver *before = &session.before;
    if (roof.made.kind != CABLE_SUM) {
        cable_count(&roof, met, before->phase);
    }
    if (session.now.blocks > before->blocks) {
        coverage_block(met, before->blocks);
    }
    coverage_size(met, before->capacity);
}

static void settle(compare_run *run)
{
    session.now = session.next;
    if (roof.made.kind == CABLE_START) {
        lay_image(session.capacity, choice_below(&run->from, LENT_SHIFTS), (uint8_t)run->made);
    } else {
        count(&run->met);
    }
}

const compare_part drive_receiver = {
    SECOND_PART_RECEIVER, begin,      over,  draw_start, draw_call,  damage,      ask_library,
    ask_second,           difference, wrong, settle,     print_call, print_answer};
