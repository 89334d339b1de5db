#include <string.h>

#include "cable.h"
#include "drive.h"

/* The responses (001 T5-16). */
enum {
    GET_FW_ID = 0x01,
    INITIATE = 0x02,
    DATA = 0x03,
    VALIDATE = 0x05,
    DATA_PAUSE = 0x07,
    VENDOR_SPECIFIC = 0x7F
};

LENT_ARENAS(uint8_t, file_arenas, HARSOLVEK_IMAGE_MOST + 1);

static cable house;

static struct {
    second_indoor now;           /* the session that both have */
    second_indoor before;        /* the state that the call is made on */
    second_indoor next;          /* the second one's behind the call */
    harsolvek_settings settings; /* of a start, as the next one */
    harsolvek_release release;
} session;

static harsolvek_indoor *library_state(void)
{
    return (harsolvek_indoor *)(void *)house.state.library;
}

/* The library's state as the header's functions say its fields. */
static second_indoor said_state(const harsolvek_indoor *state)
{
    const harsolvek_settings settings = harsolvek_indoor_settings(state);
    const harsolvek_release release = harsolvek_indoor_release(state);
    second_indoor said;
    said.limit = settings.limit;
    said.most = settings.resends;
    said.vendor = release.vendor;
    said.product = release.product;
    said.version[0] = release.versions.first;
    said.version[1] = release.versions.second;
    said.version[2] = release.versions.third;
    said.version[3] = release.versions.fourth;
    said.length = harsolvek_indoor_length(state);
    said.phase = (enum second_indoor_phase)harsolvek_indoor_phase(state);
    said.asked = harsolvek_indoor_asked(state);
    said.emptied = (int)harsolvek_indoor_emptied(state);
    said.wait = harsolvek_indoor_wait(state);
    said.reason = (int)harsolvek_indoor_reason(state);
    said.silence = harsolvek_indoor_silence(state);
    said.resends = harsolvek_indoor_resends(state);
    return said;
}

static int same_plan(const second_indoor *a, const second_indoor *b)
{
    return a->limit == b->limit && a->most == b->most && a->vendor == b->vendor &&
           a->product == b->product && memcmp(a->version, b->version, sizeof a->version) == 0 &&
           a->length == b->length;
}

static int same(const second_indoor *a, const second_indoor *b)
{
    return same_plan(a, b) && a->phase == b->phase && a->asked == b->asked &&
           a->emptied == b->emptied && a->wait == b->wait && a->reason == b->reason &&
           a->silence == b->silence && a->resends == b->resends;
}

static void print_state(FILE *to, const char *name, const second_indoor *state)
{
    fprintf(to,
            "  %s: limit %u, most %u, vendor %u, product %u, versions %u %u %u %u, length %lu,\n",
            name, state->limit, state->most, state->vendor, state->product, state->version[0],
            state->version[1], state->version[2], state->version[3], (unsigned long)state->length);
    fprintf(to, "    phase %u, asked %u, emptied %d, wait %u, reason %d, silence %u, resends %u\n",
            (unsigned)state->phase, state->asked, state->emptied, state->wait, state->reason,
            state->silence, state->resends);
}

static void print_call(FILE *to)
{
    const harsolvek_release *release = &session.release;
    cable_print_call(to, &house);
    fprintf(to, "  settings %lu and %lu, release %u %u, versions %u %u %u %u\n",
            (unsigned long)session.settings.limit, (unsigned long)session.settings.resends,
            release->vendor, release->product, release->versions.first, release->versions.second,
            release->versions.third, release->versions.fourth);
    print_state(to, "state before", &session.before);
}

static void print_answer(FILE *to, enum compare_side side)
{
    const second_indoor library = said_state(library_state());
    cable_print_answer(to, &house, side);
    print_state(to, "state", side == COMPARE_LIBRARY ? &library : &session.next);
}

/* How much of the file is looked at behind a call: up to the byte behind it where a call is told of
 * more. A start has no use for it. */
static size_t looked_at(void)
{
    return lent_part(house.made.memory_length,
                     house.made.kind == CABLE_START ? 0 : session.now.length + 1);
}

/* The file is lent to read. */
static const char *difference(void)
{
    const second_indoor library = said_state(library_state());
    const char *what = cable_difference(&house);
    if (what == NULL && !same(&library, &session.next)) {
        what = "state";
    }
    return what == NULL ? cable_kept(&house, looked_at(), 0, 0) : what;
}

/* ---- The library ---- */

static uint64_t ask_response(harsolvek_indoor *state)
{
    const cable_call *made = &house.made;
    const cable_pointers lent = cable_lend(&house);
    if (made->raw) {
        return harsolvek_indoor_response_raw(state, lent.memory, made->memory_length, lent.message,
                                             made->message_length, lent.out, made->out_length,
                                             lent.written);
    }
    return harsolvek_indoor_response(state, lent.memory, made->memory_length, lent.message,
                                     made->message_length, lent.out, made->out_length,
                                     lent.written);
}

static uint64_t ask_time(harsolvek_indoor *state)
{
    const cable_call *made = &house.made;
    const cable_pointers lent = cable_lend(&house);
    if (made->raw) {
        return harsolvek_indoor_time_raw(state, lent.memory, made->memory_length, made->elapsed,
                                         lent.out, made->out_length, lent.written);
    }
    return harsolvek_indoor_time(state, lent.memory, made->memory_length, made->elapsed, lent.out,
                                 made->out_length, lent.written);
}

static uint64_t ask_start(harsolvek_indoor *state)
{
    const cable_call *made = &house.made;
    const cable_pointers lent = cable_lend(&house);
    if (made->raw) {
        return harsolvek_indoor_start_raw(state, &session.settings, &session.release, lent.memory,
                                          made->memory_length, lent.out, made->out_length,
                                          lent.written);
    }
    return harsolvek_indoor_start(state, &session.settings, &session.release, lent.memory,
                                  made->memory_length, lent.out, made->out_length, lent.written);
}

static uint64_t ask_library_number(harsolvek_indoor *state)
{
    if (house.made.kind == CABLE_MESSAGE) {
        return ask_response(state);
    }
    return house.made.kind == CABLE_TIME ? ask_time(state) : ask_start(state);
}

static unsigned ask_library(void)
{
    harsolvek_indoor *state = library_state();
    const uint64_t number = ask_library_number(state);
    return cable_heard(&house, COMPARE_LIBRARY, number, harsolvek_indoor_is_session(state));
}

/* ---- The second one ---- */

static int ask_second_start(second_indoor *state)
{
    const cable_call *made = &house.made;
    const harsolvek_release *release = &session.release;
    const unsigned version[4] = {release->versions.first, release->versions.second,
                                 release->versions.third, release->versions.fourth};
    return second_indoor_start(state, session.settings.limit, session.settings.resends,
                               release->vendor, release->product, version, house.memory.second,
                               made->memory_length, house.out.second, made->out_length,
                               cable_second_written(&house));
}

static int ask_second_number(second_indoor *state)
{
    const cable_call *made = &house.made;
    const uint8_t *file = house.memory.second;
    uint8_t *out = house.out.second;
    size_t *written = cable_second_written(&house);
    switch (made->kind) {
    case CABLE_MESSAGE:
        return second_indoor_response(state, file, made->memory_length, house.message.second,
                                      made->message_length, out, made->out_length, written);
    case CABLE_TIME:
        return second_indoor_time(state, file, made->memory_length, made->elapsed, out,
                                  made->out_length, written);
    default:
        return ask_second_start(state);
    }
}

static void ask_second(void)
{
    uint32_t *word = cable_words(house.state.second);
    second_indoor *state = &session.next;
    second_indoor left;
    int number;
    if (!second_indoor_read(state, word) && house.made.kind != CABLE_START) {
        *cable_second_written(&house) = 0;
        number = second_indoor_refuse(word, house.out.second,
                                      lent_part(house.made.out_length, DRAW_OUT_MOST));
    } else {
        number = ask_second_number(state);
        second_indoor_lay(state, word);
    }
    cable_heard(&house, COMPARE_SECOND, (uint64_t)number, second_indoor_read(&left, word));
}

/* ---- Inputs ---- */

/* 001 T5-29: 00 is OK, and every other status is none. */
static uint8_t draw_status(choice *from)
{
    return (uint8_t)(choice_one_in(from, 24) ? 1 + choice_below(from, 255) : 0);
}

/* 001 T5-18. The versions agree up to a place, or in all four; behind it they are noise. The file is
 * mostly newer, by one at that place; now and then it is older there, or alike. */
static size_t draw_identity(choice *from, const second_indoor *state, uint8_t *bytes)
{
    const unsigned place = choice_below(from, 4);
    const unsigned own = state->version[place];
    const uint32_t reported[] = {own > 0 ? own - 1 : 0, choice_below(from, own), own, own + 1,
                                 draw_word(from)};
    const int alike = choice_one_in(from, 16);
    draw_put(bytes + 3, draw_beside(from, state->vendor));
    draw_put(bytes + 5, draw_beside(from, state->product));
    for (unsigned i = 0; i < (alike ? 4 : place); i++) {
        draw_put(bytes + 9 + 2 * i, state->version[i]);
    }
    if (!alike) {
        draw_put(bytes + 9 + 2 * place,
                 choice_one_in(from, 4) ? CHOICE_OF(from, reported) : reported[0]);
    }
    return 22;
}

/* 001 T5-20: bits 20 to 23 of MaxImageSize are reserved, and the noise in them is to be ignored. */
static size_t draw_initiate(choice *from, const second_indoor *state, uint8_t *bytes)
{
    uint32_t length = (uint32_t)state->length;
    const uint32_t sizes[] = {HARSOLVEK_IMAGE_MOST, length, length + 1, length - 1,
                              choice_below(from, 1048576)};
    uint32_t size = choice_one_in(from, 2) ? CHOICE_OF(from, sizes) : sizes[0];
    bytes[3] = draw_wait(from);
    draw_put(bytes + 4, size);
    bytes[6] = (uint8_t)((bytes[6] & 0xF0) | (size >> 16 & 0x0F));
    return 7;
}

/* The block after the one last asked for; in a large file often one of the last, or one where block
 * numbers begin to have a second byte: a response may ask for any. */
static unsigned draw_next(choice *from, const second_indoor *state, unsigned n)
{
    if (n > 256 && choice_one_in(from, 3)) {
        return 256 - choice_below(from, 3);
    }
    if (n > 8 && choice_one_in(from, 2)) {
        return n - choice_below(from, 3);
    }
    return state->asked < n ? state->asked + 1 : n;
}

/* 001 T5-22. After the empty block mostly the close. */
static size_t draw_data(choice *from, const second_indoor *state, uint8_t *bytes)
{
    unsigned n = (unsigned)((state->length + 255) / 256);
    unsigned next = draw_next(from, state, n);
    const uint32_t others[] = {n, state->asked,   n + 1, n - 1, choice_below(from, n + 1),
                               0, draw_word(from)};
    int closes = state->emptied ? !choice_one_in(from, 4) : choice_one_in(from, 40);
    bytes[3] = closes ? 255 : draw_wait(from) % 255;
    draw_put(bytes + 5, choice_one_in(from, 6) ? CHOICE_OF(from, others) : closes ? n : next);
    return 7;
}

/* 001 T5-24: bits 1 to 7 of Flags are reserved, and the noise in them is to be ignored. */
static size_t draw_validate(choice *from, uint8_t *bytes)
{
    bytes[3] = draw_wait(from);
    bytes[4] = (uint8_t)((bytes[4] & 0xFE) | !choice_one_in(from, 3));
    return 5;
}

/* The type that is due in the phase, or any. */
static uint8_t draw_type(choice *from, enum second_indoor_phase phase)
{
    static const uint8_t due[] = {GET_FW_ID, INITIATE, DATA, VALIDATE};
    static const uint32_t types[] = {GET_FW_ID, INITIATE,   DATA,
                                     VALIDATE,  DATA_PAUSE, VENDOR_SPECIFIC};
    return phase > SECOND_VALIDATE || choice_one_in(from, 8) ? (uint8_t)CHOICE_OF(from, types)
                                                             : due[phase];
}

static size_t draw_response(choice *from, uint8_t *bytes)
{
    const second_indoor *state = &session.now;
    bytes[1] = draw_type(from, state->phase);
    bytes[2] = draw_status(from);
    switch (bytes[1]) {
    case GET_FW_ID:
        return draw_identity(from, state, bytes);
    case INITIATE:
        return draw_initiate(from, state, bytes);
    case DATA:
        return draw_data(from, state, bytes);
    case VALIDATE:
        return draw_validate(from, bytes);
    default:
        return 2 + choice_below(from, 259);
    }
}

/* Both get the session. */
static void spread(void)
{
    second_indoor_lay(&session.now, cable_words(house.state.before));
    cable_spread(&house);
    session.before = session.now;
}

static void draw_call(compare_run *run)
{
    choice *from = &run->from;
    const second_indoor *state = &session.now;
    enum cable_kind kind = choice_one_in(from, 5) ? CABLE_TIME : CABLE_MESSAGE;
    cable_draw(&house, run, kind, draw_lent_length(from, state->length));
    if (kind == CABLE_MESSAGE) {
        cable_draw_message(&house, from, draw_response);
    } else {
        house.made.elapsed = draw_elapsed(
            from, state->limit, state->wait > 0 ? state->wait : state->limit - state->silence);
    }
    spread();
}

static size_t draw_file_length(choice *from)
{
    static const size_t wrong[] = {0, HARSOLVEK_IMAGE_MOST + 1, (size_t)UINT32_MAX + 601};
    size_t large;
    if (choice_one_in(from, 8)) {
        return wrong[choice_below(from, 3)];
    }
    large = draw_large_length(from, 4095 * 256 + 1);
    return large != 0 ? large : draw_small_length(from);
}

static harsolvek_release draw_release(choice *from)
{
    harsolvek_release release;
    release.vendor = draw_word(from);
    release.product = draw_word(from);
    release.versions.first = draw_word(from);
    release.versions.second = draw_word(from);
    release.versions.third = draw_word(from);
    release.versions.fourth = draw_word(from);
    return release;
}

/* A start is made where another session was, or nothing yet. */
static void draw_start(compare_run *run)
{
    session.settings = draw_settings(&run->from);
    session.release = draw_release(&run->from);
    cable_draw(&house, run, CABLE_START, draw_file_length(&run->from));
    cable_move(&house, &run->from);
    spread();
}

/* Done and Failed stay (01, The indoor end's phases). */
static int over(choice *from)
{
    return choice_one_in(from, session.now.phase > SECOND_VALIDATE ? 6 : 150);
}

/* ---- Damaged states ---- */

/* A number of 16 bits, or one that a cut makes to it. */
static uint32_t draw_short(choice *from)
{
    const uint32_t good = draw_wrong(from, 1, 65535);
    return choice_one_in(from, 2) ? draw_cut(from, choice_one_in(from, 2) ? good : 0, 16) : good;
}

static void damage_words(choice *from, uint32_t *word)
{
    static const uint32_t reasons[] = {0, 1, 39, 40, 45, 46, 255, 256 + 40, 65536 + 45};
    switch (draw_damage(from, 15, word, SECOND_INDOOR_WORDS)) {
    case 4:
        word[0] = draw_wrong_limit(from);
        break;
    case 5:
        word[1] = draw_wrong_resends(from);
        break;
    case 6:
        word[2] =
            choice_one_in(from, 2) ? 0 : draw_wrong(from, HARSOLVEK_IMAGE_MOST + 1, 0xFFFFFFFF);
        break;
    case 7:
        word[3] = draw_code(from, 6);
        break;
    case 8:
        word[4] = draw_short(from);
        break;
    case 9:
        word[5] = draw_short(from);
        break;
    case 10: /* the end of the wait then sends that block */
        word[4] = draw_wrong(from, 1, 65535);
        word[5] = 1 + choice_below(from, 2);
        break;
    case 11:
        word[6] = draw_wrong(from, 1 + choice_below(from, 2), 0xFFFFFFFF);
        break;
    case 12:
        word[7] =
            choice_one_in(from, 2) ? draw_cut(from, word[7], 16) : draw_wrong(from, word[0], 65535);
        break;
    case 13:
        word[8] =
            choice_one_in(from, 2) ? draw_cut(from, word[8], 8) : draw_wrong(from, word[1], 255);
        break;
    case 14:
        word[9] = CHOICE_OF(from, reasons);
        break;
    }
}

static int damage(choice *from)
{
    uint32_t *word = cable_words(house.state.before);
    damage_words(from, word);
    cable_spread(&house);
    return second_indoor_read(&session.before, word);
}

/* No rule says what such a block asked for or such a wait leads to. */
static const char *wrong(void)
{
    second_indoor left;
    const int stands = second_indoor_read(&left, cable_words(house.state.library));
    const char *what = cable_wrong(&house, stands);
    return what == NULL ? cable_held(&house, looked_at(), 0, 0) : what;
}

/* ---- The calls ---- */

/* The file's bytes are made once for all runs: whoever changes one of them is met at that call. */
static void lay_file(void)
{
    static int made;
    const size_t size = sizeof file_arenas / 3;
    lent_lay(&house.memory, file_arenas, sizeof file_arenas, 1);
    if (!made) {
        choice_noise(file_arenas, size);
        memcpy(file_arenas + size, file_arenas, size);
        memcpy(file_arenas + 2 * size, file_arenas, size);
        made = 1;
    }
}

static void begin(void)
{
    memset(&session, 0, sizeof session);
    cable_begin(&house, "file", "response", SECOND_INDOOR_WORDS);
    lay_file();
}

/* A message of more than 4 bytes is mostly a block. */
static void count(coverage *met)
{
    const uint8_t *out = house.out.before;
    cable_count(&house, met, session.before.phase);
    if (house.said[COMPARE_LIBRARY].written > 4) {
        coverage_block(met, out[1] == 0x83 ? out[2] + 256u * out[3] : 0);
    }
    coverage_size(met, session.before.length);
}

static void settle(compare_run *run)
{
    session.now = session.next;
    if (house.made.kind != CABLE_START) {
        count(&run->met);
    }
}

const compare_part drive_indoor = {
    SECOND_PART_INDOOR, begin,      over,  draw_start, draw_call,  damage,      ask_library,
    ask_second,         difference, wrong, settle,     print_call, print_answer};
