#include <string.h>

#include "line.h"

static int chance(line_session *s, uint32_t percent)
{
    return choice_below(&s->choices, 100) < percent;
}

size_t line_blocks(const line_session *s)
{
    return (s->length + HARSOLVEK_BLOCK_MOST - 1) / HARSOLVEK_BLOCK_MOST;
}

size_t line_number(const line_message *request)
{
    return (size_t)(request->bytes[2] + 256 * request->bytes[3]);
}

int line_is_still(const line_session *s)
{
    return s->requests.count == 0 && s->responses.count == 0;
}

/* ---- What is drawn before the start ---- */

static size_t some_length(choice *from)
{
    if (choice_one_in(from, 300)) {
        return LINE_CARRY + 1 + choice_below(from, LINE_FILE_MOST - LINE_CARRY);
    }
    if (choice_one_in(from, 100)) {
        return 10000 + choice_below(from, 50001);
    }
    if (choice_one_in(from, 12)) {
        return 1;
    }
    if (choice_one_in(from, 8)) {
        return HARSOLVEK_BLOCK_MOST * (1 + choice_below(from, 7));
    }
    return 1 + choice_below(from, 2000);
}

static void fill(choice *from, uint8_t *bytes, size_t length)
{
    for (size_t i = 0; i < length; i++) {
        bytes[i] = (uint8_t)choice_below(from, 256);
    }
}

static size_t some_capacity(line_session *s)
{
    const uint32_t length = (uint32_t)s->length;
    if (s->kind == LINE_SMALL) {
        return choice_below(&s->choices, length);
    }
    return choice_one_in(&s->choices, 2) ? length + choice_below(&s->choices, LINE_ROOM + 1)
                                         : length;
}

static void draw_memory(line_session *s)
{
    choice *from = &s->choices;
    s->length = some_length(from);
    fill(from, s->file, s->length);
    for (size_t i = 0; i < s->length; i++) {
        s->sums[i + 1] = (uint16_t)(s->sums[i] + s->file[i]);
    }
    s->capacity = some_capacity(s);
    fill(from, s->image, s->capacity + LINE_GUARD);
    memcpy(s->expected, s->image, s->capacity + LINE_GUARD);
}

static uint32_t some_rate(choice *from)
{
    return choice_one_in(from, 3) ? 0 : choice_below(from, 61);
}

static void draw_rates(line_session *s)
{
    choice *from = &s->choices;
    if (s->kind == LINE_CLEAN) {
        s->always_good = 1;
        return;
    }
    s->rates.loss = some_rate(from);
    s->rates.repeat = some_rate(from);
    s->rates.delay = some_rate(from);
    s->rates.reorder = some_rate(from);
    s->rates.unready = choice_one_in(from, 3) ? some_rate(from) : 0;
    s->rates.later = choice_one_in(from, 3) ? some_rate(from) : 0;
    s->steady = !choice_one_in(from, 4);
    s->always_good = choice_one_in(from, 3);
}

static harsolvek_settings some_settings(choice *from)
{
    harsolvek_settings settings;
    settings.limit = HARSOLVEK_LIMIT_LEAST + choice_below(from, HARSOLVEK_LIMIT_MOST);
    settings.resends = choice_below(from, HARSOLVEK_RESENDS_MOST + 1);
    return settings;
}

static uint16_t some_word(choice *from)
{
    return (uint16_t)choice_below(from, 65536);
}

/* One that another can be smaller or greater than. */
static uint16_t some_version(choice *from)
{
    return (uint16_t)(1 + choice_below(from, 65534));
}

static harsolvek_release some_release(choice *from)
{
    harsolvek_release release;
    release.vendor = some_word(from);
    release.product = some_word(from);
    release.versions.first = some_version(from);
    release.versions.second = some_version(from);
    release.versions.third = some_version(from);
    release.versions.fourth = some_version(from);
    return release;
}

/* Versions than which the offered ones come later: alike up to a place, smaller there, and any
 * behind it (02 a). If not, greater there, or alike in all four. */
static harsolvek_versions some_versions(choice *from, const harsolvek_versions *offered, int later)
{
    const uint16_t own[] = {offered->first, offered->second, offered->third, offered->fourth};
    const unsigned place = choice_below(from, later ? 4 : 5);
    harsolvek_versions versions;
    uint16_t told[4];
    for (unsigned i = 0; i < 4; i++) {
        told[i] = i < place ? own[i] : some_word(from);
    }
    if (place < 4) {
        told[place] = (uint16_t)(later ? choice_below(from, own[place])
                                       : own[place] + 1 + choice_below(from, 65535u - own[place]));
    }
    versions.first = told[0];
    versions.second = told[1];
    versions.third = told[2];
    versions.fourth = told[3];
    return versions;
}

/* The file is newer, but where the kind says that it is not: for the vendor, the product or the
 * versions. */
static harsolvek_identity some_identity(line_session *s, const harsolvek_release *release)
{
    choice *from = &s->choices;
    const unsigned reason = s->kind == LINE_OLD ? 1 + choice_below(from, 3) : 0;
    harsolvek_identity identity;
    memset(&identity, 0, sizeof identity);
    identity.vendor = reason == 1 ? release->vendor ^ 1 : release->vendor;
    identity.product = reason == 2 ? release->product ^ 256 : release->product;
    identity.versions = some_versions(from, &release->versions, reason != 3);
    return identity;
}

/* ---- The line ---- */

static void put(line_session *s, line_flight *way, const uint8_t *bytes, size_t written)
{
    line_message *next = &way->messages[way->count];
    if (written == 0) {
        return;
    }
    s->counts.sent += way == &s->requests;
    if (way->count == LINE_FLIGHT_MOST) {
        s->counts.lost++;
        return;
    }
    next->length = written;
    memcpy(next->bytes, bytes, written);
    way->count++;
}

static void take_out(line_flight *way, unsigned at)
{
    way->count--;
    memmove(&way->messages[at], &way->messages[at + 1],
            (way->count - at) * sizeof way->messages[0]);
}

/* ---- The ends ---- */

static const char *start_ends(line_session *s)
{
    choice *from = &s->choices;
    const harsolvek_release release = some_release(from);
    harsolvek_settings indoor = some_settings(from);
    harsolvek_settings receiver = some_settings(from);
    harsolvek_identity identity;
    uint8_t out[HARSOLVEK_MESSAGE_MOST];
    size_t written;
    uint8_t number;
    if (s->steady) {
        receiver.limit = 100 + choice_below(from, 900);
        indoor.limit = receiver.limit * (4 + choice_below(from, 7));
        receiver.resends = HARSOLVEK_RESENDS_MOST;
        indoor.resends = HARSOLVEK_RESENDS_MOST;
    }
    identity = some_identity(s, &release);
    number = harsolvek_receiver_start(&s->receiver, &receiver, &identity, s->capacity);
    if (number == HARSOLVEK_TAKEN) {
        number = harsolvek_indoor_start(&s->indoor, &indoor, &release, s->file, s->length, out,
                                        sizeof out, &written);
        put(s, &s->requests, out, written);
    }
    return number == HARSOLVEK_TAKEN ? NULL : "an end does not start";
}

const char *line_start(line_session *s, uint64_t seed)
{
    static const uint32_t kinds[] = {
        LINE_LOSSY, LINE_LOSSY, LINE_LOSSY, LINE_LOSSY, LINE_LOSSY,    LINE_LOSSY,   LINE_CLEAN,
        LINE_CLEAN, LINE_CLEAN, LINE_OLD,   LINE_SMALL, LINE_UNSIGNED, LINE_UNSIGNED};
    memset(s, 0, sizeof *s);
    s->seed = seed;
    choice_seed(&s->choices, seed);
    s->kind = (enum line_kind)CHOICE_OF(&s->choices, kinds);
    draw_memory(s);
    draw_rates(s);
    return start_ends(s);
}

static uint32_t some_verdict(line_session *s)
{
    if (chance(s, s->rates.later)) {
        return HARSOLVEK_VERDICT_LATER;
    }
    if (s->kind == LINE_UNSIGNED) {
        return HARSOLVEK_VERDICT_BAD;
    }
    if (s->always_good || (harsolvek_receiver_bytes(&s->receiver) == s->length &&
                           memcmp(s->image, s->file, s->length) == 0)) {
        return HARSOLVEK_VERDICT_GOOD;
    }
    return HARSOLVEK_VERDICT_BAD;
}

static void request_arrives(line_session *s, const line_message *request)
{
    const uint32_t wait = 1 + choice_below(&s->choices, HARSOLVEK_WAIT_MOST);
    harsolvek_given given;
    uint8_t out[HARSOLVEK_MESSAGE_MOST];
    size_t written;
    given.readiness = chance(s, s->rates.unready) ? wait : 0;
    given.later = 1 + choice_below(&s->choices, HARSOLVEK_WAIT_MOST);
    given.verdict = some_verdict(s);
    s->answered = harsolvek_receiver_request(&s->receiver, s->image, s->capacity, request->bytes,
                                             request->length, &given, out, sizeof out, &written);
    put(s, &s->responses, out, written);
}

static void response_arrives(line_session *s, const line_message *response)
{
    uint8_t out[HARSOLVEK_MESSAGE_MOST];
    size_t written;
    s->answered = harsolvek_indoor_response(&s->indoor, s->file, s->length, response->bytes,
                                            response->length, out, sizeof out, &written);
    put(s, &s->requests, out, written);
}

/* Steady clocks go on by up to the receiver's limit; others by anything that a call takes, and
 * often to a limit exactly. */
static uint32_t some_time(line_session *s)
{
    choice *from = &s->choices;
    const uint32_t receiver_limit = harsolvek_receiver_settings(&s->receiver).limit;
    const uint32_t indoor_limit = harsolvek_indoor_settings(&s->indoor).limit;
    const uint32_t times[] = {receiver_limit, indoor_limit, choice_below(from, indoor_limit),
                              choice_below(from, 65536), choice_below(from, UINT32_MAX)};
    return s->steady ? 1 + choice_below(from, receiver_limit) : CHOICE_OF(from, times);
}

static void pass_time(line_session *s)
{
    const uint32_t elapsed = some_time(s);
    const uint32_t spared = choice_below(&s->choices, 3);
    uint8_t out[HARSOLVEK_MESSAGE_MOST];
    size_t written;
    if (spared != 1) {
        s->answered = harsolvek_receiver_time(&s->receiver, elapsed, out, sizeof out, &written);
        put(s, &s->responses, out, written);
    }
    if (spared != 2 && s->answered == HARSOLVEK_TAKEN) {
        s->answered = harsolvek_indoor_time(&s->indoor, s->file, s->length, elapsed, out,
                                            sizeof out, &written);
        put(s, &s->requests, out, written);
    }
}

static void move(line_session *s)
{
    line_flight *way = &s->requests;
    unsigned at;
    if (way->count == 0 || (s->responses.count > 0 && choice_one_in(&s->choices, 2))) {
        way = &s->responses;
    }
    if (chance(s, s->rates.loss)) {
        take_out(way, choice_below(&s->choices, way->count));
        s->counts.lost++;
        return;
    }
    at = chance(s, s->rates.reorder) ? choice_below(&s->choices, way->count) : 0;
    s->counts.reordered += at > 0;
    s->arrived = way->messages[at];
    if (chance(s, s->rates.repeat)) {
        s->counts.repeated++;
    } else {
        take_out(way, at);
    }
    if (way == &s->requests) {
        request_arrives(s, &s->arrived);
    } else {
        response_arrives(s, &s->arrived);
    }
}

void line_step(line_session *s)
{
    s->counts.steps++;
    s->arrived.length = 0;
    s->answered = HARSOLVEK_TAKEN;
    if (line_is_still(s) || chance(s, s->rates.delay)) {
        pass_time(s);
    } else {
        move(s);
    }
    s->sum_answered = harsolvek_receiver_sum(&s->receiver, s->image, s->capacity, &s->sum);
}
