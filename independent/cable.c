#include "cable.h"

#include <string.h>

enum { WORDS_MOST = SECOND_RECEIVER_WORDS };

/* Only one end is driven at a time, and each begins by filling these. */
LENT_ARENAS(uint32_t, state_arenas, WORDS_MOST * sizeof(uint32_t));
LENT_ARENAS(uint8_t, message_arenas, DRAW_MESSAGE_MOST);
LENT_ARENAS(uint8_t, out_arenas, DRAW_OUT_MOST);
LENT_ARENAS(size_t, written_arenas, sizeof(size_t));

uint32_t *cable_words(uint8_t *copy)
{
    return (uint32_t *)(void *)copy;
}

static size_t state_size(const cable *on)
{
    return on->words * sizeof(uint32_t);
}

static void lay_state(cable *on, size_t shift)
{
    lent_lay(&on->state, state_arenas, sizeof state_arenas, shift);
    lent_fill(&on->state, state_size(on), 0xA5);
}

void cable_begin(cable *on, const char *memory_name, const char *message_name, uint32_t words)
{
    memset(on, 0, sizeof *on);
    on->memory_name = memory_name;
    on->message_name = message_name;
    on->words = words;
    lay_state(on, 0);
    lent_lay(&on->message, message_arenas, sizeof message_arenas, 3);
    lent_lay(&on->out, out_arenas, sizeof out_arenas, 5);
    lent_lay(&on->written, written_arenas, sizeof written_arenas, 0);
    lent_fill(&on->message, DRAW_MESSAGE_MOST, 0xA5);
    lent_fill(&on->out, DRAW_OUT_MOST, 0xA5);
    lent_fill(&on->written, sizeof(size_t), 0xA5);
}

void cable_next(cable *on, compare_run *run, enum cable_kind kind)
{
    lent_wipe(&on->out, on->said[COMPARE_SECOND].written, (uint8_t)run->made);
    lent_wipe(&on->written, sizeof(size_t), 0xA5);
    memset(on->said, 0, sizeof on->said);
    memset(&on->made, 0, sizeof on->made);
    on->made.kind = kind;
    on->made.raw = choice_one_in(&run->from, 4);
}

void cable_draw(cable *on, compare_run *run, enum cable_kind kind, size_t memory_length)
{
    cable_next(on, run, kind);
    on->made.memory_length = memory_length;
    on->made.out_length = draw_out_length(&run->from);
    on->made.null = choice_one_in(&run->from, 2);
}

void cable_spread(const cable *on)
{
    lent_spread(&on->state, state_size(on));
}

void cable_move(cable *on, choice *from)
{
    lay_state(on, sizeof(uint32_t) * choice_below(from, LENT_SHIFTS / sizeof(uint32_t)));
}

void cable_draw_message(cable *on, choice *from, size_t (*rest)(choice *from, uint8_t *bytes))
{
    uint8_t *bytes = on->message.before;
    size_t length;
    draw_noise(from, bytes, DRAW_MESSAGE_MOST);
    bytes[0] = 0x01;
    length = rest(from, bytes);
    on->made.message_length = choice_one_in(from, 12) ? draw_slip(from, bytes, length) : length;
    lent_spread(&on->message, DRAW_MESSAGE_MOST);
}

cable_pointers cable_lend(const cable *on)
{
    const cable_call *made = &on->made;
    cable_pointers to;
    to.memory = lent_or_null(on->memory.library, made->memory_length, made->null);
    to.message = lent_or_null(on->message.library, made->message_length, made->null);
    to.out = lent_or_null(on->out.library, made->out_length, made->null);
    to.written = (size_t *)(void *)on->written.library;
    return to;
}

size_t *cable_second_written(const cable *on)
{
    return (size_t *)(void *)on->written.second;
}

/* A start of the receiver and the sum write no message, and leave what is there for its length. */
static size_t length_written(const cable *on, const uint8_t *copy)
{
    size_t length;
    memcpy(&length, copy, sizeof length);
    return memcmp(copy, on->written.before, sizeof length) == 0 ? 0 : length;
}

unsigned cable_heard(cable *on, enum compare_side side, uint64_t number, int stands)
{
    const lent *to = &on->written;
    on->said[side].number = number;
    on->said[side].written = length_written(on, side == COMPARE_LIBRARY ? to->library : to->second);
    on->said[side].stands = stands;
    return number < 256 ? (unsigned)number : 256;
}

const char *cable_difference(const cable *on)
{
    const cable_answer *library = &on->said[COMPARE_LIBRARY];
    const cable_answer *second = &on->said[COMPARE_SECOND];
    if (library->number != second->number) {
        return "number";
    }
    if (!lent_kept(&on->written, sizeof(size_t), 0, sizeof(size_t))) {
        return "written";
    }
    return library->stands != second->stands ? "answer whether the state is a session" : NULL;
}

const char *cable_wrong(const cable *on, int stands)
{
    const cable_answer *library = &on->said[COMPARE_LIBRARY];
    if (library->written > HARSOLVEK_MESSAGE_MOST || library->written > on->made.out_length ||
        !lent_held(&on->written, sizeof(size_t), 0, sizeof(size_t))) {
        return "written, which no message has";
    }
    return stands && library->stands ? NULL : "state, which is no session";
}

/* How much of the state a call may change: nothing if it only reads, or is refused with a number
 * that keeps the state at both ends (01, Numbers we answer). A start makes another one. */
static size_t may_change(const cable *on)
{
    const uint64_t number = on->said[COMPARE_LIBRARY].number;
    const int kept = on->made.kind == CABLE_SUM || number == HARSOLVEK_MALFORMED ||
                     (number >= HARSOLVEK_OUT_OF_RANGE && number <= HARSOLVEK_SETTINGS);
    return kept && on->made.kind != CABLE_START ? 0 : state_size(on);
}

/* `left` is lent_kept or lent_held; `written` is what the output buffer may have got. */
static const char *touched(const cable *on, int (*left)(const lent *, size_t, size_t, size_t),
                           size_t length, size_t at, size_t count, size_t written)
{
    if (!left(&on->state, state_size(on), 0, may_change(on))) {
        return "words of the state";
    }
    if (!left(&on->memory, length, at, count)) {
        return on->memory_name;
    }
    if (!left(&on->message, lent_part(on->made.message_length, DRAW_MESSAGE_MOST), 0, 0)) {
        return on->message_name;
    }
    return left(&on->out, lent_part(on->made.out_length, DRAW_OUT_MOST), 0, written)
               ? NULL
               : "output buffer";
}

const char *cable_kept(const cable *on, size_t length, size_t at, size_t count)
{
    return touched(on, lent_kept, length, at, count, on->said[COMPARE_SECOND].written);
}

const char *cable_held(const cable *on, size_t length, size_t at, size_t count)
{
    return touched(on, lent_held, length, at, count, on->said[COMPARE_LIBRARY].written);
}

/* A call that is refused before its phase is tested does not count for the pair. */
void cable_count(const cable *on, coverage *met, unsigned phase)
{
    const uint64_t number = on->said[COMPARE_LIBRARY].number;
    if (number >= HARSOLVEK_OUT_OF_RANGE && number <= HARSOLVEK_SETTINGS) {
        return;
    }
    if (on->made.kind == CABLE_TIME) {
        coverage_pair(met, phase, COVERAGE_TIME);
    } else if (number == HARSOLVEK_MALFORMED) {
        coverage_pair(met, phase, COVERAGE_MALFORMED);
    } else {
        coverage_pair(met, phase, coverage_type(on->message.before[1]));
    }
}

static void print_words(FILE *to, const char *name, const cable *on, const uint8_t *copy)
{
    uint32_t word[WORDS_MOST];
    memcpy(word, copy, state_size(on));
    fprintf(to, "  %s:", name);
    for (uint32_t i = 0; i < on->words; i++) {
        fprintf(to, " %lX", (unsigned long)word[i]);
    }
    fprintf(to, "\n");
}

void cable_print_call(FILE *to, const cable *on)
{
    static const char *const kinds[] = {NULL, "time", "sum", "start"};
    const cable_call *made = &on->made;
    fprintf(to, "  %s: %s %lu, elapsed %lu, output %lu, %s\n",
            made->kind == CABLE_MESSAGE ? on->message_name : kinds[made->kind], on->memory_name,
            (unsigned long)made->memory_length, (unsigned long)made->elapsed,
            (unsigned long)made->out_length, made->raw ? "raw" : "by the header's function");
    lent_print(to, on->message_name, on->message.before,
               lent_part(made->message_length, DRAW_MESSAGE_MOST));
}

void cable_print_answer(FILE *to, const cable *on, enum compare_side side)
{
    const int library = side == COMPARE_LIBRARY;
    const cable_answer *said = &on->said[side];
    fprintf(to, "  number %lu, written %lu, a session: %d\n", (unsigned long)said->number,
            (unsigned long)said->written, said->stands);
    lent_print(to, "output buffer", library ? on->out.library : on->out.second,
               lent_part(on->made.out_length, DRAW_OUT_MOST));
    print_words(to, "words", on, library ? on->state.library : on->state.second);
}
