#include <string.h>

#include "draw.h"
#include "drive.h"
#include "harsolvek.h"
#include "lent.h"

enum { RECORDING_MOST = 64, OUT_MOST = 20, KINDS = 4 };

enum kind { READ, WRITE, LINE, STOP };

/* The inputs of one call; the recording, and the record that is to be written, are in lent
 * memory. */
typedef struct call {
    enum kind kind;
    size_t at; /* of a read */
    uint32_t cci;
    uint8_t number; /* of a line */
    size_t out_length;
    int raw; /* the library's own symbol is called, and not the header's function around it */
    int null;
} call;

typedef struct answer {
    uint64_t number; /* what is found, for a read */
    size_t place;    /* where the next record begins, for a read; else how much is written */
} answer;

LENT_ARENAS(uint8_t, recording_arenas, RECORDING_MOST);
LENT_ARENAS(uint32_t, record_arenas, sizeof(harsolvek_record));
LENT_ARENAS(size_t, place_arenas, sizeof(size_t));
LENT_ARENAS(uint8_t, out_arenas, OUT_MOST);

static struct {
    size_t length; /* of the recording */
    size_t next;   /* where its next record begins */
    int ended;     /* there is none */
    call made;
    answer said[COMPARE_SIDES];
    lent recording;
    lent record;
    lent place; /* a size_t */
    lent out;
} session;

static harsolvek_record *record_of(uint8_t *copy)
{
    return (harsolvek_record *)(void *)copy;
}

static size_t *place_of(uint8_t *copy)
{
    return (size_t *)(void *)copy;
}

static void print_call(FILE *to)
{
    static const char *const names[] = {"read", "write", "line", "stop"};
    const call *made = &session.made;
    fprintf(to, "  %s: at %lu, CCI %08lX, number %u, output %lu, %s\n", names[made->kind],
            (unsigned long)made->at, (unsigned long)made->cci, made->number,
            (unsigned long)made->out_length, made->raw ? "raw" : "by the header's function");
    lent_print(to, "recording", session.recording.before, session.length);
    lent_print(to, "record before", session.record.before, sizeof(harsolvek_record));
}

static void print_answer(FILE *to, enum compare_side side)
{
    const int library = side == COMPARE_LIBRARY;
    const answer *given = &session.said[side];
    fprintf(to, "  number %lu, next place or written %lu\n", (unsigned long)given->number,
            (unsigned long)given->place);
    lent_print(to, "record", library ? session.record.library : session.record.second,
               sizeof(harsolvek_record));
    lent_print(to, "output buffer", library ? session.out.library : session.out.second,
               session.made.out_length);
}

/* A record is lent to be written through by a read, and else to read. */
static const char *difference(void)
{
    const answer *second = &session.said[COMPARE_SECOND];
    const int read = session.made.kind == READ;
    if (session.said[COMPARE_LIBRARY].number != second->number) {
        return "number";
    }
    if (!lent_kept(&session.place, sizeof(size_t), 0, sizeof(size_t))) {
        return read ? "next place" : "written";
    }
    if (!lent_kept(&session.record, sizeof(harsolvek_record), 0,
                   read ? sizeof(harsolvek_record) : 0)) {
        return "record";
    }
    if (!lent_kept(&session.recording, session.length, 0, 0)) {
        return "recording";
    }
    return lent_kept(&session.out, session.made.out_length, 0, read ? 0 : second->place)
               ? NULL
               : "output buffer";
}

/* ---- The library ---- */

static uint64_t ask_raw(const uint8_t *recording, harsolvek_record *record, uint8_t *out,
                        size_t *place)
{
    const call *made = &session.made;
    switch (made->kind) {
    case READ:
        return harsolvek_record_read_raw(recording, session.length, made->at, &record->kind,
                                         &record->reason, &record->connector, &record->length,
                                         record->control, place);
    case WRITE:
        return harsolvek_record_write_raw(record->kind, record->reason, record->connector,
                                          record->length, record->control, out, made->out_length,
                                          place);
    case LINE:
        return harsolvek_record_line_raw(made->cci, made->number, out, made->out_length, place);
    default:
        return harsolvek_record_stop_raw(out, made->out_length, place);
    }
}

static uint64_t ask_header(const uint8_t *recording, harsolvek_record *record, uint8_t *out,
                           size_t *place)
{
    const call *made = &session.made;
    switch (made->kind) {
    case READ:
        return harsolvek_record_read(recording, session.length, made->at, record, place);
    case WRITE:
        return harsolvek_record_write(record, out, made->out_length, place);
    case LINE:
        return harsolvek_record_line(made->cci, made->number, out, made->out_length, place);
    default:
        return harsolvek_record_stop(out, made->out_length, place);
    }
}

static unsigned ask_library(void)
{
    const call *made = &session.made;
    const uint8_t *recording = lent_or_null(session.recording.library, session.length, made->null);
    uint8_t *out = lent_or_null(session.out.library, made->out_length, made->null);
    harsolvek_record *record = record_of(session.record.library);
    size_t *place = place_of(session.place.library);
    answer *given = &session.said[COMPARE_LIBRARY];
    given->number = made->raw ? ask_raw(recording, record, out, place)
                              : ask_header(recording, record, out, place);
    given->place = *place;
    return given->number < 256 ? (unsigned)given->number : 256;
}

/* ---- The second one ---- */

static int ask_second_read(harsolvek_record *record, size_t *place)
{
    second_record found;
    const enum second_found number = second_record_read(session.recording.second, session.length,
                                                        session.made.at, &found, place);
    record->kind = found.kind;
    record->reason = (uint16_t)found.reason;
    record->connector = (uint8_t)found.connector;
    record->length = (uint8_t)found.length;
    memcpy(record->control, found.control, sizeof record->control);
    return (int)number;
}

static int ask_second_write(const harsolvek_record *record, size_t *place)
{
    second_record given;
    given.kind = record->kind;
    given.reason = record->reason;
    given.connector = record->connector;
    given.length = record->length;
    memcpy(given.control, record->control, sizeof given.control);
    return second_record_write(&given, session.out.second, session.made.out_length, place);
}

static int ask_second_number(harsolvek_record *record, size_t *place)
{
    const call *made = &session.made;
    switch (made->kind) {
    case READ:
        return ask_second_read(record, place);
    case WRITE:
        return ask_second_write(record, place);
    case LINE:
        return second_record_line(made->cci, made->number, session.out.second, made->out_length,
                                  place);
    default:
        return second_record_stop(session.out.second, made->out_length, place);
    }
}

static void ask_second(void)
{
    answer *given = &session.said[COMPARE_SECOND];
    size_t *place = place_of(session.place.second);
    given->number = (uint64_t)ask_second_number(record_of(session.record.second), place);
    given->place = *place;
}

/* ---- Inputs ---- */

/* Nothing of the call before is left. */
static void draw_next(compare_run *run, enum kind kind)
{
    const size_t put = session.made.kind == READ ? 0 : session.said[COMPARE_SECOND].place;
    lent_wipe(&session.out, put, (uint8_t)run->made);
    lent_wipe(&session.place, sizeof(size_t), 0xA5);
    lent_wipe(&session.record, sizeof(harsolvek_record), (uint8_t)run->made);
    memset(&session.made, 0, sizeof session.made);
    memset(session.said, 0, sizeof session.said);
    session.made.kind = kind;
    session.made.raw = choice_one_in(&run->from, 4);
    session.made.null = choice_one_in(&run->from, 2);
}

static uint8_t draw_kind_byte(choice *from)
{
    static const uint32_t unknown[] = {0, 5, 255, 129};
    return (uint8_t)(choice_one_in(from, 24) ? CHOICE_OF(from, unknown)
                                             : 1 + choice_below(from, KINDS));
}

/* Records of noise one behind the other, mostly of known kinds and mostly whole. */
static void draw_recording(choice *from)
{
    static const size_t sizes[] = {1, 9, 4, 2, 1};
    uint8_t *bytes = session.recording.before;
    size_t most = choice_below(from, RECORDING_MOST + 1);
    size_t length = 0;
    draw_noise(from, bytes, RECORDING_MOST);
    while (length < most) {
        const uint8_t kind = draw_kind_byte(from);
        const size_t size = sizes[kind <= KINDS ? kind : 0];
        bytes[length] = kind;
        if (length + size > most && !choice_one_in(from, 3)) {
            break;
        }
        length += size;
    }
    session.length = length < most ? length : most;
    lent_spread(&session.recording, RECORDING_MOST);
    session.next = 0;
    session.ended = 0;
}

/* Mostly where the next record begins; else anywhere, also behind the end. */
static size_t draw_place(choice *from)
{
    const size_t places[] = {choice_below(from, (uint32_t)session.length + 2),
                             session.length,
                             session.length + 1,
                             session.next + (size_t)UINT32_MAX + 1,
                             SIZE_MAX,
                             SIZE_MAX - choice_below(from, 9)};
    return choice_one_in(from, 8) ? places[choice_below(from, 6)] : session.next;
}

static void draw_record(choice *from)
{
    harsolvek_record *record = record_of(session.record.before);
    draw_noise(from, session.record.before, sizeof *record);
    record->kind = draw_kind_byte(from);
    if (choice_one_in(from, 24)) {
        record->kind = draw_cut(from, record->kind, 8);
    }
    lent_spread(&session.record, sizeof *record);
}

static void draw_line(choice *from, call *made)
{
    const uint32_t numbers[] = {choice_below(from, 10), choice_below(from, 100), 99, 100, 255,
                                choice_below(from, 256)};
    uint8_t noise[4];
    draw_noise(from, noise, sizeof noise);
    made->cci = (uint32_t)noise[0] | (uint32_t)noise[1] << 8 | (uint32_t)noise[2] << 16 |
                (uint32_t)noise[3] << 24;
    made->cci >>= choice_one_in(from, 3) ? choice_below(from, 32) : 0;
    made->number = (uint8_t)CHOICE_OF(from, numbers);
}

static size_t draw_room(choice *from, uint32_t most)
{
    const uint32_t lengths[] = {most - 1, 0, 1, most + 1, choice_below(from, OUT_MOST + 1)};
    return choice_one_in(from, 8) ? CHOICE_OF(from, lengths) : most;
}

static void draw_call(compare_run *run)
{
    static const enum kind kinds[] = {READ, READ, READ, WRITE, WRITE, LINE, LINE, STOP};
    choice *from = &run->from;
    call *made = &session.made;
    draw_next(run, kinds[choice_below(from, 8)]);
    switch (made->kind) {
    case READ:
        made->at = draw_place(from);
        break;
    case WRITE:
        draw_record(from);
        made->out_length = draw_room(from, HARSOLVEK_RECORD_MOST);
        break;
    case LINE:
        draw_line(from, made);
        made->out_length = draw_room(from, HARSOLVEK_LINE_MOST);
        break;
    default:
        made->out_length = draw_room(from, HARSOLVEK_LINE_MOST);
        break;
    }
}

/* Another recording, of which the first record is read. */
static void draw_start(compare_run *run)
{
    draw_recording(&run->from);
    draw_next(run, READ);
}

static int over(choice *from)
{
    return choice_one_in(from, session.ended ? 4 : 60);
}

/* ---- The calls ---- */

static void begin(void)
{
    memset(&session, 0, sizeof session);
    lent_lay(&session.recording, recording_arenas, sizeof recording_arenas, 3);
    lent_lay(&session.record, record_arenas, sizeof record_arenas, 4);
    lent_lay(&session.place, place_arenas, sizeof place_arenas, 0);
    lent_lay(&session.out, out_arenas, sizeof out_arenas, 5);
    lent_fill(&session.recording, RECORDING_MOST, 0xA5);
    lent_fill(&session.record, sizeof(harsolvek_record), 0xA5);
    lent_fill(&session.place, sizeof(size_t), 0xA5);
    lent_fill(&session.out, OUT_MOST, 0xA5);
}

static void count(coverage *met, uint32_t kind, unsigned column)
{
    coverage_pair(met, kind >= 1 && kind <= KINDS ? kind - 1 : KINDS, column);
}

static void settle(compare_run *run)
{
    const call *made = &session.made;
    if (made->kind == WRITE) {
        count(&run->met, record_of(session.record.before)->kind, COVERAGE_WRITTEN);
    } else if (made->kind == READ && made->at < session.length) {
        count(&run->met, session.recording.before[made->at], COVERAGE_READ);
    }
    if (made->kind == READ && made->at == session.next) {
        session.ended = session.said[COMPARE_LIBRARY].number != HARSOLVEK_FOUND_RECORD;
        session.next = session.said[COMPARE_LIBRARY].place;
    }
}

const compare_part drive_recording = {
    SECOND_PART_RECORDING, begin,      over,       draw_start, draw_call, NULL,
    ask_library,           ask_second, difference, NULL,       settle,    print_call,
    print_answer};
