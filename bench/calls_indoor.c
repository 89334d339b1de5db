/*
 * The indoor end's rows (01, The indoor end's phases). Its file has the most bytes there are.
 */
#include <string.h>

#include "bench.h"

static uint8_t file[HARSOLVEK_IMAGE_MOST];
static uint8_t response[HARSOLVEK_MESSAGE_MOST];
static size_t response_length;
static harsolvek_indoor library;
static harsolvek_indoor library_saved;
static second_indoor second;
static second_indoor second_saved;

static void set_response(const uint8_t *bytes, size_t length)
{
    memcpy(response, bytes, length);
    response_length = length;
}

static void library_response(int call)
{
    library = library_saved;
    BENCH_BARRIER();
    if (call) {
        bench_answered.number =
            harsolvek_indoor_response(&library, file, sizeof file, response, response_length,
                                      bench_out, sizeof bench_out, &bench_answered.value);
    }
}

static void second_response(int call)
{
    second = second_saved;
    BENCH_BARRIER();
    if (call) {
        bench_answered.number =
            second_indoor_response(&second, file, sizeof file, response, response_length, bench_out,
                                   sizeof bench_out, &bench_answered.value);
    }
}

static void library_time(int call)
{
    library = library_saved;
    BENCH_BARRIER();
    if (call) {
        bench_answered.number = harsolvek_indoor_time(&library, file, sizeof file, 10, bench_out,
                                                      sizeof bench_out, &bench_answered.value);
    }
}

static void second_time(int call)
{
    second = second_saved;
    BENCH_BARRIER();
    if (call) {
        bench_answered.number = second_indoor_time(&second, file, sizeof file, 10, bench_out,
                                                   sizeof bench_out, &bench_answered.value);
    }
}

/* Both take the message in `response`; the row's call is then made from the state this leaves. */
static void take(void)
{
    library_response(1);
    bench_taken(bench_answered.number);
    second_response(1);
    bench_taken(bench_answered.number);
    library_saved = library;
    second_saved = second;
}

static void library_start(int call)
{
    static const harsolvek_settings settings = {1000, 3};
    static const harsolvek_release release = {0x1234, 0xABCD, {2, 0, 0, 0}};

    BENCH_BARRIER();
    if (call) {
        bench_answered.number =
            harsolvek_indoor_start(&library, &settings, &release, file, sizeof file, bench_out,
                                   sizeof bench_out, &bench_answered.value);
    }
}

static void second_start(int call)
{
    static const unsigned version[4] = {2, 0, 0, 0};

    BENCH_BARRIER();
    if (call) {
        bench_answered.number =
            second_indoor_start(&second, 1000, 3, 0x1234, 0xABCD, version, file, sizeof file,
                                bench_out, sizeof bench_out, &bench_answered.value);
    }
}

static void start(void)
{
    library_start(1);
    bench_taken(bench_answered.number);
    second_start(1);
    bench_taken(bench_answered.number);
    library_saved = library;
    second_saved = second;
}

/* 001 T5-18, T5-20 and T5-22: an older version, room for the whole file, and the first block asked
 * for. */
static void enter_transfer(void)
{
    static const uint8_t identity[22] = {1, 1, 0, 0x34, 0x12, 0xCD, 0xAB, 0, 0, 1};
    static const uint8_t ready[7] = {1, 2, 0, 0, 0xFF, 0xFF, 0x0F};
    static const uint8_t first[7] = {1, 3, 0, 0, 0, 1, 0};

    start();
    set_response(identity, sizeof identity);
    take();
    set_response(ready, sizeof ready);
    take();
    set_response(first, sizeof first);
    take();
}

static void ready_response(void)
{
    static const uint8_t next[7] = {1, 3, 0, 0, 0, 2, 0};

    enter_transfer();
    set_response(next, sizeof next);
}

/* The last whole block there is, number 4,094. */
static void ready_response_late(void)
{
    static const uint8_t late[7] = {1, 3, 0, 0, 0, 0xFE, 0x0F};

    enter_transfer();
    set_response(late, sizeof late);
}

const bench_row bench_indoor_rows[] = {
    {"response", ready_response, library_response, second_response, {0, 260}},
    {"response-late", ready_response_late, library_response, second_response, {0, 260}},
    {"indoor-time", enter_transfer, library_time, second_time, {0, 0}},
    {"indoor-start", start, library_start, second_start, {0, 2}},
    {NULL, NULL, NULL, NULL, {0, 0}}};
