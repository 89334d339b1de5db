/*
 * The rows of the records (01, Replay program).
 */
#include "bench.h"

/* A write of CONTROL, which is the longest record. */
static const uint8_t recording[HARSOLVEK_RECORD_MOST] = {1, 0x12, 0, 0x02};

static harsolvek_record library_record;
static second_record second_held;

static void library_read(int call)
{
    BENCH_BARRIER();
    if (call) {
        bench_answered.number = (int)harsolvek_record_read(recording, sizeof recording, 0,
                                                           &library_record, &bench_answered.value);
    }
}

static void second_read(int call)
{
    BENCH_BARRIER();
    if (call) {
        bench_answered.number = (int)second_record_read(recording, sizeof recording, 0,
                                                        &second_held, &bench_answered.value);
    }
}

static void library_write(int call)
{
    BENCH_BARRIER();
    if (call) {
        bench_answered.number = harsolvek_record_write(&library_record, bench_out, sizeof bench_out,
                                                       &bench_answered.value);
    }
}

static void second_write(int call)
{
    BENCH_BARRIER();
    if (call) {
        bench_answered.number =
            second_record_write(&second_held, bench_out, sizeof bench_out, &bench_answered.value);
    }
}

static void library_line(int call)
{
    BENCH_BARRIER();
    if (call) {
        bench_answered.number = harsolvek_record_line(0x80000904, 0, bench_out, sizeof bench_out,
                                                      &bench_answered.value);
    }
}

static void second_line(int call)
{
    BENCH_BARRIER();
    if (call) {
        bench_answered.number =
            second_record_line(0x80000904, 0, bench_out, sizeof bench_out, &bench_answered.value);
    }
}

static void library_stop(int call)
{
    BENCH_BARRIER();
    if (call) {
        bench_answered.number =
            harsolvek_record_stop(bench_out, sizeof bench_out, &bench_answered.value);
    }
}

static void second_stop(int call)
{
    BENCH_BARRIER();
    if (call) {
        bench_answered.number =
            second_record_stop(bench_out, sizeof bench_out, &bench_answered.value);
    }
}

static void ready(void)
{
    library_read(1);
    bench_taken(bench_answered.number);
    second_read(1);
    bench_taken(bench_answered.number);
}

const bench_row bench_recording_rows[] = {
    {"record-read", ready, library_read, second_read, {0, HARSOLVEK_RECORD_MOST}},
    {"record-write", ready, library_write, second_write, {0, HARSOLVEK_RECORD_MOST}},
    {"record-line", ready, library_line, second_line, {0, 11}},
    {"record-stop", ready, library_stop, second_stop, {0, 5}},
    {NULL, NULL, NULL, NULL, {0, 0}}};
