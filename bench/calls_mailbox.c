/*
 * The mailbox's rows (01, The mailbox).
 */
#include "bench.h"

enum { CONNECTORS = 2, REASON = 2 };

/* 000 Table A-1: SET_NOTIFICATION_ENABLE of all, ACK_CC_CI of a completion, and of the second
 * connector GET_CONNECTOR_STATUS, which runs until the port reports. */
static const uint8_t enable[HARSOLVEK_CONTROL_SIZE] = {0x05, 0, 0xFF, 0xFF};
static const uint8_t acknowledge[HARSOLVEK_CONTROL_SIZE] = {0x04, 0, 0x02};
static const uint8_t status[HARSOLVEK_CONTROL_SIZE] = {0x12, 0, 0x02};

/* 000 T3-2: CCI while a command runs. */
enum { RUNNING = 0x10000000 };

static const uint8_t reported[16] = {1, 2, 3, 4, 5, 6, 7, 8, 9, 10, 11, 12, 13, 14, 15, 16};

static harsolvek_mailbox library;
static harsolvek_mailbox library_saved;
static second_mailbox second;
static second_mailbox second_saved;

/* A mailbox writes into no output buffer. */
static void put_library_back(void)
{
    library = library_saved;
    bench_answered.value = 0;
    BENCH_BARRIER();
}

static void put_second_back(void)
{
    second = second_saved;
    bench_answered.value = 0;
    BENCH_BARRIER();
}

static void library_write(int call)
{
    put_library_back();
    if (call) {
        bench_answered.number = harsolvek_mailbox_write(&library, status, sizeof status);
    }
}

static void second_write(int call)
{
    put_second_back();
    if (call) {
        bench_answered.number = second_mailbox_write(&second, status, sizeof status);
    }
}

static void library_report(int call)
{
    put_library_back();
    if (call) {
        bench_answered.number = harsolvek_mailbox_success(&library, reported, sizeof reported);
    }
}

static void second_report(int call)
{
    put_second_back();
    if (call) {
        bench_answered.number = second_mailbox_success(&second, reported, sizeof reported);
    }
}

static void library_both(int call)
{
    put_library_back();
    if (call && harsolvek_mailbox_write(&library, status, sizeof status) == 0) {
        bench_answered.number = harsolvek_mailbox_success(&library, reported, sizeof reported);
    }
}

static void second_both(int call)
{
    put_second_back();
    if (call && second_mailbox_write(&second, status, sizeof status) == 0) {
        bench_answered.number = second_mailbox_success(&second, reported, sizeof reported);
    }
}

static void library_failure(int call)
{
    put_library_back();
    if (call) {
        bench_answered.number = harsolvek_mailbox_failure(&library);
    }
}

static void second_failure(int call)
{
    put_second_back();
    if (call) {
        bench_answered.number = second_mailbox_failure(&second);
    }
}

static void library_change(int call)
{
    put_library_back();
    if (call) {
        bench_answered.number = harsolvek_mailbox_change(&library, CONNECTORS, REASON);
    }
}

static void second_change(int call)
{
    put_second_back();
    if (call) {
        bench_answered.number = second_mailbox_change(&second, CONNECTORS, REASON);
    }
}

static void library_cci(int call)
{
    put_library_back();
    if (call) {
        uint32_t cci;

        bench_answered.number = harsolvek_mailbox_cci(&library, &cci);
        bench_answered.value = cci;
    }
}

static void second_cci(int call)
{
    put_second_back();
    if (call) {
        bench_answered.number = 0;
        bench_answered.value = second_mailbox_cci(&second);
    }
}

static void library_fresh(int call)
{
    put_library_back();
    if (call) {
        bench_answered.number = harsolvek_mailbox_fresh(&library, CONNECTORS);
    }
}

static void second_fresh(int call)
{
    put_second_back();
    if (call) {
        bench_answered.number = second_mailbox_fresh(&second, CONNECTORS);
    }
}

static void take(const uint8_t control[HARSOLVEK_CONTROL_SIZE])
{
    bench_taken(harsolvek_mailbox_write(&library_saved, control, HARSOLVEK_CONTROL_SIZE));
    bench_taken(second_mailbox_write(&second_saved, control, HARSOLVEK_CONTROL_SIZE));
}

static void ready_write(void)
{
    bench_taken(harsolvek_mailbox_fresh(&library_saved, CONNECTORS));
    bench_taken(second_mailbox_fresh(&second_saved, CONNECTORS));
    take(enable);
    take(acknowledge);
}

static void ready_report(void)
{
    ready_write();
    take(status);
}

const bench_row bench_mailbox_rows[] = {
    {"write", ready_write, library_write, second_write, {0, 0}},
    {"report", ready_report, library_report, second_report, {0, 0}},
    {"write-report", ready_write, library_both, second_both, {0, 0}},
    {"failure", ready_report, library_failure, second_failure, {0, 0}},
    {"change", ready_write, library_change, second_change, {0, 0}},
    {"cci", ready_report, library_cci, second_cci, {0, RUNNING}},
    {"fresh", ready_write, library_fresh, second_fresh, {0, 0}},
    {NULL, NULL, NULL, NULL, {0, 0}}};
