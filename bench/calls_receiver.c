/*
 * The receiver's rows (01, The receiver's phases). Its image memory has the most bytes there are.
 */
#include <string.h>

#include "bench.h"

/* 001 T5-3. */
enum { GET_FW_ID = 0x81, INITIATE = 0x82, DATA = 0x83, VALIDATE = 0x85 };

/* The words of a session that are set: what include/harsolvek.h reads as these. */
enum { BLOCKS = 4, BYTES = 5, LAST_SHORT = 6 };

/* The block that is due in Transfer, and the last whole one there is. */
enum { DUE = 5, LATE = 4094 };

/* The bytes of a counting image, modulo 65,536: 4,096 times 0 to 255, but for the last 255. */
enum { SUM = 65281 };

static uint8_t image[HARSOLVEK_IMAGE_MOST];
static uint8_t request[HARSOLVEK_MESSAGE_MOST];
static size_t request_length;
static harsolvek_receiver library;
static harsolvek_receiver library_saved;
static second_receiver second;
static second_receiver second_saved;

static void set_request(uint8_t type, size_t length)
{
    request[0] = 0x01;
    request[1] = type;
    request_length = length;
}

static void set_data(unsigned number, size_t length)
{
    set_request(DATA, 4 + length);
    request[2] = (uint8_t)(number & 0xFF);
    request[3] = (uint8_t)(number >> 8);
    memset(request + 4, 0x55, length);
}

static void library_request(int call)
{
    static const harsolvek_given given = {0, HARSOLVEK_VERDICT_GOOD, 0};

    library = library_saved;
    BENCH_BARRIER();
    if (call) {
        bench_answered.number =
            harsolvek_receiver_request(&library, image, sizeof image, request, request_length,
                                       &given, bench_out, sizeof bench_out, &bench_answered.value);
    }
}

static void second_request(int call)
{
    second = second_saved;
    BENCH_BARRIER();
    if (call) {
        bench_answered.number = second_receiver_request(
            &second, image, sizeof image, request, request_length, 0, SECOND_VERDICT_GOOD, 0,
            bench_out, sizeof bench_out, &bench_answered.value);
    }
}

static void library_time(int call)
{
    library = library_saved;
    BENCH_BARRIER();
    if (call) {
        bench_answered.number = harsolvek_receiver_time(&library, 10, bench_out, sizeof bench_out,
                                                        &bench_answered.value);
    }
}

static void second_time(int call)
{
    second = second_saved;
    BENCH_BARRIER();
    if (call) {
        bench_answered.number =
            second_receiver_time(&second, 10, bench_out, sizeof bench_out, &bench_answered.value);
    }
}

static void library_sum(int call)
{
    library = library_saved;
    BENCH_BARRIER();
    if (call) {
        uint16_t sum;

        bench_answered.number = harsolvek_receiver_sum(&library, image, sizeof image, &sum);
        bench_answered.value = sum;
    }
}

static void second_sum(int call)
{
    second = second_saved;
    BENCH_BARRIER();
    if (call) {
        unsigned sum;

        bench_answered.number = second_receiver_sum(&second, image, sizeof image, &sum);
        bench_answered.value = sum;
    }
}

/* Both take the message in `request`; the row's call is then made from the state this leaves. */
static void take(void)
{
    library_request(1);
    bench_taken(bench_answered.number);
    second_request(1);
    bench_taken(bench_answered.number);
    library_saved = library;
    second_saved = second;
}

static void library_start(int call)
{
    static const harsolvek_settings settings = {1000, 3};
    static const harsolvek_identity identity = {
        0x1234, 0xABCD, 1, 0x20, {0x0102, 0x0304, 0x0506, 0x0708}, 1, 0x0F, 0x03, 0x1F, 0x0F};

    BENCH_BARRIER();
    if (call) {
        bench_answered.number =
            harsolvek_receiver_start(&library, &settings, &identity, sizeof image);
    }
}

static void second_start(int call)
{
    static const uint8_t identity[19] = {0x34, 0x12, 0xCD, 0xAB, 1, 0x20, 0x02, 0x01, 0x04, 0x03,
                                         0x06, 0x05, 0x08, 0x07, 1, 0x0F, 0x03, 0x1F, 0x0F};

    BENCH_BARRIER();
    if (call) {
        bench_answered.number = second_receiver_start(&second, 1000, 3, identity, sizeof image);
    }
}

static void start(void)
{
    library_start(1);
    bench_taken(bench_answered.number);
    second_start(1);
    bench_taken(bench_answered.number);
    library_saved = library;
    second_saved = second;
}

static void ready_get_fw_id(void)
{
    start();
    set_request(GET_FW_ID, 2);
}

static void ready_initiate(void)
{
    start();
    set_request(INITIATE, 10);
}

static void enter_transfer(void)
{
    unsigned number;

    ready_initiate();
    take();
    for (number = 0; number < DUE; number++) {
        set_data(number, HARSOLVEK_BLOCK_MOST);
        take();
    }
}

static void ready_data(void)
{
    enter_transfer();
    set_data(DUE, HARSOLVEK_BLOCK_MOST);
}

/* The same near the end of the image. The counts are set, which saves sending all blocks before. */
static void ready_data_late(void)
{
    enter_transfer();
    library_saved.word[BLOCKS] = LATE;
    library_saved.word[BYTES] = LATE * HARSOLVEK_BLOCK_MOST;
    second_saved.blocks = LATE;
    second_saved.bytes = LATE * HARSOLVEK_BLOCK_MOST;
    set_data(LATE, HARSOLVEK_BLOCK_MOST);
}

static void ready_not_due(void)
{
    enter_transfer();
    set_data(DUE - 1, HARSOLVEK_BLOCK_MOST);
}

static void ready_validate(void)
{
    enter_transfer();
    set_data(DUE, 0);
    take();
    set_request(VALIDATE, 2);
}

/* The counts of a full image are set too. */
static void ready_sum(void)
{
    size_t i;

    enter_transfer();
    library_saved.word[BLOCKS] = 4096;
    library_saved.word[BYTES] = sizeof image;
    library_saved.word[LAST_SHORT] = 1;
    second_saved.blocks = 4096;
    second_saved.bytes = sizeof image;
    second_saved.last_short = 1;
    for (i = 0; i < sizeof image; i++) {
        image[i] = (uint8_t)(i & 0xFF);
    }
}

const bench_row bench_receiver_rows[] = {
    {"data", ready_data, library_request, second_request, {0, 7}},
    {"data-late", ready_data_late, library_request, second_request, {0, 7}},
    {"not-due", ready_not_due, library_request, second_request, {22, 7}},
    {"validate", ready_validate, library_request, second_request, {0, 5}},
    {"get-fw-id", ready_get_fw_id, library_request, second_request, {0, 22}},
    {"initiate", ready_initiate, library_request, second_request, {0, 7}},
    {"receiver-time", enter_transfer, library_time, second_time, {0, 0}},
    {"sum", ready_sum, library_sum, second_sum, {0, SUM}},
    {"receiver-start", start, library_start, second_start, {0, 0}},
    {NULL, NULL, NULL, NULL, {0, 0}}};
