/*
 * An update over a cable that loses and repeats messages: the indoor end in this process, the
 * receiver in a child.
 *
 *     tools/c build update examples/c/{update,indoor,receiver,port}.c
 *     tools/c run update FILE SEED LOSS_PERCENT REPEAT_PERCENT
 *
 * (the Makefile and CMakeLists.txt beside it build it in a project of its own) sends FILE and
 * prints, say, `done: 20 requests sent, 3 lost, 2 repeated, image equals the file`.
 * The exit status is 0 only if the indoor end is Done, the receiver Good and its image the file.
 * With 7 10 10 behind FILE, each end loses one in ten of the messages that it sends and repeats one
 * in ten.
 */
#define _POSIX_C_SOURCE 200809L

#include <errno.h>
#include <poll.h>
#include <signal.h>
#include <stdio.h>
#include <stdlib.h>
#include <string.h>
#include <sys/types.h>
#include <sys/wait.h>
#include <unistd.h>

#include "indoor.h"
#include "port.h"
#include "receiver.h"

/* The indoor end's first expiry in Transfer is a failure (01, The indoor end's phases), so the
 * receiver has to heal a loss there: it asks four times before. In Await its own eleven expiries up
 * to Idle, 4,400 ms, leave room for two further VALIDATEs where the first is lost, at 2,000 and
 * 4,000 ms (docs/HAZARDS.md, part 6). The limits are this long because on a loaded machine a process
 * may stand still for a second; shorter ones in the same relations heal a loss sooner. */
#define RECEIVER_LIMIT_MS 400
#define INDOOR_LIMIT_MS   2000
#define RESENDS           HARSOLVEK_RESENDS_MOST

/* How long the child may take to hand over its image once the cable is unplugged. */
#define REPORT_MS 10000

#define VENDOR  0x1209
#define PRODUCT 0x0001

/* The receiver is on 3.1, and the file is 3.2. */
static const harsolvek_versions old_versions = {3, 1, 0, 0};
static const harsolvek_versions new_versions = {3, 2, 0, 0};

/* What the child reports of the receiver at its end; the image's accepted bytes follow it. */
typedef struct report {
    uint32_t good;
    uint32_t bytes;
    uint32_t sum;
} report;

/* One byte more than any file may have, so that one that is too long is seen. */
static uint8_t file[HARSOLVEK_IMAGE_MOST + 1];
static uint8_t image[HARSOLVEK_IMAGE_MOST];

static int write_all(int to, const void *bytes, size_t length)
{
    const uint8_t *next = bytes;
    while (length > 0) {
        const ssize_t written = write(to, next, length);
        if (written < 0 && errno != EINTR) {
            return -1;
        }
        if (written > 0) {
            next += written;
            length -= (size_t)written;
        }
    }
    return 0;
}

/* Reads until the end or until there is no more room; -1 where nothing has come for REPORT_MS. */
static ssize_t read_all(int from, void *bytes, size_t room)
{
    struct pollfd ready = {from, POLLIN, 0};
    size_t length = 0;
    while (length < room) {
        ssize_t taken;
        if (poll(&ready, 1, REPORT_MS) <= 0) {
            return -1;
        }
        taken = read(from, (uint8_t *)bytes + length, room - length);
        if (taken <= 0) {
            return taken == 0 ? (ssize_t)length : -1;
        }
        length += (size_t)taken;
    }
    return (ssize_t)length;
}

static int receiver_end(port *cable, int results)
{
    const harsolvek_settings settings = {RECEIVER_LIMIT_MS, RESENDS};
    const harsolvek_identity identity = {
        .vendor = VENDOR, .product = PRODUCT, .versions = old_versions};
    receiver here;
    report said;
    size_t bytes = 0;
    uint16_t sum = 0;
    int number = receiver_start(&here, cable, &settings, &identity, image, sizeof image);
    if (number == HARSOLVEK_TAKEN) {
        number = receiver_run(&here);
    }
    if (number != RECEIVER_UNPLUGGED) {
        fprintf(stderr, "update: the receiver answers %d\n", number);
        return 1;
    }
    said.good = receiver_image(&here, &bytes) != NULL;
    said.bytes = (uint32_t)bytes;
    (void)harsolvek_receiver_sum(&here.session, image, sizeof image, &sum);
    said.sum = sum;
    return write_all(results, &said, sizeof said) != 0 || write_all(results, image, bytes) != 0;
}

static unsigned sum_of(const uint8_t *bytes, size_t length)
{
    unsigned sum = 0;
    while (length > 0) {
        sum = (sum + bytes[--length]) % 65536;
    }
    return sum;
}

/* The words for what has come of the receiver; NULL if its image is good and equals the file. */
static const char *compare(int results, size_t length)
{
    report said;
    if (read_all(results, &said, sizeof said) != sizeof said) {
        return "the receiver has said nothing";
    }
    if (!said.good) {
        return "the image is not marked good";
    }
    if (said.bytes != length || read_all(results, image, length) != (ssize_t)length ||
        memcmp(image, file, length) != 0) {
        return "image differs from the file";
    }
    return said.sum == sum_of(file, length) ? NULL : "the sum is not the file's";
}

/* Starts and serves the indoor end; the words for how it failed, or NULL for Done. */
static const char *indoor_end(port *cable, size_t length)
{
    const harsolvek_settings settings = {INDOOR_LIMIT_MS, RESENDS};
    const harsolvek_release release = {VENDOR, PRODUCT, new_versions};
    static char words[40];
    indoor here;
    int number = indoor_start(&here, cable, &settings, &release, file, length);
    if (number == HARSOLVEK_TAKEN) {
        number = indoor_run(&here);
    }
    if (number == HARSOLVEK_TAKEN) {
        return NULL;
    }
    if (number == INDOOR_UNPLUGGED) {
        return "the receiver has gone";
    }
    snprintf(words, sizeof words, "the indoor end answers %d", number);
    return words;
}

static int tell(const char *indoor_words, const char *receiver_words, port_counts counts)
{
    const int done = indoor_words == NULL && receiver_words == NULL;
    printf("%s: ", done ? "done" : "failed");
    printf("%lu requests sent, %lu lost, %lu repeated, ", counts.sent, counts.lost,
           counts.repeated);
    if (indoor_words != NULL) {
        printf("%s, ", indoor_words);
    }
    printf("%s\n", receiver_words != NULL ? receiver_words : "image equals the file");
    return fflush(stdout) == 0 && done ? 0 : 1;
}

/* Unplugging the cable ends the child. One that does not end by itself is ended, so that nothing
 * waits for it without a limit. */
static int parent(port *cable, int results, pid_t child, size_t length)
{
    const char *indoor_words = indoor_end(cable, length);
    const char *receiver_words;
    port_close(cable);
    receiver_words = compare(results, length);
    if (receiver_words != NULL) {
        kill(child, SIGKILL);
    }
    waitpid(child, NULL, 0);
    return tell(indoor_words, receiver_words, cable->counts);
}

static int update(size_t length, port_faults faults)
{
    port indoor_port, receiver_port;
    int results[2];
    pid_t child;
    if (port_pair(&indoor_port, &receiver_port) != 0 || pipe(results) != 0 ||
        (child = fork()) < 0) {
        perror("update");
        return 1;
    }
    indoor_port.faults = faults;
    receiver_port.faults = faults;
    receiver_port.faults.seed = ~faults.seed;
    if (child == 0) {
        port_close(&indoor_port);
        close(results[0]);
        _exit(receiver_end(&receiver_port, results[1]));
    }
    port_close(&receiver_port);
    close(results[1]);
    return parent(&indoor_port, results[0], child, length);
}

static int number_in(const char *text, unsigned long most, unsigned *number)
{
    char *end;
    unsigned long value;
    errno = 0;
    value = strtoul(text, &end, 10);
    *number = (unsigned)value;
    return text[0] >= '0' && text[0] <= '9' && *end == '\0' && errno == 0 && value <= most;
}

static int load(const char *name, size_t *length)
{
    FILE *from = fopen(name, "rb");
    if (from == NULL) {
        return -1;
    }
    *length = fread(file, 1, sizeof file, from);
    if (ferror(from)) {
        fclose(from);
        return -1;
    }
    return fclose(from);
}

int main(int count, char **arguments)
{
    port_faults faults;
    size_t length;
    if (count != 5 || !number_in(arguments[2], UINT32_MAX, &faults.seed) ||
        !number_in(arguments[3], 100, &faults.loss) ||
        !number_in(arguments[4], 100, &faults.repeat)) {
        fprintf(stderr, "usage: update FILE SEED LOSS_PERCENT REPEAT_PERCENT\n");
        return 2;
    }
    if (load(arguments[1], &length) != 0) {
        perror(arguments[1]);
        return 1;
    }
    signal(SIGPIPE, SIG_IGN);
    return update(length, faults);
}
