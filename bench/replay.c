/*
 * The replay program over the second implementation (01, Replay program): plays the recording on
 * standard input on a mailbox with two connectors, and prints a line for each record. It reads and
 * writes as the proved program does, at most 64 KiB at a time and the lines of a read in one write,
 * so that the two can be compared.
 */
#define _POSIX_C_SOURCE 200809L
#include <stdio.h>
#include <string.h>
#include <unistd.h>

#include "second.h"

enum { CONNECTORS = 2, ROOM = 65536, LONGEST_LINE = 13 };

/* A record's first byte, and how many bytes it has with it. */
enum { CONTROL = 1, CHANGE = 2, SUCCESS = 3, FAILURE = 4 };
enum { CONTROL_SIZE = 9, CHANGE_SIZE = 4, SUCCESS_SIZE = 2, FAILURE_SIZE = 1 };

/* How a part of a recording ends: at its end or within a record, or at a kind that is none. */
enum ending { WHOLE, CUT, UNKNOWN };

static second_mailbox mailbox;
static uint8_t buffer[ROOM];
static char lines[ROOM * LONGEST_LINE];

/* 0 for a kind that is none. */
static size_t size_of(uint8_t kind)
{
    switch (kind) {
    case CONTROL:
        return CONTROL_SIZE;
    case CHANGE:
        return CHANGE_SIZE;
    case SUCCESS:
        return SUCCESS_SIZE;
    case FAILURE:
        return FAILURE_SIZE;
    default:
        return 0;
    }
}

/* The bytes that a port reports are not in the recording: they are zero. */
static int play(const uint8_t *record)
{
    static const uint8_t zeros[255];

    switch (record[0]) {
    case CONTROL:
        return second_mailbox_write(&mailbox, record + 1, CONTROL_SIZE - 1);
    case CHANGE:
        return second_mailbox_change(&mailbox, record[1], record[2] + 256u * record[3]);
    case SUCCESS:
        return second_mailbox_success(&mailbox, zeros, record[1]);
    default:
        return second_mailbox_failure(&mailbox);
    }
}

/* CCI in eight hex digits, a space, the number and a newline. No number of a mailbox has two
 * digits. Answers where the next line goes. */
static char *print(char *line, uint32_t cci, int number)
{
    int shift;

    for (shift = 28; shift >= 0; shift -= 4) {
        *line++ = "0123456789ABCDEF"[cci >> shift & 0xF];
    }
    *line++ = ' ';
    *line++ = (char)('0' + number);
    *line++ = '\n';
    return line;
}

static int write_all(const char *text, size_t length)
{
    while (length > 0) {
        ssize_t done = write(STDOUT_FILENO, text, length);

        if (done < 0) {
            perror("write");
            return 0;
        }
        text += done;
        length -= (size_t)done;
    }
    return 1;
}

/* Plays the whole records among the first `filled` bytes. Answers how many bytes they have. */
static size_t play_part(size_t filled, enum ending *ending, char **end)
{
    size_t at = 0;

    *end = lines;
    *ending = WHOLE;
    while (at < filled) {
        size_t size = size_of(buffer[at]);
        int number;

        if (size == 0 || size > filled - at) {
            *ending = size == 0 ? UNKNOWN : CUT;
            break;
        }
        number = play(buffer + at);
        *end = print(*end, second_mailbox_cci(&mailbox), number);
        at += size;
    }
    return at;
}

int main(void)
{
    enum ending ending = WHOLE;
    size_t held = 0;

    second_mailbox_fresh(&mailbox, CONNECTORS);
    while (ending != UNKNOWN) {
        ssize_t got = read(STDIN_FILENO, buffer + held, sizeof buffer - held);
        size_t filled;
        size_t played;
        char *end;

        if (got < 0) {
            perror("read");
            return 1;
        }
        if (got == 0) {
            break;
        }
        filled = held + (size_t)got;
        played = play_part(filled, &ending, &end);
        if (!write_all(lines, (size_t)(end - lines))) {
            return 1;
        }
        held = filled - played;
        memmove(buffer, buffer + played, held);
    }
    return ending == WHOLE || write_all("stop\n", 5) ? 0 : 1;
}
