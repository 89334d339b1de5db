/*
 * Holds the names of include/harsolvek.h to document 01: each enumerator and each constant against
 * the number that the paper has for it, typed from there and not from the header. Prints what
 * differs. The header and the library must be of one version too.
 *
 * The exit is 0 if all are as the paper has them, 1 if not.
 */
#include <stdio.h>

#include "harsolvek.h"

struct name {
    const char *name;
    long value;
    long due;
};

/* clang-format off */
#define NAME(name, due) {#name, (long)(name), due}
/* clang-format on */

static const struct name names[] = {
    /* 01, Numbers we answer. */
    NAME(HARSOLVEK_TAKEN, 0),
    NAME(HARSOLVEK_CONTROL_LENGTH, 1),
    NAME(HARSOLVEK_NOTIFICATIONS_OFF, 2),
    NAME(HARSOLVEK_COMMAND_RUNS, 3),
    NAME(HARSOLVEK_ACKNOWLEDGEMENT_DUE, 4),
    NAME(HARSOLVEK_NOTHING_TO_CLEAR, 5),
    NAME(HARSOLVEK_NOTHING_TO_CANCEL, 6),
    NAME(HARSOLVEK_NOTHING_RUNS, 7),
    NAME(HARSOLVEK_DATA_TOO_LONG, 8),
    NAME(HARSOLVEK_NO_SUCH_CONNECTOR, 9),
    NAME(HARSOLVEK_MALFORMED, 20),
    NAME(HARSOLVEK_UNEXPECTED, 21),
    NAME(HARSOLVEK_NOT_DUE, 22),
    NAME(HARSOLVEK_PASSES_CAPACITY, 23),
    NAME(HARSOLVEK_WRONG_FILE, 24),
    NAME(HARSOLVEK_IMAGE_BAD, 25),
    NAME(HARSOLVEK_OUT_OF_RANGE, 26),
    NAME(HARSOLVEK_BUFFER_SHORT, 27),
    NAME(HARSOLVEK_LENT_LENGTH, 28),
    NAME(HARSOLVEK_SETTINGS, 29),
    NAME(HARSOLVEK_SILENCE, 40),
    NAME(HARSOLVEK_REFUSED, 41),
    NAME(HARSOLVEK_NOT_NEWER, 42),
    NAME(HARSOLVEK_TOO_LARGE, 43),
    NAME(HARSOLVEK_WRONG_NUMBER, 44),
    NAME(HARSOLVEK_NOT_VALID, 45),
    NAME(HARSOLVEK_FILE_SIZE, 46),

    /* 01, Sizes and numbers. */
    NAME(HARSOLVEK_IMAGE_MOST, 1048575),
    NAME(HARSOLVEK_MESSAGE_MOST, 260),
    NAME(HARSOLVEK_BLOCK_MOST, 256),
    NAME(HARSOLVEK_LIMIT_LEAST, 1),
    NAME(HARSOLVEK_LIMIT_MOST, 10000),
    NAME(HARSOLVEK_RESENDS_MOST, 10),

    /* 01, The receiver's phases: the waits, the phases in their order from 0, and the verdicts, of
     * which none is 0. */
    NAME(HARSOLVEK_WAIT_MOST, 254),
    NAME(HARSOLVEK_RECEIVER_IDLE, 0),
    NAME(HARSOLVEK_RECEIVER_TRANSFER, 1),
    NAME(HARSOLVEK_RECEIVER_AWAIT, 2),
    NAME(HARSOLVEK_RECEIVER_GOOD, 3),
    NAME(HARSOLVEK_VERDICT_GOOD, 1),
    NAME(HARSOLVEK_VERDICT_BAD, 2),
    NAME(HARSOLVEK_VERDICT_LATER, 3),

    /* 01, The indoor end's phases, in their order from 0. */
    NAME(HARSOLVEK_INDOOR_IDENTIFY, 0),
    NAME(HARSOLVEK_INDOOR_INITIATE, 1),
    NAME(HARSOLVEK_INDOOR_TRANSFER, 2),
    NAME(HARSOLVEK_INDOOR_VALIDATE, 3),
    NAME(HARSOLVEK_INDOOR_DONE, 4),
    NAME(HARSOLVEK_INDOOR_FAILED, 5),

    /* 01, The mailbox, and 8 of Numbers we answer. The codes of the status are the header's own. */
    NAME(HARSOLVEK_CONTROL_SIZE, 8),
    NAME(HARSOLVEK_MESSAGE_IN_SIZE, 256),
    NAME(HARSOLVEK_DATA_MOST, 255),
    NAME(HARSOLVEK_CONNECTORS_MOST, 8),
    NAME(HARSOLVEK_STATUS_NOTHING, 0),
    NAME(HARSOLVEK_STATUS_RESET_DONE, 1),
    NAME(HARSOLVEK_STATUS_BUSY, 2),
    NAME(HARSOLVEK_STATUS_COMPLETED, 3),
    NAME(HARSOLVEK_STATUS_FAILED, 4),
    NAME(HARSOLVEK_STATUS_NOT_SUPPORTED, 5),
    NAME(HARSOLVEK_STATUS_CANCELLED, 6),
    NAME(HARSOLVEK_STATUS_ACKNOWLEDGED, 7),

    /* 01, Replay program: the kinds, and the longest record and line. What is found at a place is
     * the header's own. */
    NAME(HARSOLVEK_RECORD_CONTROL, 1),
    NAME(HARSOLVEK_RECORD_CHANGE, 2),
    NAME(HARSOLVEK_RECORD_SUCCESS, 3),
    NAME(HARSOLVEK_RECORD_FAILURE, 4),
    NAME(HARSOLVEK_RECORD_MOST, 9),
    NAME(HARSOLVEK_LINE_MOST, 13),
    NAME(HARSOLVEK_FOUND_RECORD, 0),
    NAME(HARSOLVEK_FOUND_END, 1),
    NAME(HARSOLVEK_FOUND_CUT, 2),
    NAME(HARSOLVEK_FOUND_UNKNOWN, 3),

    /* The states have no padding. */
    NAME(sizeof(harsolvek_receiver), 4 * 14),
    NAME(sizeof(harsolvek_indoor), 4 * 13),
    NAME(sizeof(harsolvek_mailbox), 4 * 10 + 256),
    NAME(sizeof(harsolvek_settings), 4 * 2),
    NAME(sizeof(harsolvek_given), 4 * 3),
    NAME(sizeof(harsolvek_release), 2 * 6),
};

int main(void)
{
    const size_t count = sizeof names / sizeof names[0];
    size_t wrong = harsolvek_version() != HARSOLVEK_VERSION;
    if (wrong != 0) {
        printf("the header is of version %X, and the library of version %lX\n", HARSOLVEK_VERSION,
               (unsigned long)harsolvek_version());
    }
    for (size_t i = 0; i < count; i++) {
        if (names[i].value != names[i].due) {
            printf("%s is %ld, and the paper has %ld\n", names[i].name, names[i].value,
                   names[i].due);
            wrong++;
        }
    }
    if (wrong != 0) {
        printf("names: %lu of %lu not as the paper has them\n", (unsigned long)wrong,
               (unsigned long)count);
        return 1;
    }
    printf("names: %lu as the paper has them\n", (unsigned long)count);
    return 0;
}
