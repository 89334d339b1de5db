/*
 * The seeded faults. Each is a slip that a reader of document 01 could make, and at most one is
 * switched on. The list gives each its name, for the second implementation's own use, the part
 * whose comparison is to find it, and the slip in words. A fault's value is its place in the list,
 * counted from 1.
 */
#ifndef SECOND_FAULTS_H
#define SECOND_FAULTS_H

#include "second.h"

/* clang-format off */
#define SECOND_FAULTS(X) \
    X(RECEIVER_BLOCK_NUMBER_NOT_COMPARED, SECOND_PART_RECEIVER, \
      "A block is taken and put at 256 times its number, whichever number is due.") \
    X(RECEIVER_BLOCK_APPENDED, SECOND_PART_RECEIVER, \
      "A block is put behind the bytes accepted, and its number is not compared.") \
    X(RECEIVER_SHORT_NOT_REMEMBERED, SECOND_PART_RECEIVER, \
      "A short block is not remembered, so another may follow it.") \
    X(RECEIVER_23_BEFORE_24, SECOND_PART_RECEIVER, \
      "23 is judged before 24.") \
    X(RECEIVER_EMPTY_FIRST_BLOCK_CLOSES, SECOND_PART_RECEIVER, \
      "An empty block closes the transfer with no block accepted.") \
    X(RECEIVER_EXACT_FILL_PASSES_CAPACITY, SECOND_PART_RECEIVER, \
      "A block that fills the image memory to its last byte gets 23.") \
    X(RECEIVER_23_KEEPS_TRANSFER, SECOND_PART_RECEIVER, \
      "23 does not go to Idle.") \
    X(RECEIVER_22_CARRIES_READINESS, SECOND_PART_RECEIVER, \
      "The response to 22 carries the readiness wait.") \
    X(RECEIVER_24_CARRIES_NUMBER, SECOND_PART_RECEIVER, \
      "The response to 24 carries the number due.") \
    X(RECEIVER_20_ENDS_SILENCE, SECOND_PART_RECEIVER, \
      "A request that gets 20 sets silence to zero.") \
    X(RECEIVER_21_KEEPS_SILENCE, SECOND_PART_RECEIVER, \
      "A request that gets 21 does not set silence and resends to zero.") \
    X(RECEIVER_21_WRITES_NOTHING, SECOND_PART_RECEIVER, \
      "21 has no response.") \
    X(RECEIVER_26_AFTER_20, SECOND_PART_RECEIVER, \
      "26 is judged after 20.") \
    X(RECEIVER_27_BEFORE_28, SECOND_PART_RECEIVER, \
      "27 is judged before 28.") \
    X(RECEIVER_READINESS_255_TAKEN, SECOND_PART_RECEIVER, \
      "A readiness wait of 255 is taken.") \
    X(RECEIVER_LATER_0_TAKEN, SECOND_PART_RECEIVER, \
      "A verdict of later with a wait of 0 is taken.") \
    X(RECEIVER_REQUEST_OF_261_TAKEN, SECOND_PART_RECEIVER, \
      "A request of 261 bytes is read, a DATA request then with a block of 257.") \
    X(RECEIVER_INITIATE_STARTS_AFRESH, SECOND_PART_RECEIVER, \
      "INITIATE is taken in Transfer with blocks accepted and starts it afresh.") \
    X(RECEIVER_INITIATE_WAIT_ENTERS_TRANSFER, SECOND_PART_RECEIVER, \
      "INITIATE answered with a wait enters Transfer.") \
    X(RECEIVER_AWAIT_COMPARES_NUMBER, SECOND_PART_RECEIVER, \
      "DATA of another number in Await gets 22 in place of the closing answer.") \
    X(RECEIVER_CLOSE_CARRIES_ZERO, SECOND_PART_RECEIVER, \
      "The closing answer carries the number 0.") \
    X(RECEIVER_BAD_KEEPS_AWAIT, SECOND_PART_RECEIVER, \
      "A bad verdict does not go to Idle.") \
    X(RECEIVER_GOOD_HEARS_BAD, SECOND_PART_RECEIVER, \
      "A bad verdict counts in Good too.") \
    X(RECEIVER_ABORT_TAKEN_IN_IDLE, SECOND_PART_RECEIVER, \
      "ABORT in Idle is answered 0.") \
    X(RECEIVER_LIMIT_REACHED_IS_NO_EXPIRY, SECOND_PART_RECEIVER, \
      "Silence that reaches the limit exactly is no expiry.") \
    X(RECEIVER_EXPIRY_KEEPS_REST, SECOND_PART_RECEIVER, \
      "An expiry keeps the time above the limit as silence.") \
    X(RECEIVER_ONE_RESEND_TOO_MANY, SECOND_PART_RECEIVER, \
      "One resend more than the setting is made.") \
    X(RECEIVER_RESEND_ASKS_FOR_LAST, SECOND_PART_RECEIVER, \
      "The response sent again in Transfer asks for the block accepted last.") \
    X(RECEIVER_AWAIT_RESENDS_WITH_WAIT_0, SECOND_PART_RECEIVER, \
      "The response sent again in Await has the wait 0.") \
    X(RECEIVER_EXPIRY_KEEPS_COUNTS, SECOND_PART_RECEIVER, \
      "The last expiry goes to Idle with the counts accepted.") \
    X(RECEIVER_RESERVED_BITS_SENT, SECOND_PART_RECEIVER, \
      "The identity is sent with the reserved bits it was set with.") \
    X(RECEIVER_BYTE_BEHIND_CLEARED, SECOND_PART_RECEIVER, \
      "The byte behind the response is cleared in the buffer.") \
    X(RECEIVER_SUM_NOT_WRAPPED, SECOND_PART_RECEIVER, \
      "The sum is not taken modulo 65,536.") \
    X(RECEIVER_LIMIT_CUT, SECOND_PART_RECEIVER, \
      "A start judges the lower 16 bits of the silence limit.") \
    X(RECEIVER_RESENDS_CUT, SECOND_PART_RECEIVER, \
      "A start judges the lower 8 bits of the count of resends.") \
    X(RECEIVER_CAPACITY_CUT, SECOND_PART_RECEIVER, \
      "A start judges the lower 32 bits of the capacity.") \
    X(RECEIVER_READINESS_CUT, SECOND_PART_RECEIVER, \
      "A request judges the lower 8 bits of the readiness wait.") \
    X(RECEIVER_VERDICT_CUT, SECOND_PART_RECEIVER, \
      "A request judges the lower 8 bits of the verdict.") \
    X(RECEIVER_LATER_CUT, SECOND_PART_RECEIVER, \
      "A request judges the lower 8 bits of a later verdict's wait.") \
    X(RECEIVER_ELAPSED_CUT, SECOND_PART_RECEIVER, \
      "The lower 16 bits of the elapsed time are counted.") \
    X(RECEIVER_BLOCKS_65536_STAND, SECOND_PART_RECEIVER, \
      "A state in which 65,536 blocks are accepted is a session.") \
    X(RECEIVER_SILENCE_65536_STANDS, SECOND_PART_RECEIVER, \
      "A state with a silence of 65,536 is a session.") \
    X(RECEIVER_RESENDS_256_STAND, SECOND_PART_RECEIVER, \
      "A state in which 256 resends were made is a session.") \
    X(RECEIVER_BYTE_BEHIND_IDENTITY_STANDS, SECOND_PART_RECEIVER, \
      "A state with a byte behind the identity's last is a session.") \
    X(RECEIVER_29_ENDS_SILENCE, SECOND_PART_RECEIVER, \
      "A call on a state that is no session sets its silence to zero.") \
    X(RECEIVER_29_CLEARS_OUTPUT, SECOND_PART_RECEIVER, \
      "A call on a state that is no session clears the output buffer.") \
    X(RECEIVER_REFUSED_START_KEEPS_STATE, SECOND_PART_RECEIVER, \
      "A refused start leaves the state as it was.") \
    X(INDOOR_EQUAL_VERSION_IS_NEWER, SECOND_PART_INDOOR, \
      "A file with the four versions reported is newer.") \
    X(INDOOR_FIRST_VERSION_ALONE, SECOND_PART_INDOOR, \
      "Of the versions FWVersion1 alone is compared.") \
    X(INDOOR_THIRD_VERSION_BEFORE_SECOND, SECOND_PART_INDOOR, \
      "FWVersion2 is ordered within FWVersion3.") \
    X(INDOOR_FOURTH_VERSION_FORGOTTEN, SECOND_PART_INDOOR, \
      "FWVersion4 is not compared.") \
    X(INDOOR_ANY_GREATER_VERSION_DECIDES, SECOND_PART_INDOOR, \
      "A file of which any version is greater is newer.") \
    X(INDOOR_VENDOR_NOT_COMPARED, SECOND_PART_INDOOR, \
      "The vendor is not compared.") \
    X(INDOOR_PRODUCT_NOT_COMPARED, SECOND_PART_INDOOR, \
      "The product is not compared.") \
    X(INDOOR_VERSIONS_HIGH_BYTE_FIRST, SECOND_PART_INDOOR, \
      "INITIATE's versions go high byte first.") \
    X(INDOOR_SIZE_NOT_MASKED, SECOND_PART_INDOOR, \
      "MaxImageSize is read with its four reserved bits.") \
    X(INDOOR_SIZE_OF_A_WAIT_JUDGED, SECOND_PART_INDOOR, \
      "43 is judged on an INITIATE response that asks for a wait too.") \
    X(INDOOR_EXACT_SIZE_TOO_SMALL, SECOND_PART_INDOOR, \
      "A file as long as MaxImageSize gets 43.") \
    X(INDOOR_INITIATE_WAIT_IN_1_MS, SECOND_PART_INDOOR, \
      "WaitTime of an INITIATE response counts 1 ms.") \
    X(INDOOR_VALIDATE_WAIT_IN_10_MS, SECOND_PART_INDOOR, \
      "WaitTime of a VALIDATE response counts 10 ms.") \
    X(INDOOR_WAIT_255_WAITS, SECOND_PART_INDOOR, \
      "WaitTime 255 of an INITIATE or VALIDATE response is waited for.") \
    X(INDOOR_44_BEFORE_41, SECOND_PART_INDOOR, \
      "44 is judged before 41.") \
    X(INDOOR_41_SENDS_ABORT, SECOND_PART_INDOOR, \
      "ABORT is sent at 41.") \
    X(INDOOR_43_SENDS_NO_ABORT, SECOND_PART_INDOOR, \
      "ABORT is not sent at 43.") \
    X(INDOOR_BLOCK_TOO_MANY, SECOND_PART_INDOOR, \
      "A file of a multiple of 256 bytes is counted with one block too many.") \
    X(INDOOR_ABOVE_N_SENDS_EMPTY, SECOND_PART_INDOOR, \
      "A number above n is answered with an empty block.") \
    X(INDOOR_N_IS_REFUSED, SECOND_PART_INDOOR, \
      "A response that asks for the empty block gets 44.") \
    X(INDOOR_CLOSE_BEFORE_EMPTY, SECOND_PART_INDOOR, \
      "WaitTime 255 is the close before the empty block went out.") \
    X(INDOOR_CLOSE_OF_ANY_NUMBER, SECOND_PART_INDOOR, \
      "The number of the close is not compared.") \
    X(INDOOR_EMPTIED_WHEN_WAIT_BEGINS, SECOND_PART_INDOOR, \
      "The empty block counts as sent when the wait before it begins.") \
    X(INDOOR_EMPTIED_FORGOTTEN, SECOND_PART_INDOOR, \
      "The empty block no longer counts as sent once an older block is sent again.") \
    X(INDOOR_SUCCESS_FROM_ALL_FLAGS, SECOND_PART_INDOOR, \
      "Success is the whole Flags byte being 1.") \
    X(INDOOR_SUCCESS_IN_A_WAIT, SECOND_PART_INDOOR, \
      "The success bit counts in a VALIDATE response that asks for a wait.") \
    X(INDOOR_RESPONSE_IN_A_WAIT_PASSED_OVER, SECOND_PART_INDOOR, \
      "A response of the due type in a wait is passed over.") \
    X(INDOOR_21_ENDS_SILENCE, SECOND_PART_INDOOR, \
      "A response that is passed over sets silence to zero.") \
    X(INDOOR_RESPONSE_KEEPS_RESENDS, SECOND_PART_INDOOR, \
      "An accepted response does not set resends to zero.") \
    X(INDOOR_SILENCE_GROWS_IN_A_WAIT, SECOND_PART_INDOOR, \
      "Silence grows in a wait.") \
    X(INDOOR_LEFTOVER_OF_WAIT_KEPT, SECOND_PART_INDOOR, \
      "The leftover time of the call that ends a wait counts as silence.") \
    X(INDOOR_WAIT_COUNTS_AS_RESEND, SECOND_PART_INDOOR, \
      "Sending after a wait counts as a resend.") \
    X(INDOOR_LIMIT_REACHED_IS_NO_EXPIRY, SECOND_PART_INDOOR, \
      "Silence that reaches the limit exactly is no expiry.") \
    X(INDOOR_EACH_LIMIT_IS_AN_EXPIRY, SECOND_PART_INDOOR, \
      "A call that passes several limits counts as several resends.") \
    X(INDOOR_ONE_RESEND_TOO_FEW, SECOND_PART_INDOOR, \
      "One resend fewer than the setting is made.") \
    X(INDOOR_TRANSFER_RESENDS, SECOND_PART_INDOOR, \
      "The block is sent again at an expiry in Transfer while resends are left.") \
    X(INDOOR_27_COUNTS_TIME, SECOND_PART_INDOOR, \
      "A time call that gets 27 adds to silence.") \
    X(INDOOR_START_27_BEFORE_46, SECOND_PART_INDOOR, \
      "A start judges 27 before 46.") \
    X(INDOOR_LIMIT_CUT, SECOND_PART_INDOOR, \
      "A start judges the lower 16 bits of the silence limit.") \
    X(INDOOR_RESENDS_CUT, SECOND_PART_INDOOR, \
      "A start judges the lower 8 bits of the count of resends.") \
    X(INDOOR_ELAPSED_CUT, SECOND_PART_INDOOR, \
      "The lower 16 bits of the elapsed time are counted.") \
    X(INDOOR_ASKED_65536_STANDS, SECOND_PART_INDOOR, \
      "A state in which block 65,536 is asked for is a session.") \
    X(INDOOR_WAIT_65536_STANDS, SECOND_PART_INDOOR, \
      "A state with a wait of 65,536 is a session.") \
    X(INDOOR_SILENCE_65536_STANDS, SECOND_PART_INDOOR, \
      "A state with a silence of 65,536 is a session.") \
    X(INDOOR_RESENDS_256_STAND, SECOND_PART_INDOOR, \
      "A state in which 256 resends were made is a session.") \
    X(INDOOR_29_ENDS_SILENCE, SECOND_PART_INDOOR, \
      "A call on a state that is no session sets its silence to zero.") \
    X(INDOOR_29_CLEARS_OUTPUT, SECOND_PART_INDOOR, \
      "A call on a state that is no session clears the output buffer.") \
    X(INDOOR_REFUSED_START_KEEPS_STATE, SECOND_PART_INDOOR, \
      "A refused start leaves the state as it was.") \
    X(MAILBOX_CANCEL_KEEPS_MESSAGE_IN, SECOND_PART_MAILBOX, \
      "CANCEL keeps MESSAGE_IN.") \
    X(MAILBOX_FAILURE_KEEPS_MESSAGE_IN, SECOND_PART_MAILBOX, \
      "A port failure keeps MESSAGE_IN.") \
    X(MAILBOX_START_CLEARS_MESSAGE_IN, SECOND_PART_MAILBOX, \
      "The start of a command clears MESSAGE_IN.") \
    X(MAILBOX_ACK_CLEARS_MESSAGE_IN, SECOND_PART_MAILBOX, \
      "ACK_CC_CI clears MESSAGE_IN.") \
    X(MAILBOX_SUCCESS_KEEPS_OLD_BYTES, SECOND_PART_MAILBOX, \
      "A port success keeps the old bytes behind its own.") \
    X(MAILBOX_SUCCESS_OF_255_REFUSED, SECOND_PART_MAILBOX, \
      "A port success of 255 bytes gets 8.") \
    X(MAILBOX_SUCCESS_OF_256_TAKEN, SECOND_PART_MAILBOX, \
      "A port success of 256 bytes is taken.") \
    X(MAILBOX_8_BEFORE_7, SECOND_PART_MAILBOX, \
      "8 is judged before 7.") \
    X(MAILBOX_LOWER_CONNECTOR_SHOWN_AT_ONCE, SECOND_PART_MAILBOX, \
      "A change on a lower connector is shown before the shown one is acknowledged.") \
    X(MAILBOX_HIGHEST_WAITING_SHOWN, SECOND_PART_MAILBOX, \
      "After an acknowledgement the highest waiting connector is shown.") \
    X(MAILBOX_CHANGE_ON_SHOWN_LOST, SECOND_PART_MAILBOX, \
      "A new change on the connector shown is lost.") \
    X(MAILBOX_CHANGE_IN_RUN_LOST, SECOND_PART_MAILBOX, \
      "A change while a command runs is lost.") \
    X(MAILBOX_CHANGE_RECORDED_WHILE_OFF, SECOND_PART_MAILBOX, \
      "A change with notifications off is recorded.") \
    X(MAILBOX_MASK_BIT_0_COUNTS, SECOND_PART_MAILBOX, \
      "A reason that meets the mask in bit 0 alone is recorded.") \
    X(MAILBOX_MASK_OF_8_BITS, SECOND_PART_MAILBOX, \
      "The mask is taken from bits 16 to 23 alone.") \
    X(MAILBOX_9_AFTER_MASK, SECOND_PART_MAILBOX, \
      "A change that is dropped is answered 0 on a connector that does not exist.") \
    X(MAILBOX_REFUSED_ACK_CLEARS, SECOND_PART_MAILBOX, \
      "ACK_CC_CI that gets 5 clears the connector shown if bit 16 is set.") \
    X(MAILBOX_ACK_17_WITHOUT_DUE, SECOND_PART_MAILBOX, \
      "ACK_CC_CI with bit 17 is taken with no acknowledgement due.") \
    X(MAILBOX_ACK_KEEPS_COMPLETE, SECOND_PART_MAILBOX, \
      "ACK_CC_CI keeps bit 31.") \
    X(MAILBOX_5_BEFORE_4, SECOND_PART_MAILBOX, \
      "ACK_CC_CI with neither bit gets 5 while an acknowledgement is due.") \
    X(MAILBOX_6_BEFORE_4, SECOND_PART_MAILBOX, \
      "CANCEL gets 6 while an acknowledgement is due.") \
    X(MAILBOX_REFUSED_WRITE_CLEARS_RESET_DONE, SECOND_PART_MAILBOX, \
      "A write that gets 2 clears bit 27.") \
    X(MAILBOX_RESET_KEEPS_CHANGES, SECOND_PART_MAILBOX, \
      "PPM_RESET keeps the changes.") \
    X(MAILBOX_RESET_REFUSED_IN_RUN, SECOND_PART_MAILBOX, \
      "PPM_RESET gets 3 while a command runs.") \
    X(MAILBOX_MASK_0_TURNS_OFF, SECOND_PART_MAILBOX, \
      "SET_NOTIFICATION_ENABLE with the mask 0 turns notifications off.") \
    X(MAILBOX_ENABLE_FORGETS_CHANGES, SECOND_PART_MAILBOX, \
      "SET_NOTIFICATION_ENABLE forgets the changes recorded.") \
    X(MAILBOX_CONNECTOR_0_TAKEN, SECOND_PART_MAILBOX, \
      "A command runs for connector 0.") \
    X(MAILBOX_CONNECTOR_ABOVE_COUNT_TAKEN, SECOND_PART_MAILBOX, \
      "A command runs for a connector above the count.") \
    X(MAILBOX_CONNECTOR_OF_8_BITS, SECOND_PART_MAILBOX, \
      "Bit 23 is read as part of the connector number.") \
    X(MAILBOX_CODE_ABOVE_1D_IS_ERROR, SECOND_PART_MAILBOX, \
      "A code above 1D completes with bit 30 in place of bit 25.") \
    X(MAILBOX_UNSUPPORTED_NEEDS_NO_ACK, SECOND_PART_MAILBOX, \
      "A code that is not supported completes with no acknowledgement due.") \
    X(MAILBOX_CANCEL_WITHOUT_COMPLETE, SECOND_PART_MAILBOX, \
      "CANCEL sets bit 26 without bit 31.") \
    X(MAILBOX_BUSY_SHOWS_CONNECTOR, SECOND_PART_MAILBOX, \
      "CCI shows the connector while a command runs.") \
    X(MAILBOX_SHOWN_ABOVE_COUNT_STANDS, SECOND_PART_MAILBOX, \
      "A state that shows a connector above the count is a mailbox.") \
    X(MAILBOX_WAITING_ABOVE_COUNT_STANDS, SECOND_PART_MAILBOX, \
      "A state in which a connector above the count waits is a mailbox.") \
    X(MAILBOX_RUN_WHILE_OFF_STANDS, SECOND_PART_MAILBOX, \
      "A state in which a command runs while notifications are off is a mailbox.") \
    X(MAILBOX_RUN_OF_ANY_CODE_STANDS, SECOND_PART_MAILBOX, \
      "A state in which a command runs that never does is a mailbox.") \
    X(MAILBOX_RUN_ABOVE_COUNT_STANDS, SECOND_PART_MAILBOX, \
      "A state in which a command runs on a connector above the count is a mailbox.") \
    X(MAILBOX_COUNT_CUT, SECOND_PART_MAILBOX, \
      "The lower 8 bits of the count of connectors are judged.") \
    X(MAILBOX_CONNECTOR_CUT, SECOND_PART_MAILBOX, \
      "The lower 8 bits of the connector of a change are judged.") \
    X(MAILBOX_MASK_65536_STANDS, SECOND_PART_MAILBOX, \
      "A state with a mask of 17 bits is a mailbox.") \
    X(MAILBOX_RESET_TYPE_256_STANDS, SECOND_PART_MAILBOX, \
      "A state in which a command runs with a reset type of 9 bits is a mailbox.") \
    X(MAILBOX_29_TURNS_OFF, SECOND_PART_MAILBOX, \
      "A call on a state that is no mailbox turns its notifications off.") \
    X(MAILBOX_29_CLEARS_MESSAGE_IN, SECOND_PART_MAILBOX, \
      "A call on a state that is no mailbox clears its MESSAGE_IN.") \
    X(MAILBOX_REFUSED_START_KEEPS_MESSAGE_IN, SECOND_PART_MAILBOX, \
      "A refused start leaves MESSAGE_IN as it was.") \
    X(RECORDING_REASON_HIGH_BYTE_FIRST, SECOND_PART_RECORDING, \
      "The reason of a change is read high byte first.") \
    X(RECORDING_REASON_BEFORE_CONNECTOR, SECOND_PART_RECORDING, \
      "The reason of a change is written before its connector.") \
    X(RECORDING_SUCCESS_WITH_ITS_BYTES, SECOND_PART_RECORDING, \
      "A port success is read with so many bytes behind its length.") \
    X(RECORDING_CONTROL_OF_7_BYTES, SECOND_PART_RECORDING, \
      "The last byte of CONTROL is left out when it is written.") \
    X(RECORDING_KIND_0_IS_FAILURE, SECOND_PART_RECORDING, \
      "A record of kind 0 is read as a port failure.") \
    X(RECORDING_KIND_CUT, SECOND_PART_RECORDING, \
      "The lower 8 bits of the kind are judged when a record is written.") \
    X(RECORDING_KIND_5_IS_CUT, SECOND_PART_RECORDING, \
      "An unknown kind is found to be cut where nothing is behind it.") \
    X(RECORDING_LAST_RECORD_IS_CUT, SECOND_PART_RECORDING, \
      "A record that fills the recording to its last byte is found to be cut.") \
    X(RECORDING_END_BEHIND_IS_CUT, SECOND_PART_RECORDING, \
      "A place behind the recording's end is found to be cut.") \
    X(RECORDING_CUT_MOVES_ON, SECOND_PART_RECORDING, \
      "The next place behind a cut record is the recording's end.") \
    X(RECORDING_WRITE_INTO_8, SECOND_PART_RECORDING, \
      "A record of fewer bytes is written into a buffer of 8.") \
    X(RECORDING_20_BEFORE_27, SECOND_PART_RECORDING, \
      "20 is judged before 27.") \
    X(RECORDING_LETTERS_SMALL, SECOND_PART_RECORDING, \
      "CCI is printed with small letters.") \
    X(RECORDING_CCI_WITHOUT_ZEROS, SECOND_PART_RECORDING, \
      "CCI is printed without the zeros before it.") \
    X(RECORDING_NUMBER_OF_2_DIGITS, SECOND_PART_RECORDING, \
      "The number is printed with two digits.") \
    X(RECORDING_LINE_INTO_12, SECOND_PART_RECORDING, \
      "A line is written into a buffer of 12.") \
    X(RECORDING_ZERO_BEHIND_LINE, SECOND_PART_RECORDING, \
      "A zero byte is written behind a line.") \
    X(RECORDING_STOP_WITHOUT_NEWLINE, SECOND_PART_RECORDING, \
      "The line stop has no newline.")
/* clang-format on */

#define SECOND_FAULT_NAME(name, part, what) name,
enum second_fault_name { NO_FAULT, SECOND_FAULTS(SECOND_FAULT_NAME) SECOND_FAULTS_END };
#undef SECOND_FAULT_NAME

/* Where instructions are counted (bench/run) no fault is compiled in. */
static inline int fault(enum second_fault_name name)
{
#ifdef SECOND_WITHOUT_FAULTS
    (void)name;
    return 0;
#else
    return second_fault_on == (int)name;
#endif
}

#endif
