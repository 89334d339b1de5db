#include "drive.h"

const compare_part *const drive_parts[DRIVE_PARTS] = {&drive_receiver, &drive_indoor,
                                                      &drive_mailbox, &drive_recording};
