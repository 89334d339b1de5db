/*
 * The indoor end's loop: it offers a file to the receiver and sends it.
 */
#ifndef INDOOR_H
#define INDOOR_H

#include "harsolvek.h"
#include "port.h"

#define INDOOR_UNPLUGGED (-1)

typedef struct indoor {
    harsolvek_indoor session;
    port *cable;
    const uint8_t *file;
    size_t length;
    uint64_t told; /* up to when the library knows the time, by port_now */
} indoor;

/* Starts a session and sends its first request. The file is lent until the end. The library's
 * number: 0, or 29 or 46. */
uint8_t indoor_start(indoor *here, port *cable, const harsolvek_settings *settings,
                     const harsolvek_release *release, const uint8_t *file, size_t length);

/* Serves a session until it ends: 0 for Done, 40 to 45 for Failed, INDOOR_UNPLUGGED if the receiver
 * is gone. 27 to 29 where a call was wrong; 29 also if the session was never started. */
int indoor_run(indoor *here);

#endif
