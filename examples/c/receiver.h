/*
 * The receiver's loop: what arrives and the time that passes go to the library, what it writes goes
 * out.
 */
#ifndef RECEIVER_H
#define RECEIVER_H

#include "harsolvek.h"
#include "port.h"

#define RECEIVER_UNPLUGGED (-1)

typedef struct receiver {
    harsolvek_receiver session;
    port *cable;
    uint8_t *image;
    size_t capacity;
    uint64_t told; /* up to when the library knows the time, by port_now */
    int checking;  /* the signature */
} receiver;

/* Starts a session for an image memory of `capacity` bytes, which is lent until the end. The
 * library's number: 0, or 29. */
uint8_t receiver_start(receiver *here, port *cable, const harsolvek_settings *settings,
                       const harsolvek_identity *identity, uint8_t *image, size_t capacity);

/* Serves the session until the cable is unplugged, also once the image is marked good: where the
 * answer to VALIDATE was lost, the indoor end asks again. RECEIVER_UNPLUGGED, or 26 to 29 where a
 * call was wrong; 29 also if the session was never started. */
int receiver_run(receiver *here);

/* The image and its length, once it is marked good; else NULL. */
const uint8_t *receiver_image(const receiver *here, size_t *bytes);

#endif
