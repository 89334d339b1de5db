/*
 * One end's port to the cable: messages go out and come in whole, and either may be lost.
 *
 * Here the cable is a socket pair, so that both ends run on one machine. On hardware port_send,
 * port_wait and port_take are built on the port controller: GoodCRC, chunking and the PD wire are
 * below them and no part of the library (01, The parts of the cable job).
 */
#ifndef PORT_H
#define PORT_H

#include "harsolvek.h"

/* With one byte more than the longest message, one that is cut to this length is still too long for
 * the library (20). */
#define PORT_ROOM (HARSOLVEK_MESSAGE_MOST + 1)

/* How long a loop waits for a message at most, and so how late it notices a silence or the end of a
 * wait. */
#define PORT_TICK_MS 10

/* How many messages a loop takes at most before it hands over the time, so that a flood of them
 * does not stop the clock. It is more than the cable holds. */
#define PORT_BURST 64

/* How many of each hundred messages sent here the cable loses, and how many it brings twice, by a
 * seed. */
typedef struct port_faults {
    unsigned seed;
    unsigned loss;
    unsigned repeat;
} port_faults;

typedef struct port_counts {
    unsigned long sent; /* lost and repeated ones are counted once here */
    unsigned long lost;
    unsigned long repeated;
} port_counts;

typedef struct port {
    int socket;
    port_faults faults;
    port_counts counts;
} port;

enum port_event {
    PORT_MESSAGE,
    PORT_NOTHING,  /* nothing has arrived */
    PORT_UNPLUGGED /* the other end is gone, and nothing comes any more */
};

/* Two ports joined by a cable; one is for each end. 0, or -1 with errno. */
int port_pair(port *one, port *other);

/* Sends a message of 1 byte or more and never waits. Whether it arrives is not known, as on any
 * cable. */
void port_send(port *here, const uint8_t *message, size_t length);

/* Waits until there is something to take, at most so many milliseconds. */
void port_wait(const port *here, int milliseconds);

/* Takes the next message that has arrived, and never waits. */
enum port_event port_take(const port *here, uint8_t message[PORT_ROOM], size_t *length);

void port_close(port *here);

/* Milliseconds on a clock that nobody sets back. */
uint64_t port_now(void);

/* The milliseconds to hand over: `told` is the time that the library knows, and becomes `now`, if
 * that is later. One call is at most one expiry however long it was, also after a sleep. */
uint32_t port_elapsed(uint64_t *told, uint64_t now);

#endif
