#define _POSIX_C_SOURCE 200809L

#include "port.h"

#include <errno.h>
#include <poll.h>
#include <stdlib.h>
#include <string.h>
#include <sys/socket.h>
#include <time.h>
#include <unistd.h>

/* A repeated block is answered too and so brings one more block (01, Numbers we answer, 22):
 * repeats breed while there is room. This cable holds a few messages, and what finds it full is
 * lost. */
#define CABLE_BYTES 4096

int port_pair(port *one, port *other)
{
    const int bytes = CABLE_BYTES;
    int sockets[2];
    if (socketpair(AF_UNIX, SOCK_SEQPACKET, 0, sockets) != 0) {
        return -1;
    }
    memset(one, 0, sizeof *one);
    memset(other, 0, sizeof *other);
    one->socket = sockets[0];
    other->socket = sockets[1];
    if (setsockopt(one->socket, SOL_SOCKET, SO_SNDBUF, &bytes, sizeof bytes) != 0 ||
        setsockopt(other->socket, SOL_SOCKET, SO_SNDBUF, &bytes, sizeof bytes) != 0) {
        return -1;
    }
    return 0;
}

static int happens(port *here, unsigned percent)
{
    return (unsigned)rand_r(&here->faults.seed) % 100 < percent;
}

/* Where the other end is gone the message is lost as well, and the next port_take says so. */
static int put(const port *here, const uint8_t *message, size_t length)
{
    return send(here->socket, message, length, MSG_DONTWAIT | MSG_NOSIGNAL) >= 0;
}

void port_send(port *here, const uint8_t *message, size_t length)
{
    here->counts.sent++;
    if (happens(here, here->faults.loss) || !put(here, message, length)) {
        here->counts.lost++;
    } else if (happens(here, here->faults.repeat) && put(here, message, length)) {
        here->counts.repeated++;
    }
}

void port_wait(const port *here, int milliseconds)
{
    struct pollfd ready = {here->socket, POLLIN, 0};
    poll(&ready, 1, milliseconds);
}

enum port_event port_take(const port *here, uint8_t message[PORT_ROOM], size_t *length)
{
    const ssize_t taken = recv(here->socket, message, PORT_ROOM, MSG_DONTWAIT);
    if (taken > 0) {
        *length = (size_t)taken;
        return PORT_MESSAGE;
    }
    return taken < 0 && (errno == EAGAIN || errno == EINTR) ? PORT_NOTHING : PORT_UNPLUGGED;
}

void port_close(port *here)
{
    close(here->socket);
    here->socket = -1;
}

uint64_t port_now(void)
{
    struct timespec now;
    clock_gettime(CLOCK_MONOTONIC, &now);
    return (uint64_t)now.tv_sec * 1000 + (uint64_t)now.tv_nsec / 1000000;
}

uint32_t port_elapsed(uint64_t *told, uint64_t now)
{
    const uint64_t elapsed = *told < now ? now - *told : 0;
    *told += elapsed;
    return elapsed < UINT32_MAX ? (uint32_t)elapsed : UINT32_MAX;
}
