#include "wire.h"

#include <poll.h>
#include <string.h>
#include <sys/socket.h>
#include <sys/un.h>
#include <unistd.h>

static const struct sockaddr_un address = {AF_UNIX, "line"};

int wire_listen(void) {
    const int fd = socket(AF_UNIX, SOCK_STREAM | SOCK_CLOEXEC, 0);
    unlink(address.sun_path);
    if (fd >= 0 && bind(fd, (const struct sockaddr *)&address, sizeof address) == 0 && listen(fd, 4) == 0) return fd;
    return -1;
}

void wire_open(wire *w, int fd) {
    w->fd = fd;
    w->held = 0;
}

void wire_close(wire *w) {
    if (w->fd >= 0) close(w->fd);
    wire_open(w, -1);
}

int wire_connect(wire *w) {
    for (int tries = 0; tries < 500; tries++) {
        const int fd = socket(AF_UNIX, SOCK_STREAM | SOCK_CLOEXEC, 0);
        if (fd < 0) return 0;
        if (connect(fd, (const struct sockaddr *)&address, sizeof address) == 0) {
            wire_open(w, fd);
            return 1;
        }
        close(fd);
        usleep(10000);
    }
    return 0;
}

int wire_send(const wire *w, const sealed *s) {
    uint8_t frame[FRAME_LIMIT];
    const size_t length = 4 + s->packet.length + SIGNATURE_LENGTH;
    put_number(frame, 4, s->packet.length);
    memcpy(frame + 4, s->packet.bytes, s->packet.length);
    memcpy(frame + 4 + s->packet.length, s->seal, SIGNATURE_LENGTH);
    for (size_t at = 0; at < length;) {
        const ssize_t written = send(w->fd, frame + at, length - at, MSG_NOSIGNAL);
        if (written <= 0) return 0;
        at += (size_t)written;
    }
    return 1;
}

/* The first frame of what is held: 1 taken, 0 not whole yet, -1 longer than any packet. */
static int take_frame(wire *w, sealed *s) {
    if (w->held < 4) return 0;
    const uint64_t length = number_at(w->buffer, 4);
    if (length > PACKET_LIMIT) return -1;
    const size_t frame = 4 + (size_t)length + SIGNATURE_LENGTH;
    if (w->held < frame) return 0;
    s->packet.length = (size_t)length;
    memcpy(s->packet.bytes, w->buffer + 4, (size_t)length);
    memcpy(s->seal, w->buffer + 4 + length, SIGNATURE_LENGTH);
    memmove(w->buffer, w->buffer + frame, w->held - frame);
    w->held -= frame;
    return 1;
}

int wire_receive(wire *w, sealed *s, int milliseconds) {
    for (;;) {
        const int taken = take_frame(w, s);
        if (taken != 0) return taken;
        struct pollfd ready = {w->fd, POLLIN, 0};
        if (poll(&ready, 1, milliseconds) <= 0) return 0;
        const ssize_t got = read(w->fd, w->buffer + w->held, FRAME_LIMIT - w->held);
        if (got <= 0) return -1;
        w->held += (size_t)got;
    }
}

int frame_digest(uint8_t digest[HASH_LENGTH], const sealed *s) {
    uint8_t frame[PACKET_LIMIT + SIGNATURE_LENGTH];
    memcpy(frame, s->packet.bytes, s->packet.length);
    memcpy(frame + s->packet.length, s->seal, SIGNATURE_LENGTH);
    return hash_tagged(digest, "RoundCabinet/frame", frame, s->packet.length + SIGNATURE_LENGTH);
}
