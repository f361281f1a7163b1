/*
 * The line between coordinator and signers: a Unix stream socket in the working folder. A frame is the packet's length (4 bytes), the
 * packet, its seal. A frame that a killed process left half written ends with the connection, and is dropped.
 */
#ifndef DURABLE_WIRE_H
#define DURABLE_WIRE_H

#include "seal.h"

enum { FRAME_LIMIT = 4 + PACKET_LIMIT + SIGNATURE_LENGTH };

typedef struct wire {
    int fd;
    size_t held;
    uint8_t buffer[FRAME_LIMIT];
} wire;

int wire_listen(void);
void wire_open(wire *w, int fd);
void wire_close(wire *w);
/* Waits some seconds for the signers to be there. */
int wire_connect(wire *w);
int wire_send(const wire *w, const sealed *s);
/* 1 a frame, 0 none in that time, -1 the line is closed. */
int wire_receive(wire *w, sealed *s, int milliseconds);
/* Names a frame: over packet and seal, so that the same packet sealed anew is another frame. */
int frame_digest(uint8_t digest[HASH_LENGTH], const sealed *s);

#endif
