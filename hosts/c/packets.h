/*
 * Packets, their bytes and where their parts lie. What comes from others is read by the library (rc_read_packet, rc_packet_part); the
 * kinds that it only writes (32 to 35) are read here, by their pairs, as the header says.
 */
#ifndef HOST_PACKETS_H
#define HOST_PACKETS_H

#include "roundcabinet.h"

#include <stddef.h>
#include <stdint.h>

enum { PACKET_LIMIT = RC_ANSWER_LENGTH, HEADER_LENGTH = 32, PAIR_LENGTH = 8 };
enum { REQUEST_PARTS = 2 }; /* message and root, before a share request's responses */
enum { RESPONSE_KEYS = 1 }; /* a response's key ids, after its message */
enum { NONCE_LENGTH = 66, KEY_LENGTH = 4, Z_LENGTH = 32, SHARE_LENGTH = KEY_LENGTH + Z_LENGTH };

typedef struct packet {
    size_t length;
    uint8_t bytes[PACKET_LIMIT];
} packet;

/* Bytes that lie elsewhere. */
typedef struct span {
    const uint8_t *bytes;
    size_t length;
} span;

uint64_t number_at(const uint8_t *bytes, int length);
void put_number(uint8_t *to, int length, uint64_t n);

/* A writer of the library's was lent the packet's bytes: 1 where it wrote. */
int packet_written(packet *to, rc_written w);

/* Part i of a packet of kinds 1 to 7: empty where the library takes no such packet, or it has no such part. */
span packet_part(span whole, uint16_t i);
/* Part i of what the library wrote, kinds 32 to 35: empty where there is none. */
span written_part(span whole, uint16_t i);
uint16_t written_parts(span whole);

uint8_t packet_kind(span whole);
span span_of(const packet *p);
int span_equal(span a, span b);

#endif
