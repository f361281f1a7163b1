/*
 * Seals: who sends a packet signs it, by BIP-340 over a tagged SHA-256 of the packet's bytes. The library never sees a seal, only the
 * host's verdict on it.
 */
#ifndef HOST_SEAL_H
#define HOST_SEAL_H

#include "group.h"

typedef struct sealed {
    packet packet;
    uint8_t seal[SIGNATURE_LENGTH];
} sealed;

int packet_digest(uint8_t digest[HASH_LENGTH], const packet *p);
int seal_packet(sealed *s, const scalar *key);
int seal_good(const sealed *s, const uint8_t key[XONLY_LENGTH]);

/* BIP-340, for any message. */
int signature_good(const uint8_t signature[SIGNATURE_LENGTH], span message, const uint8_t key[XONLY_LENGTH]);

#endif
