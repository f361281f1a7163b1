#include "seal.h"

#include <secp256k1_extrakeys.h>
#include <secp256k1_schnorrsig.h>

int packet_digest(uint8_t digest[HASH_LENGTH], const packet *p) { return hash_tagged(digest, "RoundCabinet/seal", p->bytes, p->length); }

int seal_packet(sealed *s, const scalar *key) {
    uint8_t digest[HASH_LENGTH], aux[32];
    secp256k1_keypair pair;
    return packet_digest(digest, &s->packet) && random_bytes(aux, sizeof aux) &&
           secp256k1_keypair_create(curve_context(), &pair, key->bytes) &&
           secp256k1_schnorrsig_sign32(curve_context(), s->seal, digest, &pair, aux);
}

int seal_good(const sealed *s, const uint8_t key[XONLY_LENGTH]) {
    uint8_t digest[HASH_LENGTH];
    return packet_digest(digest, &s->packet) && signature_good(s->seal, (span){digest, sizeof digest}, key);
}

int signature_good(const uint8_t signature[SIGNATURE_LENGTH], span message, const uint8_t key[XONLY_LENGTH]) {
    secp256k1_xonly_pubkey x;
    return secp256k1_xonly_pubkey_parse(curve_context(), &x, key) &&
           secp256k1_schnorrsig_verify(curve_context(), signature, message.bytes, message.length, &x);
}
