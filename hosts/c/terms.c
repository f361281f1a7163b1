#include "terms.h"

#include <secp256k1_extrakeys.h>
#include <string.h>

/* BIP-341: the internal key is the group's x coordinate, with the even y. */
static int tweak_key(terms *t, int group_odd, span root) {
    uint8_t hashed[XONLY_LENGTH + 32];
    secp256k1_xonly_pubkey internal;
    point tweaked;
    int odd;
    if (root.length > 32) return 0;
    memcpy(hashed, t->key, XONLY_LENGTH);
    if (root.length > 0) memcpy(hashed + XONLY_LENGTH, root.bytes, root.length);
    if (!hash_tagged(t->tweak.bytes, "TapTweak", hashed, XONLY_LENGTH + root.length)) return 0;
    if (!secp256k1_xonly_pubkey_parse(curve_context(), &internal, t->key)) return 0;
    if (!secp256k1_xonly_pubkey_tweak_add(curve_context(), &tweaked, &internal, t->tweak.bytes)) return 0;
    if (!point_xonly(t->key, &odd, &tweaked)) return 0;
    t->tweaked = 1;
    t->key_negated = group_odd ^ odd;
    return !odd || scalar_negate(&t->tweak);
}

int key_terms(terms *t, const group *g, uint8_t type, span root) {
    point key;
    int odd;
    memset(t, 0, sizeof *t);
    if (type == RC_FROST || type > RC_TAPROOT_ROOT) return 0;
    if (!point_read(&key, g->key) || !point_xonly(t->key, &odd, &key)) return 0;
    t->key_negated = odd;
    return type == RC_SCHNORR || tweak_key(t, odd, root);
}

/* The signers are known and ascend; their keys together. */
static int gather_keys(terms *t, const group *g, const signing *s) {
    if (s->count > RC_SIGNER_LIMIT) return 0;
    for (uint32_t i = 0; i < s->count; i++) {
        const member *m = group_member(g, s->commitments[i].signer);
        if (m == NULL || (i > 0 && s->commitments[i - 1].signer >= m->id)) return 0;
        memcpy(t->keys + t->key_count, m->keys, m->key_count * sizeof *m->keys);
        t->key_count += m->key_count;
    }
    return t->key_count >= g->threshold;
}

/* Over the key, the signer's own id, all nonces and the message, so that no nonce can be chosen after the others are known. */
static int binding_factors(terms *t, const signing *s) {
    uint8_t hashed[XONLY_LENGTH + 8 + RC_SIGNER_LIMIT * (4 + NONCE_LENGTH) + RC_MESSAGE_LIMIT];
    size_t length = XONLY_LENGTH + 8;
    if (s->message.length > RC_MESSAGE_LIMIT) return 0;
    memcpy(hashed, t->key, XONLY_LENGTH);
    put_number(hashed + XONLY_LENGTH + 4, 4, s->count);
    for (uint32_t i = 0; i < s->count; i++) {
        put_number(hashed + length, 4, s->commitments[i].signer);
        memcpy(hashed + length + 4, s->commitments[i].bytes, NONCE_LENGTH);
        length += 4 + NONCE_LENGTH;
    }
    if (s->message.length > 0) memcpy(hashed + length, s->message.bytes, s->message.length);
    length += s->message.length;
    int good = 1;
    for (uint32_t i = 0; i < s->count; i++) {
        put_number(hashed + XONLY_LENGTH, 4, s->commitments[i].signer);
        good = good && hash_tagged(t->binding[i].bytes, "RoundCabinet/host/binding", hashed, length);
    }
    return good;
}

int bound_nonce(point *to, const terms *t, const signing *s, uint32_t i) {
    point bound;
    return point_read(to, s->commitments[i].bytes) && point_read(&bound, s->commitments[i].bytes + POINT_LENGTH) &&
           point_multiply(&bound, &t->binding[i]) && point_add(to, &bound) && (!t->nonce_negated || point_negate(to));
}

static int common_nonce(terms *t, const signing *s) {
    point sum, next;
    int odd, good = bound_nonce(&sum, t, s, 0);
    for (uint32_t i = 1; i < s->count; i++) good = good && bound_nonce(&next, t, s, i) && point_add(&sum, &next);
    good = good && point_xonly(t->nonce, &odd, &sum);
    if (good) t->nonce_negated = odd;
    return good;
}

static int challenge(terms *t, span message) {
    uint8_t hashed[2 * XONLY_LENGTH + RC_MESSAGE_LIMIT];
    memcpy(hashed, t->nonce, XONLY_LENGTH);
    memcpy(hashed + XONLY_LENGTH, t->key, XONLY_LENGTH);
    if (message.length > 0) memcpy(hashed + 2 * XONLY_LENGTH, message.bytes, message.length);
    return hash_tagged(t->challenge.bytes, "BIP0340/challenge", hashed, 2 * XONLY_LENGTH + message.length);
}

int signing_terms(terms *t, const group *g, const signing *s) {
    return key_terms(t, g, s->type, s->root) && gather_keys(t, g, s) && binding_factors(t, s) && common_nonce(t, s) &&
           challenge(t, s->message);
}

int lagrange(scalar *to, const terms *t, uint32_t key) {
    scalar below = scalar_number(1);
    *to = scalar_number(1);
    for (uint32_t i = 0; i < t->key_count; i++) {
        const uint32_t other = t->keys[i];
        if (other == key) continue;
        const scalar number = scalar_number(other);
        scalar difference = scalar_number(other > key ? other - key : key - other);
        if (other < key && !scalar_negate(&difference)) return 0;
        if (!scalar_multiply(to, &number) || !scalar_multiply(&below, &difference)) return 0;
    }
    return scalar_invert(&below) && scalar_multiply(to, &below);
}
