/*
 * The sums that signers and aggregator must agree about: the key that is signed for, each signer's binding factor, the common nonce, the
 * challenge.
 *
 * BIP-340 wants key and nonce with an even y. So a secret whose point is odd enters with a minus, and for Taproot there are two such
 * places: the group's key before BIP-341's tweak, and the tweaked key. The tweak itself is added once, by the aggregator.
 */
#ifndef HOST_TERMS_H
#define HOST_TERMS_H

#include "group.h"

typedef struct commitment {
    uint32_t signer;
    uint8_t bytes[NONCE_LENGTH]; /* D, E */
} commitment;

/* What is signed, and with whose nonces, ascending by signer. */
typedef struct signing {
    uint8_t type;
    span message;
    span root;
    uint32_t count;
    commitment commitments[RC_SIGNER_LIMIT];
} signing;

typedef struct terms {
    uint8_t key[XONLY_LENGTH]; /* whom the signature is for: the group's key, or the tweaked one */
    int key_negated;
    int tweaked;
    scalar tweak; /* its sign included */
    scalar binding[RC_SIGNER_LIMIT];
    uint8_t nonce[XONLY_LENGTH];
    int nonce_negated;
    scalar challenge;
    uint32_t key_count; /* keys of all the signers together */
    uint32_t keys[RC_SIGNER_LIMIT * RC_KEY_LIMIT];
} terms;

/* Only the key: what a verifier needs. A type of 0 (Frost) is not signed by this host. */
int key_terms(terms *t, const group *g, uint8_t type, span root);
/* All of it. Fails where a signer is unknown, they do not ascend, or their keys are fewer than the threshold. */
int signing_terms(terms *t, const group *g, const signing *s);
/* The Lagrange coefficient of a key at 0, among t's keys. */
int lagrange(scalar *to, const terms *t, uint32_t key);
/* D + binding factor times E, with the nonce's sign. */
int bound_nonce(point *to, const terms *t, const signing *s, uint32_t i);

#endif
