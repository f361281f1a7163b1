/*
 * Who is who: the signers with their keys, as everybody knows them, and what each of them alone knows. Plain bytes and numbers, so that a
 * program may keep them in a file for itself.
 *
 * The form is WSTS's second one, weighted: a signer holds several keys, gives ONE nonce pair for all of them and answers with ONE share,
 * the sum over its keys. Here a dealer draws the group's secret, deals it and forgets it; real signers generate their keys together.
 */
#ifndef HOST_GROUP_H
#define HOST_GROUP_H

#include "curve.h"
#include "packets.h"

typedef struct member {
    uint32_t id;
    uint32_t key_count;
    uint32_t keys[RC_KEY_LIMIT];
    uint8_t key_points[RC_KEY_LIMIT][POINT_LENGTH]; /* the public side of each key's secret */
    uint8_t seal_key[XONLY_LENGTH];                 /* its packets' seals are verified with it */
} member;

typedef struct group {
    uint32_t threshold; /* so many keys sign */
    uint32_t key_total;
    uint32_t member_count;
    member members[RC_SIGNER_LIMIT];
    uint8_t key[POINT_LENGTH];
    uint8_t host_seal_key[XONLY_LENGTH];
} group;

/* What a signer keeps to itself: a secret for each of its keys, and the key of its seals. */
typedef struct member_secrets {
    scalar keys[RC_KEY_LIMIT];
    scalar seal;
} member_secrets;

/* Signers 0 to 3 with keys {1, 2}, {3}, {4, 5}, {6}; four keys sign. secrets has a place for each of them. */
int deal(group *g, member_secrets *secrets, scalar *host_seal);

const member *group_member(const group *g, uint32_t id);
/* Its key ids as a packet has them; the length in bytes. */
size_t member_keys(const member *m, uint8_t to[KEY_LENGTH * RC_KEY_LIMIT]);

#endif
