/*
 * A signer: it answers nonce requests and share requests. One nonce pair signs one request, for ever: shares for several requests with
 * it are equations that give the key away. So it keeps what it answered: the same request gets the same bytes again, seal included, and
 * another request for a used nonce gets nothing.
 */
#ifndef HOST_SIGNER_H
#define HOST_SIGNER_H

#include "seal.h"
#include "terms.h"

enum { ANSWER_LIMIT = 512 }; /* one nonce pair, or one share, and a whole message */

typedef struct kept_answer {
    size_t length;
    uint8_t bytes[ANSWER_LIMIT];
    uint8_t seal[SIGNATURE_LENGTH];
} kept_answer;

/* A nonce request that was answered, and the share request that was, if one came. */
typedef struct kept {
    struct kept *next;
    uint8_t nonce_request[HASH_LENGTH];
    scalar nonces[2]; /* wiped when they have signed */
    kept_answer commitment;
    int signed_once;
    uint8_t share_request[HASH_LENGTH];
    kept_answer share;
} kept;

typedef struct signer {
    const group *group;
    const member *self;
    member_secrets secrets;
    kept *first;
} signer;

/* Why a signer answers, or keeps silent. */
typedef enum reply {
    REPLY_NONCES,
    REPLY_NONCES_AGAIN,
    REPLY_SHARE,
    REPLY_SHARE_AGAIN,
    SILENT_SEAL,      /* not the coordinator's seal */
    SILENT_PACKET,    /* no packet for signers */
    SILENT_NOT_NAMED, /* a share request without this signer's nonces */
    SILENT_OTHER,     /* a share request that is not what the nonces were given for */
    SILENT_USED,      /* a share request for nonces that have signed another */
    SILENT_FAILED     /* the sums cannot be done, or no memory */
} reply;

void signer_open(signer *s, const group *g, uint32_t id, const member_secrets *secrets);
void signer_close(signer *s);
/* Takes a packet of the coordinator's; answer is sealed where there is one. */
reply signer_take(signer *s, const sealed *request, sealed *answer);
/* Whether a share request names this signer. */
int signer_named(const signer *s, const packet *request);
const char *reply_words(reply r);
int reply_answers(reply r);

#endif
