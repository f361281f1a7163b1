/*
 * The aggregator: from a job (kind 32) to a BIP-340 signature. It believes nothing that it can test: each share is tested against the
 * signer's public keys, so that a wrong one has a name, and the signature is verified by libsecp256k1 before anybody hears of it.
 */
#ifndef HOST_AGGREGATE_H
#define HOST_AGGREGATE_H

#include "terms.h"

typedef enum aggregate_verdict {
    AGGREGATED,
    JOB_NOT_WHOLE,  /* the mark says so: a responder's shares are missing, or a key is named twice */
    JOB_UNREADABLE, /* not one nonce pair and one share a signer, or keys that are not its own */
    SHARE_WRONG,    /* signer says whose */
    SUM_WRONG       /* the sums cannot be done, or the signature does not verify */
} aggregate_verdict;

typedef struct aggregation {
    aggregate_verdict verdict;
    uint32_t signer;
    uint8_t key[XONLY_LENGTH];
    uint8_t signature[SIGNATURE_LENGTH];
} aggregation;

aggregation aggregate(const group *g, span job, int whole);
const char *aggregate_words(aggregate_verdict v);

#endif
