/*
 * Keys that are named twice. The library records a nonce response that names a key twice, as fire.rs does, and the job that joins it is
 * not whole: an aggregator wants each participant once.
 */
#ifndef HOST_REPEATS_H
#define HOST_REPEATS_H

#include "packets.h"

/* Whether a list of key ids names one of them twice. */
int names_twice(span keys);

/* The first key that is named twice in a share request (kind 3), which has each response as it was sent. Where first and second are one
 * signer, its own list names the key twice; else the key is in the sets of both, and the configuration is wrong. */
typedef struct repeat {
    int found;
    uint32_t key;
    uint32_t first;
    uint32_t second;
} repeat;

repeat find_repeat(span share_request);

#endif
