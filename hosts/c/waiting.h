/*
 * Whom an operator would call before the timeout: who has answered the nonce request that is out, when, and who is still waited for.
 */
#ifndef HOST_WAITING_H
#define HOST_WAITING_H

#include "host.h"

typedef struct waiting {
    rc_arrivals answered;  /* ascending by signer; the readings are those that this host gave */
    rc_signer_ids missing; /* configured signers that have not answered, and would be heard: nobody who is struck */
} waiting;

/* request is the coordinator's packet that is out. 1 where the library told; it changes nothing. */
int find_waiting(const host *h, span request, waiting *w);
/* For how long the missing are waited for, and after how long each other signer answered; asked is when the nonces were asked for. */
void waiting_words(char *to, size_t room, const waiting *w, uint64_t asked, uint64_t now);

#endif
