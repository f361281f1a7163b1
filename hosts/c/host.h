/*
 * The coordinator's host: it holds the three buffers and the keys, judges seals, and makes each call of the library. It sends nothing
 * itself: where a call's answer is a packet, the sealed packet lies in `send`, and whoever called saves state and store first.
 */
#ifndef HOST_HOST_H
#define HOST_HOST_H

#include "aggregate.h"
#include "seal.h"

typedef struct host {
    const group *group;
    scalar seal;
    uint8_t state[RC_STATE_LENGTH];
    uint8_t store[RC_STORE_LENGTH];
    uint8_t out[RC_ANSWER_LENGTH];
    sealed send;
    uint64_t iteration; /* of the packet that is to be answered */
} host;

typedef struct host_timeouts {
    uint64_t nonces; /* nanoseconds */
    uint64_t shares;
} host_timeouts;

enum { HOST_DKG_ID = 7 }; /* the dealing stands for this key generation */

/* The calls of the key generation and before: commissioning, the held keys, the results. 1 where each was taken. */
int host_commission(host *h, host_timeouts timeouts);

/* Whether no round is in hand. */
int host_idle(host *h);
/* Starts in Idle alone. Elsewhere the answer is 11 and the library is not called: a start that it refuses with 11 has already replaced
 * message and sign id, and one that it takes while shares are gathered puts itself in the place of the round in hand. */
rc_answer host_start(host *h, uint64_t clock, uint8_t type, span message, span root);
/* A packet has come. rc_process, which looks at the timeout first, or rc_process_message, which does not. What this host does not hear
 * (host_hears) is dropped before: nothing to do. */
rc_answer host_take(host *h, uint64_t clock, const sealed *s);
rc_answer host_take_untimed(host *h, uint64_t clock, const sealed *s);
rc_answer host_timeout(host *h, uint64_t clock);
/* Who has answered the current message, and when: kind 35, in a packet of the caller's. The host is only read. */
rc_answer host_arrivals(const host *h, packet *told);
/* Does the job that a call answered (its bytes and its mark), and says to the library whether there is a signature now. */
rc_answer host_do_job(host *h, span job, int whole, aggregation *a);
/* Gives up a round. The library then knows nobody who ended key generation, so it is told again. */
int host_give_up(host *h);

/* This host is the only coordinator, so a coordinator's packet that comes in is one of its own, played back: Idle would begin a round by
 * it. A share of an earlier iteration, late or twice, is not for now: the library does not compare it, as fire.rs does not. And of nonces
 * that name a key twice no whole job comes: left unheard they cost nobody anything, since nonces that are late strike nobody, and others'
 * keys may suffice. */
int host_hears(const host *h, const packet *p);
/* The packet that is to be answered: where a host starts again, the one that it had saved. */
void host_outstanding(host *h, const packet *p);

/* Whether the seal is that of whom the packet names: of a configured signer, or of the coordinator. */
int host_verdict(const group *g, const sealed *s);
span host_out(const host *h, const rc_answer *a);

#endif
