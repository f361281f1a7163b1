/*
 * Eight threads at once, each with buffers of its own and a stack of RC_STACK and a little for its own frames: rounds with a retry in them. All
 * threads make the same calls, so in the end all of them hold the same bytes. Then eight that ask one coordinator who has answered, each with
 * an out of its own: state and store, which are only read, are the same for all. Nonces and shares are made up.
 */
#include "packets.h"

#include <pthread.h>
#include <stdio.h>
#include <string.h>

enum { THREADS = 8, ROUNDS = 200, QUERIES = 2000, SIGNERS = 3, DKG = 7, LATE = 10, OWN_FRAMES = 32 * 1024 };

typedef struct buffers {
    uint8_t state[RC_STATE_LENGTH], store[RC_STORE_LENGTH], out[RC_ANSWER_LENGTH];
    packet packet;
    int failures;
} buffers;

static buffers all[THREADS];

#define LENT d->state, sizeof d->state, d->store, sizeof d->store

static rc_config configuration(void) {
    rc_config c;
    memset(&c, 0, sizeof c);
    c.signer_count = c.num_signers = c.num_keys = SIGNERS;
    c.threshold = c.sign_threshold = 2;
    c.sign_timeout = (rc_timeout){1, LATE};
    for (uint32_t i = 0; i < SIGNERS; i++) {
        c.signers[i].id = i;
        c.signers[i].key_count = c.signers[i].has_keys = 1;
        c.signers[i].keys[0] = i + 1;
    }
    return c;
}

static void expect(buffers *d, rc_answer a, uint32_t class_) { d->failures += a.class_ != class_ || a.number != 0; }

/* A signer answers the request in out, or a later one of the same round. The clock is the signer's id. */
static rc_answer respond(buffers *d, uint32_t signer, uint64_t iteration, int share) {
    static const uint8_t words[] = "payout 7";
    const rc_response_head head = {DKG, 1, iteration, signer, 0};
    const uint32_t key = signer + 1, one = 1;
    uint8_t bytes[NONCE_LENGTH], *to = d->packet.bytes;
    memset(bytes, 2, sizeof bytes);
    const rc_written w =
        share ? rc_write_signature_share_response(to, PACKET_LIMIT, head, &signer, 1, bytes, Z_LENGTH, &one, 1, &key, 1)
              : rc_write_nonce_response(to, PACKET_LIMIT, head, words, sizeof words, &key, 1, bytes, sizeof bytes);
    d->failures += !packet_written(&d->packet, w);
    return rc_process_message(LENT, d->out, sizeof d->out, signer, 1, d->packet.bytes, d->packet.length);
}

/* Signers 0 and 1 give nonces; 0 gives its share and 1 does not. Then the retry, without 1. */
static void round_with_a_retry(buffers *d) {
    static const uint8_t words[] = "payout 7";
    static const uint32_t ended[SIGNERS] = {0, 1, 2};
    expect(d, rc_commission(LENT, configuration()), RC_NOTHING);
    expect(d, rc_set_group_key(LENT, 1), RC_NOTHING);
    expect(d, rc_take_results(LENT, DKG, ended, SIGNERS), RC_NOTHING);
    expect(d, rc_start_signing_round(LENT, d->out, sizeof d->out, 0, words, sizeof words, RC_SCHNORR, NULL, 0, 0, 0), RC_PACKET);
    for (uint64_t iteration = 1; iteration <= 2; iteration++) {
        const uint32_t other = (uint32_t)iteration;
        expect(d, respond(d, 0, iteration, 0), RC_NOTHING);
        expect(d, respond(d, other, iteration, 0), RC_PACKET);
        expect(d, respond(d, 0, iteration, 1), RC_NOTHING);
        if (iteration == 1) expect(d, rc_process_timeout(LENT, d->out, sizeof d->out, 2 * LATE), RC_PACKET);
    }
    expect(d, respond(d, 2, 2, 1), RC_JOB);
    expect(d, rc_aggregated(LENT, 1), RC_RESULT);
}

static void *work(void *of) {
    for (int i = 0; i < ROUNDS; i++) round_with_a_retry(of);
    return NULL;
}

/* Of the first coordinator: signers 0 and 2 have answered the retry, at 0 and at 2. */
static void *ask(void *of) {
    static const uint8_t arrivals[] = {RC_KIND_ARRIVALS, 0, 2, [32] = 48, [36] = 8, [40] = 56, [44] = 16, [52] = 2, [64] = 2, [71] = 0};
    const buffers *first = &all[0];
    buffers *d = of;
    for (int i = 0; i < QUERIES; i++) {
        memset(d->out, i, sizeof arrivals);
        expect(d, rc_tell_arrivals(first->state, sizeof first->state, first->store, sizeof first->store, d->out, sizeof d->out), RC_RESULT);
        d->failures += memcmp(d->out, arrivals, sizeof arrivals) != 0;
    }
    return NULL;
}

/* Each thread has its own buffers in hand. Afterwards all of them hold the same bytes. */
static int at_once(const pthread_attr_t *small, void *(*begin)(void *)) {
    pthread_t threads[THREADS];
    int begun = 0, failures = 0;
    while (begun < THREADS && pthread_create(&threads[begun], small, begin, &all[begun]) == 0) begun++;
    failures += begun != THREADS;
    for (int i = 0; i < begun; i++) failures += pthread_join(threads[i], NULL) != 0;
    for (int i = 0; i < THREADS; i++) failures += all[i].failures + (memcmp(&all[i], &all[0], sizeof all[0]) != 0);
    return failures;
}

int main(void) {
    pthread_attr_t small;
    int failures = pthread_attr_init(&small) || pthread_attr_setstacksize(&small, RC_STACK + OWN_FRAMES);
    failures += at_once(&small, work);
    printf("%d threads at once, %d rounds each\n", THREADS, ROUNDS);
    failures += at_once(&small, ask);
    printf("%d threads at once, %d queries each, of one coordinator\n", THREADS, QUERIES);
    printf(failures ? "%d wrong\n" : "all as it should be\n", failures);
    return failures != 0;
}
