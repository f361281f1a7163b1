/*
 * Each call on a stack of exactly the size that the header names, with a page below it that nobody may touch, over each path that calls can take: started,
 * recorded, share request, job, retry, both timeouts, each refusal. Ten signers of 16 keys; nonces and shares are made up. Prints how deep each call got.
 *
 * Only the call runs on that stack, with the frame that hands it its arguments; the program itself has its own.
 */
#include "packets.h"
#include "small_stack.h"

#include <stdio.h>
#include <string.h>

enum { SIGNERS = RC_SIGNER_LIMIT, KEYS = RC_KEY_LIMIT, DKG = 7, LATE = 1000, NO_ID = 99 };

/* What the next call is given; a story changes what it needs. Neither this nor what is answered is static: a compiler would not see that the calls below, which
 * are made past it, read and write them. */
struct {
    size_t state_length, store_length, out_length;
    uint64_t clock, dkg_id;
    uint8_t flag, type, next;
    span packet, message, root;
    uint32_t ended[SIGNERS + 1];
    size_t ended_count;
    rc_config config;
    rc_head head;
    rc_responses responses;
    rc_job_places job;
    rc_signer_ids ids;
    rc_arrivals arrivals;
    rc_response_head response;
    size_t key_count;
    uint16_t part;
} given;

static uint8_t state[RC_STATE_LENGTH], store[RC_STORE_LENGTH], out[RC_ANSWER_LENGTH], source[4096];
static const uint8_t words[RC_MESSAGE_LIMIT + 1] = "payout 7";
static uint8_t bytes[KEYS * NONCE_LENGTH]; /* made-up nonces, shares and roots */
static uint32_t ones[KEYS + 1];            /* ids and counts of a response */
rc_answer answer;
rc_packet header;
rc_part part;
rc_written written;

#define STATE state, given.state_length
#define STORE store, given.store_length
#define OUT out, given.out_length
#define PACKET given.packet.bytes, given.packet.length
#define MESSAGE given.message.bytes, given.message.length
#define ROOT given.root.bytes, given.root.length
#define SOURCE source, sizeof source

static void commission(void) { answer = rc_commission(STATE, STORE, given.config); }
static void set_coordinator_key(void) { answer = rc_set_coordinator_key(STATE, STORE, given.flag); }
static void set_group_key(void) { answer = rc_set_group_key(STATE, STORE, given.flag); }
static void take_results(void) { answer = rc_take_results(STATE, STORE, given.dkg_id, given.ended, given.ended_count); }
static void start(void) { answer = rc_start_signing_round(STATE, STORE, OUT, given.clock, MESSAGE, given.type, ROOT, 0, 0); }
static void process(void) { answer = rc_process(STATE, STORE, OUT, given.clock, given.flag, PACKET); }
static void process_message(void) { answer = rc_process_message(STATE, STORE, OUT, given.clock, given.flag, PACKET); }
static void process_timeout(void) { answer = rc_process_timeout(STATE, STORE, OUT, given.clock); }
static void tell_arrivals(void) { answer = rc_tell_arrivals(STATE, STORE, OUT); }
static void aggregated(void) { answer = rc_aggregated(STATE, STORE, given.flag); }
static void reset(void) { answer = rc_reset(STATE, STORE); }
static void can_move_to(void) { answer = rc_can_move_to(STATE, STORE, given.next, given.type, ROOT); }
static void is_idle(void) { answer.first = (uint64_t)rc_is_idle(STATE, STORE); }
static void read_packet(void) { header = rc_read_packet(PACKET); }
static void packet_part_of(void) { part = rc_packet_part(PACKET, given.part); }
static void version(void) { header.refusal = rc_version() != RC_VERSION; }
static void write_nonce_request(void) { written = rc_write_nonce_request(OUT, given.head, MESSAGE); }
static void write_share_request(void) { written = rc_write_signature_share_request(OUT, given.head, MESSAGE, SOURCE, given.responses); }
static void write_job(void) { written = rc_write_job(OUT, given.head, MESSAGE, SOURCE, given.job); }
static void write_dkg_begin(void) { written = rc_write_dkg_begin(OUT, given.dkg_id); }
static void write_dkg_signer(void) { written = rc_write_dkg_signer(OUT, 3, given.dkg_id); }
static void write_dkg_coordinator(void) { written = rc_write_dkg_coordinator(OUT, given.dkg_id); }
static void write_nonce_timeout(void) { written = rc_write_nonce_timeout(OUT, given.ids, given.ids); }
static void write_insufficient_signers(void) { written = rc_write_insufficient_signers(OUT, given.ids); }
static void write_arrivals(void) { written = rc_write_arrivals(OUT, given.arrivals); }
static void write_nonce_response(void) {
    written = rc_write_nonce_response(OUT, given.response, MESSAGE, ones, given.key_count, bytes, sizeof bytes);
}
static void write_share_response(void) {
    written = rc_write_signature_share_response(OUT, given.response, ones, KEYS, bytes, Z_LENGTH * KEYS, ones, KEYS, ones, given.key_count);
}

typedef struct call {
    const char *name;
    size_t stack;
    void (*make)(void);
    size_t deepest;
    int times;
} call;

enum { COMMISSION, COORDINATOR_KEY, GROUP_KEY, RESULTS, START, PROCESS, PROCESS_MESSAGE, TIMEOUT, TELL_ARRIVALS, AGGREGATED, RESET, MOVE, IDLE, READ, PART,
       VERSION, NONCE_REQUEST, SHARE_REQUEST, JOB, DKG_BEGIN, DKG_SIGNER, DKG_COORDINATOR, NONCE_TIMEOUT, INSUFFICIENT, ARRIVALS, NONCE_RESPONSE,
       SHARE_RESPONSE, CALLS };

static call calls[CALLS] = {
    [COMMISSION] = {"rc_commission", RC_STACK_COMMISSION, commission, 0, 0},
    [COORDINATOR_KEY] = {"rc_set_coordinator_key", RC_STACK_CALL, set_coordinator_key, 0, 0},
    [GROUP_KEY] = {"rc_set_group_key", RC_STACK_CALL, set_group_key, 0, 0},
    [RESULTS] = {"rc_take_results", RC_STACK_CALL, take_results, 0, 0},
    [START] = {"rc_start_signing_round", RC_STACK_CALL, start, 0, 0},
    [PROCESS] = {"rc_process", RC_STACK_PROCESS, process, 0, 0},
    [PROCESS_MESSAGE] = {"rc_process_message", RC_STACK_PROCESS, process_message, 0, 0},
    [TIMEOUT] = {"rc_process_timeout", RC_STACK_CALL, process_timeout, 0, 0},
    [TELL_ARRIVALS] = {"rc_tell_arrivals", RC_STACK_CALL, tell_arrivals, 0, 0},
    [AGGREGATED] = {"rc_aggregated", RC_STACK_CALL, aggregated, 0, 0},
    [RESET] = {"rc_reset", RC_STACK_CALL, reset, 0, 0},
    [MOVE] = {"rc_can_move_to", RC_STACK_CALL, can_move_to, 0, 0},
    [IDLE] = {"rc_is_idle", RC_STACK_CALL, is_idle, 0, 0},
    [READ] = {"rc_read_packet", RC_STACK_PACKET, read_packet, 0, 0},
    [PART] = {"rc_packet_part", RC_STACK_PACKET, packet_part_of, 0, 0},
    [VERSION] = {"rc_version", RC_STACK_PACKET, version, 0, 0},
    [NONCE_REQUEST] = {"rc_write_nonce_request", RC_STACK_PACKET, write_nonce_request, 0, 0},
    [SHARE_REQUEST] = {"rc_write_signature_share_request", RC_STACK_PACKET, write_share_request, 0, 0},
    [JOB] = {"rc_write_job", RC_STACK_PACKET, write_job, 0, 0},
    [DKG_BEGIN] = {"rc_write_dkg_begin", RC_STACK_PACKET, write_dkg_begin, 0, 0},
    [DKG_SIGNER] = {"rc_write_dkg_signer", RC_STACK_PACKET, write_dkg_signer, 0, 0},
    [DKG_COORDINATOR] = {"rc_write_dkg_coordinator", RC_STACK_PACKET, write_dkg_coordinator, 0, 0},
    [NONCE_TIMEOUT] = {"rc_write_nonce_timeout", RC_STACK_PACKET, write_nonce_timeout, 0, 0},
    [INSUFFICIENT] = {"rc_write_insufficient_signers", RC_STACK_PACKET, write_insufficient_signers, 0, 0},
    [ARRIVALS] = {"rc_write_arrivals", RC_STACK_PACKET, write_arrivals, 0, 0},
    [NONCE_RESPONSE] = {"rc_write_nonce_response", RC_STACK_PACKET, write_nonce_response, 0, 0},
    [SHARE_RESPONSE] = {"rc_write_signature_share_response", RC_STACK_PACKET, write_share_response, 0, 0},
};

static int failures;

static void make(int which) {
    call *c = &calls[which];
    const size_t depth = small_stack_make(c->name, c->stack, c->make);
    if (depth > c->deepest) c->deepest = depth;
    c->times++;
}

static void expect(const char *what, int good) {
    if (!good) printf("WRONG: %s\n", what);
    failures += !good;
}

static void answers(int which, uint32_t class_, uint32_t number) {
    make(which);
    if (answer.class_ == class_ && answer.number == number) return;
    printf("WRONG: %s answers class %u, number %u in the place of %u, %u\n", calls[which].name, answer.class_, answer.number, class_, number);
    failures++;
}

static void refuses(int which, uint32_t number) { answers(which, RC_ERROR, number); }
static void takes(int which) { answers(which, RC_NOTHING, 0); }

/* The query names so many signers. */
static void tells(uint64_t count) {
    answers(TELL_ARRIVALS, RC_RESULT, 0);
    expect("kind 35, with so many signers", out[0] == RC_KIND_ARRIVALS && answer.length == 48 + 12 * count);
}

/* --- stories */

static const span no_message = {words, 0};

/* Arguments that are good everywhere. */
static void good(void) {
    memset(&given, 0, sizeof given);
    given.state_length = sizeof state;
    given.store_length = sizeof store;
    given.out_length = sizeof out;
    given.flag = 1;
    given.dkg_id = DKG;
    given.message = (span){words, RC_MESSAGE_LIMIT};
    given.root = (span){bytes, 32};
    given.packet = given.message;
    given.ended_count = SIGNERS;
    given.config.num_signers = SIGNERS;
    given.config.num_keys = SIGNERS * KEYS;
    given.config.threshold = (SIGNERS - 1) * KEYS;
    given.config.sign_threshold = (SIGNERS - 1) * KEYS;
    given.config.verify_packet_sigs = 1;
    given.config.nonce_timeout = given.config.sign_timeout = (rc_timeout){1, LATE};
    given.config.signer_count = SIGNERS;
    for (uint32_t i = 0; i < SIGNERS; i++) {
        given.ended[i] = i;
        given.config.signers[i].id = i;
        given.config.signers[i].has_keys = 1;
        given.config.signers[i].key_count = KEYS;
        for (uint32_t k = 0; k < KEYS; k++) given.config.signers[i].keys[k] = KEYS * i + k;
    }
}

static const uint32_t *keys_of(uint32_t signer) {
    static uint32_t keys[KEYS];
    for (uint32_t k = 0; k < KEYS; k++) keys[k] = KEYS * signer + k;
    return keys;
}

static void give(packet *p, rc_written w) {
    expect("a packet", packet_written(p, w));
    given.packet = span_of(p);
}

/* The ids of a request that a signer answers. */
typedef struct request_ids {
    uint64_t dkg, sign, iteration;
} request_ids;

/* The current request's ids are those of the last packet out. */
static request_ids current;

static void heed(void) { current = (request_ids){DKG, number_at(out + 16, 8), number_at(out + 24, 8)}; }

static rc_response_head response_head(uint32_t signer, request_ids ids) {
    return (rc_response_head){ids.dkg, ids.sign, ids.iteration, signer, 0};
}

static void nonces(uint32_t signer, request_ids ids, span message) {
    static packet p;
    give(&p, rc_write_nonce_response(p.bytes, sizeof p.bytes, response_head(signer, ids), message.bytes, message.length, keys_of(signer), KEYS, bytes,
                                     sizeof bytes));
}

/* One share, for all those keys. */
static void shares(uint32_t signer, request_ids ids, const uint32_t *keys) {
    static packet p;
    const uint32_t count = KEYS;
    give(&p, rc_write_signature_share_response(p.bytes, sizeof p.bytes, response_head(signer, ids), &signer, 1, bytes, Z_LENGTH, &count, 1, keys, KEYS));
}

static void ready(void) {
    good();
    takes(COMMISSION);
    takes(COORDINATOR_KEY);
    takes(GROUP_KEY);
    takes(RESULTS);
}

static void started(uint8_t type) {
    ready();
    given.type = type;
    answers(START, RC_PACKET, 0);
    heed();
}

/* All but the last signer have answered. */
static void to_shares(int entry) {
    started(RC_TAPROOT_ROOT);
    for (uint32_t i = 0; i + 1 < SIGNERS; i++) {
        nonces(i, current, given.message);
        answers(entry, i + 2 < SIGNERS ? RC_NOTHING : RC_PACKET, 0);
    }
    expect("a share request", out[0] == RC_KIND_SHARE_REQUEST);
    heed();
}

/* Questions that are asked of every call that is lent a state: 4, 5 and, where a buffer is written to, 7. */
static void asked_first(int which) {
    good();
    given.packet = (span){out, 0};
    memset(state, 0, sizeof state);
    refuses(which, RC_REFUSED_STATE);
    ready();
    given.store_length--;
    refuses(which, RC_REFUSED_STATE);
    given.store_length++;
    if (which >= START && which <= TELL_ARRIVALS) {
        given.out_length--;
        refuses(which, RC_REFUSED_ROOM);
    }
}

static void configurations(void) {
    good();
    given.state_length--;
    refuses(COMMISSION, RC_REFUSED_STATE);
    good();
    given.config.signer_count = RC_SIGNER_PLACES;
    refuses(COMMISSION, RC_REFUSED_SIGNERS);
    good();
    given.config.signers[9].id = 0;
    refuses(COMMISSION, RC_REFUSED_SIGNERS);
    good();
    given.config.signers[9].keys[KEYS - 1] = KEYS * 9;
    refuses(COMMISSION, RC_REFUSED_KEYS);
    good();
    given.config.num_keys--;
    refuses(COMMISSION, RC_REFUSED_TOTAL);
    ready();
    given.ended[9] = NO_ID;
    refuses(RESULTS, RC_REFUSED_ENDED);
    given.ended_count++;
    refuses(RESULTS, RC_REFUSED_ENDED);
    refuses(AGGREGATED, RC_REFUSED_NO_JOB);
}

static void starts(void) {
    for (uint8_t type = RC_FROST; type <= RC_TAPROOT_ROOT; type++) {
        started(type);
        refuses(START, RC_REFUSED_MOVE);
        refuses(RESULTS, RC_REFUSED_NOT_IDLE);
        for (given.next = 0; given.next <= 14; given.next++) answers(MOVE, RC_RESULT, 0);
        refuses(MOVE, RC_REFUSED_LAYOUT);
        make(IDLE);
        takes(RESET);
        make(IDLE);
        given.message.length++;
        refuses(START, RC_REFUSED_LIMIT);
    }
    given.type = 4;
    refuses(START, RC_REFUSED_LAYOUT);
    ready();
    given.flag = 0;
    takes(GROUP_KEY);
    refuses(START, RC_REFUSED_GROUP_KEY);
}

/* What a packet meets before its kind is looked at, and in Idle. */
static void in_idle(int entry) {
    static packet p;
    rc_written w;
    ready();
    given.packet.length = 31;
    refuses(entry, RC_REFUSED_LAYOUT);
    w = rc_write_nonce_request(p.bytes, sizeof p.bytes, (rc_head){.dkg_id = DKG, .sign_id = 1, .sign_iter_id = 1}, words, 8);
    given.packet = (span){p.bytes, (size_t)w.length};
    given.flag = 0;
    refuses(entry, RC_REFUSED_SEAL);
    takes(COORDINATOR_KEY);
    refuses(entry, RC_REFUSED_COORDINATOR_KEY);
    takes(GROUP_KEY);
    given.flag = 1;
    takes(COORDINATOR_KEY);
    refuses(entry, RC_REFUSED_GROUP_KEY);
    takes(GROUP_KEY);
    answers(entry, RC_PACKET, 0);
    ready();
    w = rc_write_dkg_begin(p.bytes, sizeof p.bytes, DKG + 1);
    given.packet = (span){p.bytes, (size_t)w.length};
    refuses(entry, RC_REFUSED_DKG_BEGIN);
    nonces(NO_ID, (request_ids){DKG, 1, 1}, no_message);
    refuses(entry, RC_REFUSED_SEAL);
    nonces(1, (request_ids){DKG, 1, 1}, no_message);
    takes(entry);
}

static void while_nonces_are_gathered(int entry) {
    started(RC_SCHNORR);
    const request_ids other[] = {{DKG + 1, current.sign, current.iteration}, {DKG, current.sign + 1, current.iteration}, {DKG, current.sign, 9}};
    for (uint32_t i = 0; i < 3; i++) {
        nonces(1, other[i], given.message);
        refuses(entry, RC_REFUSED_DKG_ID + i);
    }
    for (uint32_t i = 0; i < 5; i++) {
        nonces(i, current, (span){words, 8 + i});
        answers(entry, i < 4 ? RC_NOTHING : RC_ERROR, i < 4 ? 0 : RC_REFUSED_MESSAGES);
    }
    given.packet.length--;
    refuses(entry, RC_REFUSED_LAYOUT);
    started(RC_SCHNORR);
    given.flag = 0;
    takes(GROUP_KEY);
    given.flag = 1;
    for (uint32_t i = 0; i + 1 < SIGNERS; i++) {
        tells(i);
        nonces(i, current, given.message);
        answers(entry, i + 2 < SIGNERS ? RC_NOTHING : RC_ERROR, i + 2 < SIGNERS ? 0 : RC_REFUSED_GROUP_KEY);
    }
    nonces(SIGNERS - 1, current, given.message);
    refuses(entry, RC_REFUSED_GROUP_KEY);
    tells(SIGNERS);
}

static void while_shares_are_gathered(int entry, int ok) {
    to_shares(entry);
    shares(1, (request_ids){DKG + 1, current.sign, current.iteration}, keys_of(1));
    answers(entry, RC_RESULT, RC_REFUSED_DKG_ID);
    shares(1, (request_ids){DKG, current.sign + 1, current.iteration}, keys_of(1));
    answers(entry, RC_RESULT, RC_REFUSED_SIGN_ID);
    shares(SIGNERS - 1, current, keys_of(SIGNERS - 1));
    takes(entry);
    if (!ok) {
        shares(0, current, keys_of(1));
        answers(entry, RC_RESULT, RC_REFUSED_WRONG_KEYS);
    }
    for (uint32_t i = ok ? 0 : 1; i + 1 < SIGNERS; i++) {
        shares(i, current, keys_of(i));
        answers(entry, i + 2 < SIGNERS ? RC_NOTHING : RC_JOB, 0);
    }
    expect("the mark", answer.mark == (uint64_t)ok);
    for (int which = COORDINATOR_KEY; which <= TELL_ARRIVALS; which++) refuses(which, RC_REFUSED_JOB_OUT);
    refuses(MOVE, RC_REFUSED_JOB_OUT);
    make(IDLE);
    given.flag = (uint8_t)ok;
    answers(AGGREGATED, RC_RESULT, ok ? 0 : RC_REFUSED_AGGREGATION);
    tells(SIGNERS - 1);
    takes(RESET);
    tells(0);
}

/* A timeout, asked by a call or by a packet that comes late. */
static void timeouts(int entry) {
    started(RC_FROST);
    given.clock = LATE + 1;
    nonces(0, current, given.message);
    refuses(entry, RC_REFUSED_NO_RECORD);
    given.clock = 1;
    takes(PROCESS_MESSAGE);
    takes(entry);
    given.clock = LATE + 1;
    answers(entry, RC_RESULT, 0);
    expect("kind 33", out[0] == RC_KIND_NONCE_TIMEOUT);
    to_shares(PROCESS_MESSAGE);
    for (uint32_t i = 1; i + 1 < SIGNERS; i++) {
        shares(i, current, keys_of(i));
        takes(PROCESS_MESSAGE);
    }
    given.clock = LATE + 1;
    answers(entry, RC_PACKET, 0);
    expect("the retry", out[0] == RC_KIND_NONCE_REQUEST);
    heed();
    for (uint32_t i = 1; i < SIGNERS; i++) {
        nonces(i, current, given.message);
        answers(PROCESS_MESSAGE, i + 1 < SIGNERS ? RC_NOTHING : RC_PACKET, 0);
    }
    given.clock = 2 * LATE + 3;
    answers(entry, RC_RESULT, 0);
    expect("kind 34", out[0] == RC_KIND_INSUFFICIENT_SIGNERS);
}

/* --- packets alone */

static void reads(void) {
    static packet p;
    good();
    for (size_t length = 0; length <= RC_MESSAGE_LIMIT + 1; length += RC_MESSAGE_LIMIT + 1) {
        given.packet.length = length;
        make(READ);
        make(PART);
    }
    to_shares(PROCESS_MESSAGE);
    memcpy(p.bytes, out, sizeof out);
    given.packet = (span){p.bytes, (size_t)answer.length};
    make(READ);
    expect("ten parts", header.refusal == 0 && header.pairs == SIGNERS + 1);
    for (given.part = 0; given.part <= header.pairs; given.part++) make(PART);
    expect("no such part", part.length == 0);
    nonces(0, current, given.message);
    make(READ);
    shares(0, current, keys_of(0));
    make(READ);
    make(VERSION);
    expect("the header's version", header.refusal == 0);
}

static void writes(void) {
    good();
    given.head.signature_type = RC_TAPROOT_ROOT;
    given.responses.count = given.job.count = given.ids.count = given.arrivals.count = SIGNERS;
    for (uint32_t i = 0; i < SIGNERS; i++) {
        const rc_place keys = {0, KEYS}, points = {0, KEYS};
        given.responses.places[i] = (rc_response){.signer_id = i, .message = {0, 8}, .key_ids = keys, .nonces = points};
        given.job.places[i] = (rc_job_place){keys, points, {0, KEYS}, 0, {1, 1, 1, 1, 1, 1, 1, 1, 1, 1, 1, 1, 1, 1, 1, 1}};
    }
    for (int which = NONCE_REQUEST; which <= ARRIVALS; which++) {
        given.out_length = sizeof out;
        make(which);
        expect("a packet is written", written.refusal == 0);
        given.out_length--;
        make(which);
        expect("no room", written.refusal == RC_REFUSED_ROOM);
    }
}

static void responses(void) {
    good();
    given.key_count = KEYS;
    for (int which = NONCE_RESPONSE; which <= SHARE_RESPONSE; which++) {
        given.out_length = which == NONCE_RESPONSE ? RC_NONCE_RESPONSE_LIMIT : RC_SHARE_RESPONSE_LIMIT;
        make(which);
        expect("the longest response fits", written.refusal == 0 && written.length == given.out_length);
        given.out_length--;
        make(which);
        expect("a byte less", written.refusal == RC_REFUSED_BUFFER);
        given.key_count++;
        make(which);
        expect("a key more", written.refusal == RC_REFUSED_LIMIT);
        given.key_count--;
    }
}

int main(void) {
    small_stack_open();
    memset(bytes, 2, sizeof bytes);
    for (int i = 0; i <= KEYS; i++) ones[i] = 1;
    writes(); /* first, so that the first call of memcpy, where it is bound late, is on the smallest stack */
    responses();
    for (int which = COORDINATOR_KEY; which <= MOVE; which++) asked_first(which);
    configurations();
    starts();
    for (int entry = PROCESS; entry <= PROCESS_MESSAGE; entry++) {
        in_idle(entry);
        while_nonces_are_gathered(entry);
        while_shares_are_gathered(entry, 1);
        while_shares_are_gathered(entry, 0);
    }
    timeouts(PROCESS);
    timeouts(TIMEOUT);
    reads();
    for (int i = 0; i < CALLS; i++)
        printf("%-34s %5d times, at most %6zu bytes of %6zu\n", calls[i].name, calls[i].times, calls[i].deepest, calls[i].stack);
    printf(failures ? "%d wrong\n" : "all as it should be\n", failures);
    return failures != 0;
}
