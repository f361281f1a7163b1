/*
 * What each call costs, for compare/measure: rounds of ten signers of 16 keys, a message of 32 bytes, one share a signer. Nonces and
 * shares are made up.
 *
 * Each call is made on a painted stack and told in a line: whether it is a row, whether it is one of the round's calls, how deep its stack
 * got, its name. Where callgrind runs the program, it counts inside rc_ functions alone, and each call's instructions are dumped under the
 * same name. What could change a count from run to run is fixed: where buffers and stack begin within a page (copies look at that), and
 * that the C library's functions are bound before the first call.
 */
#include "packets.h"
#include "small_stack.h"

#include <stdio.h>
#include <string.h>
#include <valgrind/callgrind.h>

enum { SIGNERS = RC_SIGNER_LIMIT, KEYS = RC_KEY_LIMIT, SIXTH = 5, LAST = SIGNERS - 1, PAGE = 4096 };
enum { DKG = 5, SIGN = 7, ITERATION = 1, NOW = 1000, LATE = 1000000 };
/* What a call is told as. */
enum { UNTOLD = 0, ROW = 1, OF_ROUND = 2 };

/* How the host named the group's keys and signers, and which of its calls are told. */
typedef struct group {
    uint32_t step;     /* from key to key */
    int is_descending; /* the order in which signers are named */
    int told;          /* each call */
    int told_last;     /* the last response and the last share */
    const char *words; /* behind the names of its rows */
} group;

/* The rehearsal is there for its share request. */
static const group rehearsal = {1, 0, UNTOLD, UNTOLD, ""};
static const group plain = {1, 0, ROW | OF_ROUND, ROW | OF_ROUND, ""};
static const group apart = {256, 0, UNTOLD, ROW, ", keys 256 apart"};
static const group descending = {1, 1, UNTOLD, ROW, ", signers named in descending order"};

/* What calls are given and answer. Not static: a compiler would not see that the calls below, made past it, read and write them. */
_Alignas(PAGE) uint8_t state[RC_STATE_LENGTH];
_Alignas(PAGE) uint8_t store[RC_STORE_LENGTH];
_Alignas(PAGE) uint8_t out[RC_ANSWER_LENGTH];
_Alignas(PAGE) packet inbound, share_request;
_Alignas(PAGE) uint8_t message[32];
_Alignas(PAGE) rc_config config;
_Alignas(PAGE) uint32_t ended[SIGNERS];
span given;
rc_answer answer;

static int failures;

#define STATE state, sizeof state
#define STORE store, sizeof store
#define OUT out, sizeof out

static void commission(void) { answer = rc_commission(STATE, STORE, config); }
static void set_group_key(void) { answer = rc_set_group_key(STATE, STORE, 1); }
static void take_results(void) { answer = rc_take_results(STATE, STORE, DKG, ended, SIGNERS); }
static void can_move_to(void) { answer = rc_can_move_to(STATE, STORE, 1, RC_FROST, NULL, 0); }
static void start(void) { answer = rc_start_signing_round(STATE, STORE, OUT, NOW, message, sizeof message, RC_FROST, NULL, 0, 1, SIGN); }
static void process(void) { answer = rc_process(STATE, STORE, OUT, NOW, 1, given.bytes, given.length); }
static void process_timeout(void) { answer = rc_process_timeout(STATE, STORE, OUT, NOW); }
static void tell_arrivals(void) { answer = rc_tell_arrivals(STATE, STORE, OUT); }
static void aggregated(void) { answer = rc_aggregated(STATE, STORE, 1); }
static void reset(void) { answer = rc_reset(STATE, STORE); }

/* One call. What was counted before it, of packets that were written for it, is forgotten. */
static void cost(int told, const group *g, const char *name, void (*call)(void), uint32_t class_, uint32_t number) {
    char whole[128];
    size_t depth;
    snprintf(whole, sizeof whole, "%s%s", name, g->words);
    CALLGRIND_ZERO_STATS;
    depth = small_stack_make(whole, RC_STACK, call);
    if (told != UNTOLD) {
        CALLGRIND_DUMP_STATS_AT(whole);
        printf("%d %d %zu %s\n", told & ROW, (told & OF_ROUND) != 0, depth, whole);
    }
    if (answer.class_ == class_ && answer.number == number) return;
    fprintf(stderr, "WRONG: %s: class %u, number %u in the place of %u, %u\n", whole, answer.class_, answer.number, class_, number);
    failures++;
}

static uint32_t key_of(const group *g, uint32_t signer, uint32_t k) { return g->step * (KEYS * signer + k + 1); }

static void configure(const group *g) {
    memset(&config, 0, sizeof config);
    config.num_signers = SIGNERS;
    config.signer_count = SIGNERS;
    config.num_keys = config.threshold = config.dkg_threshold = config.sign_threshold = SIGNERS * KEYS;
    config.nonce_timeout = config.sign_timeout = (rc_timeout){1, LATE};
    for (uint32_t i = 0; i < SIGNERS; i++) {
        rc_signer *to = &config.signers[i];
        to->id = g->is_descending ? LAST - i : i;
        to->has_keys = 1;
        to->key_count = KEYS;
        for (uint32_t k = 0; k < KEYS; k++) to->keys[k] = key_of(g, to->id, k);
        ended[i] = i;
    }
}

static void give(rc_written w) {
    failures += !packet_written(&inbound, w);
    given = span_of(&inbound);
}

/* All keys are the signer's own, in the order of its set. */
static void give_nonces(const group *g, uint32_t signer, uint64_t sign) {
    static uint8_t nonces[KEYS * NONCE_LENGTH];
    const rc_response_head head = {DKG, sign, ITERATION, signer, 0};
    uint32_t keys[KEYS];
    memset(nonces, 7, sizeof nonces);
    for (uint32_t k = 0; k < KEYS; k++) keys[k] = key_of(g, signer, k);
    give(rc_write_nonce_response(inbound.bytes, sizeof inbound.bytes, head, message, sizeof message, keys, KEYS, nonces, sizeof nonces));
}

static void give_share(const group *g, uint32_t signer) {
    static const uint8_t z_i[Z_LENGTH] = {5};
    const rc_response_head head = {DKG, SIGN, ITERATION, signer, 0};
    const uint32_t count = KEYS;
    uint32_t keys[KEYS];
    for (uint32_t k = 0; k < KEYS; k++) keys[k] = key_of(g, signer, k);
    give(rc_write_signature_share_response(inbound.bytes, sizeof inbound.bytes, head, &signer, 1, z_i, Z_LENGTH, &count, 1, keys, KEYS));
}

/* Commissioned and started. */
static void begin(const group *g) {
    configure(g);
    cost(g->told & ROW, g, "commission", commission, RC_NOTHING, 0);
    cost(g->told & ROW, g, "set key", set_group_key, RC_NOTHING, 0);
    cost(g->told & ROW, g, "results", take_results, RC_NOTHING, 0);
    cost(g->told & ROW, g, "move question", can_move_to, RC_RESULT, 0);
    cost(g->told, g, "start", start, RC_PACKET, 0);
}

/* Calls that a round can do without. */
static void beside(const group *g) {
    give_nonces(g, 0, SIGN + 1);
    cost(ROW, g, "a packet that is refused (17)", process, RC_ERROR, RC_REFUSED_SIGN_ID);
    cost(ROW, g, "a timeout that does not fire", process_timeout, RC_NOTHING, 0);
    given = span_of(&share_request);
    cost(ROW, g, "a packet of kind 3, read and not gathered", process, RC_NOTHING, 0);
}

/* Of the responses and the shares before the last, the sixth is a row; the others are told for the sum. */
static void gather(const group *g) {
    const int others = g->told & OF_ROUND;
    for (uint32_t i = 0; i < LAST; i++) {
        give_nonces(g, i, SIGN);
        cost(i == SIXTH ? g->told : others, g, i == SIXTH ? "a response recorded (the sixth)" : "a response", process, RC_NOTHING, 0);
    }
    give_nonces(g, LAST, SIGN);
    cost(g->told_last, g, "the response that completes the threshold", process, RC_PACKET, 0);
    memcpy(share_request.bytes, out, sizeof out);
    share_request.length = (size_t)answer.length;
    cost(g->told & ROW, g, "arrivals of ten", tell_arrivals, RC_RESULT, 0);
    for (uint32_t i = 0; i < LAST; i++) {
        give_share(g, i);
        cost(i == SIXTH ? g->told : others, g, i == SIXTH ? "a share (the sixth)" : "a share", process, RC_NOTHING, 0);
    }
    give_share(g, LAST);
    cost(g->told_last, g, "the last share, with its job", process, RC_JOB, 0);
    failures += answer.mark != 1;
    cost(g->told, g, "aggregated", aggregated, RC_RESULT, 0);
}

int main(void) {
    small_stack_open();
    memset(message, 1, sizeof message);
    begin(&rehearsal);
    gather(&rehearsal);
    begin(&plain);
    beside(&plain);
    gather(&plain);
    cost(ROW, &plain, "reset", reset, RC_NOTHING, 0);
    begin(&apart);
    gather(&apart);
    begin(&descending);
    gather(&descending);
    return failures != 0;
}
