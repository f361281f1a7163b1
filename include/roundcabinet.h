/*
 * RoundCabinet's signing coordinator: what fire.rs of xoloki/wsts does when it gathers nonces and signature shares, rewritten in Rattle and proved.
 * This header is the manual of libroundcabinet.a. "01" is the paper that the coordinator is built from; its numbers are the RC_REFUSED_... below.
 * docs/TRUST.md says what is believed and not proved, docs/HOSTS.md how a host is built, hosts/examples/round.c is a whole round in C.
 *
 * SET-UP, in this order:
 *   1. rc_commission               who the signers are, their keys, thresholds and timeouts;
 *   2. rc_set_coordinator_key(1)   where packets' seals are verified: without it every packet is refused with 13;
 *      rc_set_group_key(1)         without it every start is refused with 10;
 *   3. rc_take_results             who ended key generation: WITHOUT RESULTS EVERY RESPONSE DOES NOTHING, and no error says so. After rc_reset again.
 *
 * A ROUND. BOTH stands for: state, RC_STATE_LENGTH, store, RC_STORE_LENGTH; ALL for these and: out, RC_ANSWER_LENGTH.
 *   if (!rc_is_idle(BOTH)) return;                                           a start belongs into Idle alone
 *   rc_answer a = rc_start_signing_round(ALL, now(), message, message_length, RC_SCHNORR, NULL, 0, 0, 0);
 *   for (;;) {
 *       save(state, store, out, a);                                          in one transaction, before anything leaves
 *       if (a.class_ == RC_PACKET) seal_and_send(out, a.length);
 *       if (a.class_ == RC_JOB) a = rc_aggregated(BOTH, a.mark && aggregate(out, a.length)), save(state, store, out, a);
 *       if (rc_is_idle(BOTH)) return;                                        signed
 *       if (operator_asks()) tell_operator(out, rc_tell_arrivals(ALL));      who has answered, and when
 *       a = receive(packet, &length) ? rc_process_message(ALL, now(), is_sealed_well(packet, length), packet, length) : rc_process_timeout(ALL, now());
 *   }
 *
 * BUFFERS. A host holds three and lends them to every call:
 *   state   RC_STATE_LENGTH bytes, the coordinator itself. Opaque; write it to disk as it is, and load it again.
 *   store   RC_STORE_LENGTH bytes, what signers sent. Write it to disk beside the state, in one transaction: each without the other is worth nothing.
 *   out     RC_ANSWER_LENGTH bytes, for the packet, the result or the job that a call writes. Scratch: nothing is read from it.
 * Longer buffers are taken; what lies past these lengths is neither read nor written, but for commissioning, which zeroes the whole lent store. A signer's
 * program holds none of these: its two writers, on the last page, are lent an out that may be as short as the packet.
 *
 * What is proved of every call, for any bytes and any lengths whatever: it returns, reads and writes nothing outside the buffers, and gives exactly the
 * answer, state, store and answer buffer (bytes past the written length included) that the definitions say. A refusal writes nothing to out and changes
 * only what is said below. The answer's numbers are all in the promise: first and second are 0 where values does not count them.
 *
 * What the host vouches for, because nothing here can see it:
 *   - the lengths beside pointers are true, the buffers of one call do not overlap, and one caller at a time uses them (but see THREADS). state, store and out
 *     are not NULL; what is only read (ended, message, root, packet, source, a signer's lists) may be NULL where its length is 0;
 *   - nobody else writes state or store between calls;
 *   - the verdict on a packet's seal (signature), and that other points and scalars than identity and generator are what they claim to be;
 *   - clock readings in nanoseconds that do not go back (a reading that does counts as no time elapsed);
 *   - it signs what it sends, and sends a packet only after state and store are safe;
 *   - two duties that fire.rs does not have: a share's iteration, and requests played back (see rc_process). Nonces that name a key twice are taken as
 *     fire.rs takes them, and a host does well not to hand them on (see rc_aggregated);
 *   - enough stack (RC_STACK below).
 *
 * THREADS. The library has no data of its own that can be written, and no locks: separate buffers may be used from separate threads at once (hosts/c/threads.c
 * has eight; it was run under a thread sanitizer too). One coordinator's buffers have one caller at a time. Only rc_tell_arrivals, which writes to neither
 * state nor store, may be asked by several threads at once, each with an out of its own, while no other call is made on them (threads.c does that too).
 *
 * DEBUGGERS. The archive has no unwind tables, so a backtrace ends at the library's call. It calls nobody back, so nothing is thrown through it.
 *
 * Bytes of state that no call can have left (another version, another file, half of a write) are known as such: every call but commissioning refuses them
 * with RC_REFUSED_STATE and leaves them as they are. No sum of the bytes is kept: a number that was changed on disk is another state, not an error.
 *
 * PACKETS, whole. Numbers are little-endian. 32 bytes of header:
 *     byte 0   kind                         bytes 4 to 7    signer id          bytes 16 to 23  sign id
 *     byte 1   signature type               bytes 8 to 15   dkg id             bytes 24 to 31  iteration
 *     bytes 2 and 3  how many parts
 * then for each part its offset and its length, 4 bytes each. Offsets count from the packet's first byte. The parts tile the rest: the first begins where
 * the pairs end, each next one where the last ended, and the last ends the packet. A packet without parts has 32 bytes. No byte may be left over: a reader
 * is given the packet's exact length. Fields that a kind does not have are 0, or the packet is refused with 8:
 *
 *     kind                        from          fields                    parts
 *     1  nonce request            coordinator   type, three ids           message, root
 *     2  nonce response           signer        signer, three ids         message, key ids (4 bytes each), nonces (66 each: D and E, 33 each)
 *     3  share request            coordinator   type, three ids           message, root, then each responder's whole packet of kind 2
 *     4  share response           signer        signer, three ids         one for each share: its id (4), z_i (32), key ids (4 each)
 *     5  key generation begins    coordinator   dkg id                    none
 *     6  another message of it    signer        signer, dkg id            none
 *     7  another message of it    coordinator   dkg id                    none
 *     32 job                      to the host   type, three ids           message, root, key ids, nonces, one for each share as in 4
 *     33 nonce timeout            to the host   none                      who has answered, who is struck (signer ids, 4 bytes each)
 *     34 insufficient signers     to the host   none                      who is struck
 *     35 arrivals                 to the host   none                      who has answered (signer ids, 4 bytes each), when (clock readings, 8 bytes each)
 *
 * So kinds 2 and 4 have type 0, whatever is signed. A root has 32 bytes where the type is 3, else 0. Whose seal a kind bears stands under "from". In 3 and 32
 * lists are each signer's own, joined in ascending order of signers. A share's id is its party's, as the signer says it (WSTS's first form: the key; its second:
 * the signer); it is kept for the aggregator and compared with nothing. A point has 33 bytes: identity is 33 zero bytes, the generator G is hexadecimal
 * 02 79BE667EF9DCBBAC55A06295CE870B07029BFCDB2DCE28D959F2815B16F81798; a response with either of them as a D or an E is dropped whole, as fire.rs does it.
 * Limits (9): a message of 256 bytes; 16 key ids and 16 nonces to a response; 16 shares with 16 key ids in all; 10 nested responses.
 */
#ifndef ROUNDCABINET_H
#define ROUNDCABINET_H

#include <stddef.h>
#include <stdint.h>

#ifdef __cplusplus
extern "C" {
#endif

/* For compilers that know them: arguments that may not be NULL, by their places, and answers that are not to be thrown away. */
#if defined(__GNUC__) || defined(__clang__)
#define RC_LENT(...) __attribute__((nonnull(__VA_ARGS__), warn_unused_result))
#define RC_ANSWERS __attribute__((warn_unused_result))
#else
#define RC_LENT(...)
#define RC_ANSWERS
#endif

/* This header's version: 65536 for each major, 256 for each minor, 1 for each patch number. rc_version() says the linked archive's; a
 * host that finds another one has a header and an archive that do not belong together. RC_STATE_VERSION stands in bytes 8 to 15 of a
 * saved state; a state of another version is refused with RC_REFUSED_STATE. Version 1, of 3,200 bytes, is that of the releases before
 * this one: once no round is in hand the coordinator has to be commissioned anew, and the results taken again (docs/HOSTS.md, "From
 * version 1 of the saved state to version 2"). */
#define RC_VERSION 1024u
#define RC_STATE_VERSION 2
uint32_t rc_version(void) RC_ANSWERS;

/* Lengths. */
#define RC_STATE_LENGTH 3520
#define RC_STORE_LENGTH 52224
#define RC_ANSWER_LENGTH 19232
#define RC_MESSAGE_LIMIT 256
#define RC_SIGNER_LIMIT 10
#define RC_KEY_LIMIT 16
/* The longest packets that a signer sends, kind 2 and kind 4. */
#define RC_NONCE_RESPONSE_LIMIT 1432
#define RC_SHARE_RESPONSE_LIMIT 800
/* One place more than the limits, so that a host can say what is refused. */
#define RC_SIGNER_PLACES 11
#define RC_KEY_PLACES 17

/* Stack: how much is enough for each call, in bytes, whatever path it takes (retry, job and refusals included). It is counted from where the caller's frame
 * ends: arguments that lie on the stack are in it, the caller's own frames and signal handlers are not. The deepest is known over all paths, from the
 * archive's instructions (hosts/c/depth.py: 97936, 33360, 49456 and 8800 bytes), and at least a quarter of that was added. hosts/c/stack.c makes each call on
 * a stack of exactly this size. A frame of more than a page touches each page from the top down: on a stack that is too small and has a guard page below it
 * the call dies there, and writes to nobody's memory. A thread of 64 KiB is too small for rc_process, and would die only once a well-formed packet comes. */
#define RC_STACK_PROCESS (126 * 1024)   /* rc_process, rc_process_message */
#define RC_STACK_COMMISSION (42 * 1024) /* rc_commission */
#define RC_STACK_CALL (66 * 1024)       /* every other call that is lent a state */
#define RC_STACK_PACKET (12 * 1024)     /* rc_read_packet, rc_packet_part, rc_version and the writers: what is lent no state */
#define RC_STACK RC_STACK_PROCESS       /* any call */

/* Classes of answers. RC_NOTHING says "recorded" and "dropped" alike, as fire.rs does: a response that counts, one that came twice, one of a struck signer.
 * What tells them apart is the state: a call that recorded something has changed its bytes, one that dropped its packet has changed neither state nor store.
 * And rc_tell_arrivals names who has answered the current message, and when. */
#define RC_NOTHING 0u /* nothing to do */
#define RC_PACKET 1u  /* out holds a packet to be sealed and sent to the signers */
#define RC_JOB 2u     /* out holds a job for the aggregator; answer it with rc_aggregated */
#define RC_RESULT 3u  /* a result of the round, or a share that was refused */
#define RC_ERROR 4u   /* a refusal */

/* What a packet in out is, its first byte. */
#define RC_KIND_NONCE_REQUEST 1
#define RC_KIND_NONCE_RESPONSE 2
#define RC_KIND_SHARE_REQUEST 3
#define RC_KIND_SHARE_RESPONSE 4
#define RC_KIND_DKG_BEGIN 5
#define RC_KIND_DKG_SIGNER 6
#define RC_KIND_DKG_COORDINATOR 7
#define RC_KIND_JOB 32
#define RC_KIND_NONCE_TIMEOUT 33
#define RC_KIND_INSUFFICIENT_SIGNERS 34
#define RC_KIND_ARRIVALS 35

/* Signature types. */
#define RC_FROST 0
#define RC_SCHNORR 1
#define RC_TAPROOT 2
#define RC_TAPROOT_ROOT 3 /* a Taproot root of 32 bytes lies beside it */

/* Numbers of refusals: 01's up to 25; 26 is asked by a signer's writers alone. Unless something is said, a refusal changes nothing. */
#define RC_REFUSED_SIGNERS 1            /* commissioning: more than 10 signers, or an id twice. The state is uncommissioned, the store untouched */
#define RC_REFUSED_KEYS 2               /* commissioning: a key set of more than 16 keys, or a key twice. As 1 */
#define RC_REFUSED_TOTAL 3              /* commissioning: the key sets have more keys than num_keys. As 1 */
#define RC_REFUSED_STATE 4              /* state not commissioned or not left by a call, or the store is shorter than RC_STORE_LENGTH */
#define RC_REFUSED_JOB_OUT 5            /* a job is out: answer it or reset first */
#define RC_REFUSED_NO_JOB 6             /* no job is out */
#define RC_REFUSED_ROOM 7               /* out is shorter than RC_ANSWER_LENGTH */
#define RC_REFUSED_LAYOUT 8             /* the packet is not laid out as 01 says; also a signature type above 3, RC_TAPROOT_ROOT with
                                         * a root that has not 32 bytes, a state above 14 */
#define RC_REFUSED_LIMIT 9              /* a message, a list or the nested responses are over 01's limits; of a signer's writers also
                                         * lists that do not agree */
#define RC_REFUSED_GROUP_KEY 10         /* no group key held. Idle: the iteration is changed. Gathering: response recorded, message replaced */
#define RC_REFUSED_MOVE 11              /* the state does not allow a start. Message and sign id ARE changed: see rc_start_signing_round */
#define RC_REFUSED_NO_RECORD 12         /* a timeout fired, and nobody has answered the current message */
#define RC_REFUSED_COORDINATOR_KEY 13   /* verification is on, and no coordinator key is held */
#define RC_REFUSED_SEAL 14              /* unknown signer, or the host's verdict on the seal is no */
#define RC_REFUSED_DKG_BEGIN 15         /* another key generation was begun */
#define RC_REFUSED_DKG_ID 16            /* not the current dkg id: first is what was got, second what was expected */
#define RC_REFUSED_SIGN_ID 17           /* not the current sign id: likewise */
#define RC_REFUSED_ITERATION 18         /* not the current iteration: likewise */
#define RC_REFUSED_MESSAGES 19          /* four messages have been answered already, and this is a fifth */
#define RC_REFUSED_PUBLIC_KEY 20        /* first is the signer; it is waited for no more */
#define RC_REFUSED_NO_KEYS 21           /* likewise */
#define RC_REFUSED_WRONG_KEYS 22        /* shares for other keys than the signer's: likewise */
#define RC_REFUSED_AGGREGATION 23       /* the aggregator failed; the job is no longer out */
#define RC_REFUSED_NOT_IDLE 24          /* results of key generation are taken in Idle alone */
#define RC_REFUSED_ENDED 25             /* more than 10 ended signers, or one that is not configured */
#define RC_REFUSED_BUFFER 26            /* a signer's writer was lent a buffer that is shorter than the packet */

/* A number of a refusal in words, and a kind of packet. For logs; the crate for Rust says the same words. */
static inline const char *rc_text(uint32_t number) {
    switch (number) {
    case 0: return "nothing is refused";
    case RC_REFUSED_SIGNERS: return "more than 10 signers, or an id twice";
    case RC_REFUSED_KEYS: return "a key set of more than 16 keys, or a key twice in it";
    case RC_REFUSED_TOTAL: return "the key sets have more keys than num_keys";
    case RC_REFUSED_STATE: return "the state is not commissioned or no call left it, or the store is too short";
    case RC_REFUSED_JOB_OUT: return "a job is out: answer it or reset first";
    case RC_REFUSED_NO_JOB: return "no job is out";
    case RC_REFUSED_ROOM: return "the answer buffer is too short";
    case RC_REFUSED_LAYOUT: return "the packet is not laid out as it must be";
    case RC_REFUSED_LIMIT: return "a message or a list is over its limit";
    case RC_REFUSED_GROUP_KEY: return "no group key is held";
    case RC_REFUSED_MOVE: return "the state does not allow a start; message and sign id have changed";
    case RC_REFUSED_NO_RECORD: return "a timeout fired, and nobody has answered the current message";
    case RC_REFUSED_COORDINATOR_KEY: return "seals are verified, and no coordinator key is held";
    case RC_REFUSED_SEAL: return "the signer is unknown, or the seal is not good";
    case RC_REFUSED_DKG_BEGIN: return "another key generation was begun";
    case RC_REFUSED_DKG_ID: return "not the current dkg id";
    case RC_REFUSED_SIGN_ID: return "not the current sign id";
    case RC_REFUSED_ITERATION: return "not the current iteration";
    case RC_REFUSED_MESSAGES: return "four messages have been answered already, and this is a fifth";
    case RC_REFUSED_PUBLIC_KEY: return "the signer has no public key";
    case RC_REFUSED_NO_KEYS: return "the signer has no key set";
    case RC_REFUSED_WRONG_KEYS: return "the signer shared for other keys than its own";
    case RC_REFUSED_AGGREGATION: return "the aggregator failed";
    case RC_REFUSED_NOT_IDLE: return "results of key generation are taken in Idle alone";
    case RC_REFUSED_ENDED: return "more than 10 ended signers, or one that is not configured";
    case RC_REFUSED_BUFFER: return "the lent buffer is shorter than the packet";
    default: return "no number of this library's";
    }
}

static inline const char *rc_kind_text(uint32_t kind) {
    switch (kind) {
    case RC_KIND_NONCE_REQUEST: return "nonce request";
    case RC_KIND_NONCE_RESPONSE: return "nonce response";
    case RC_KIND_SHARE_REQUEST: return "share request";
    case RC_KIND_SHARE_RESPONSE: return "share response";
    case RC_KIND_DKG_BEGIN: return "key generation begins";
    case RC_KIND_DKG_SIGNER: return "key generation, a signer's";
    case RC_KIND_DKG_COORDINATOR: return "key generation, a coordinator's";
    case RC_KIND_JOB: return "job";
    case RC_KIND_NONCE_TIMEOUT: return "nonce timeout";
    case RC_KIND_INSUFFICIENT_SIGNERS: return "insufficient signers";
    case RC_KIND_ARRIVALS: return "arrivals";
    default: return "no kind of this library's";
    }
}

/* What a call answers. */
typedef struct rc_answer {
    uint32_t class_; /* RC_NOTHING .. RC_ERROR */
    uint32_t number; /* RC_REFUSED_..., 0 where nothing is refused */
    uint64_t first;  /* the first `values` of first and second count: see the numbers, rc_can_move_to and rc_aggregated */
    uint64_t second;
    uint64_t values;
    uint64_t mark;   /* of a job: 1 where it is whole, see rc_aggregated */
    uint64_t length; /* bytes written to out, from its front */
} rc_answer;

/* A timeout in nanoseconds, where given is not 0. It fires where more than that has elapsed. */
typedef struct rc_timeout {
    uint64_t given;
    uint64_t nanoseconds;
} rc_timeout;

/* A signer; with a key set where has_keys is not 0: the first key_count of keys. A signer without a key set is never heard. */
typedef struct rc_signer {
    uint32_t id;
    uint32_t has_keys;
    uint64_t key_count;
    uint32_t keys[RC_KEY_PLACES];
    uint32_t reserved;
} rc_signer;

/* The first signer_count of signers count, in any order. num_keys is how many keys there are: the key sets may not have more (3). threshold limits exclusion: a
 * share timeout retries while num_keys less the keys of the struck is at least that many. sign_threshold ends nonce gathering: so many different keys have
 * answered. verify_packet_sigs: where it is not 0, packets are asked 13 and 14. Kept beside them, and read by nothing yet, are num_signers (fire.rs has it; it
 * need not be signer_count), dkg_threshold and the three dkg timeouts, which are key generation's. */
typedef struct rc_config {
    uint32_t num_signers;
    uint32_t num_keys;
    uint32_t threshold;
    uint32_t dkg_threshold;
    uint32_t sign_threshold;
    uint32_t verify_packet_sigs;
    rc_timeout dkg_public_timeout;
    rc_timeout dkg_private_timeout;
    rc_timeout dkg_end_timeout;
    rc_timeout nonce_timeout;
    rc_timeout sign_timeout;
    uint64_t signer_count;
    rc_signer signers[RC_SIGNER_PLACES];
} rc_config;

/* Commissions a coordinator: Idle, ids 0, nothing held, nobody struck; the whole lent store becomes zeros. Whatever state held is gone. Asked 1, 2
 * and 3; a state buffer shorter than RC_STATE_LENGTH is refused with 4. After 1 to 3 the state is saved as uncommissioned. */
rc_answer rc_commission(uint8_t *state, size_t state_length, uint8_t *store, size_t store_length, rc_config config) RC_LENT(1, 3);

/* The host holds the coordinator's key, or the group's, from now on (held not 0), or no more. The bytes of keys stay with the host. Asked 4, 5. */
rc_answer rc_set_coordinator_key(uint8_t *state, size_t state_length, const uint8_t *store, size_t store_length, uint8_t held) RC_LENT(1, 3);
rc_answer rc_set_group_key(uint8_t *state, size_t state_length, const uint8_t *store, size_t store_length, uint8_t held) RC_LENT(1, 3);

/* Key generation's results: its id, and the signers that ended it; they replace the earlier ones. Asked 4, 5, 24, 25. */
rc_answer rc_take_results(uint8_t *state, size_t state_length, const uint8_t *store, size_t store_length, uint64_t dkg_id, const uint32_t *ended,
                          size_t ended_count) RC_LENT(1, 3);

/* Starts a signing round: RC_PACKET, a nonce request, in out. sign_id counts where sign_id_given is not 0; otherwise it is the last one plus 1. root:
 * 32 bytes where the type is RC_TAPROOT_ROOT; beside another type it isn't looked at, whatever its length. Asked 4, 5, 7, 9, 10, 11; a type
 * above 3, or RC_TAPROOT_ROOT with a root of another length, is refused with 8 before.
 *
 * WARNING. A start that is refused with 11 has already replaced message and sign id, as fire.rs does it. While shares are gathered, a start of
 * another type makes signers that answer in time look silent: their shares get 17, and the share timeout strikes them. A start of the same type (and
 * root) is taken there, and takes the place of the round in hand, whose shares then come to nothing. So start in Idle alone: ask rc_is_idle first, and not
 * rc_can_move_to with 11, which says yes while shares of that type are gathered. To give a round up, reset first. */
rc_answer rc_start_signing_round(uint8_t *state, size_t state_length, const uint8_t *store, size_t store_length, uint8_t *out, size_t out_length,
                                 uint64_t clock, const uint8_t *message, size_t message_length, uint8_t signature_type, const uint8_t *root,
                                 size_t root_length, uint8_t sign_id_given, uint64_t sign_id) RC_LENT(1, 3, 5);

/* A packet has come. verdict: not 0 where its seal is good. Two things that fire.rs does not look at are the host's: a share's iteration (a share from
 * before a retry, heard late, is recorded, and the sum is wrong: hand on a share only where its iteration is that of the request that is out), and whether a
 * nonce request that comes in Idle is one of the coordinator's own, played back (it starts that round: hand on no coordinator's packet, unless this host stands
 * by for another coordinator). rc_process tests the timeout first, as rc_process_timeout does; where that yields anything, the packet is dropped.
 * rc_process_message does not. A packet that is refused with 8 or 9 is refused before any timeout. Asked 4, 5, 7, 8, 9, then 12, then 13 and 14, then by the
 * state: 10, 15; 16 to 19, 10; 16, 17, 20 to 22.
 * Answers RC_NOTHING; RC_PACKET, a share request or, in Idle, a nonce request; RC_JOB; and what rc_process_timeout answers. */
rc_answer rc_process(uint8_t *state, size_t state_length, uint8_t *store, size_t store_length, uint8_t *out, size_t out_length, uint64_t clock,
                     uint8_t verdict, const uint8_t *packet, size_t packet_length) RC_LENT(1, 3, 5);
rc_answer rc_process_message(uint8_t *state, size_t state_length, uint8_t *store, size_t store_length, uint8_t *out, size_t out_length,
                             uint64_t clock, uint8_t verdict, const uint8_t *packet, size_t packet_length) RC_LENT(1, 3, 5);

/* No packet: only the timeout is tested. Nonces late: RC_RESULT, kind 33 in out, or 12: two lists, fire.rs's sign_wait_signer_ids of the current
 * message's record, which while nonces are gathered names the signers that HAVE answered it, and the struck. Shares late: all signers that are waited
 * for are struck; then RC_PACKET, a nonce request (the retry), or RC_RESULT, kind 34 in out (the struck), where too few keys are left. Asked 4, 5, 7,
 * 12. */
rc_answer rc_process_timeout(uint8_t *state, size_t state_length, const uint8_t *store, size_t store_length, uint8_t *out, size_t out_length,
                             uint64_t clock) RC_LENT(1, 3, 5);

/* Who has answered the current message, and when, for an operator who calls slow signers before the timeout: RC_RESULT, kind 35 in out, of 48 bytes and 12 for
 * each of them. Two lists: signer ids, ascending, and for each the clock reading of the call that recorded its response (rc_process or rc_process_message),
 * the host's own, as it was given, also where it went back or came late. Both are empty where nobody has answered. Whom one would call is every configured
 * signer that is neither in the list nor struck.
 *
 * A second response leaves the first one's reading. Refusal 10 while nonces are gathered keeps the response and its reading. A nonce request empties the list
 * (a start, a retry, a request that is taken in Idle), and so do rc_reset and commissioning. Success does not: in Idle it is still the last round's. The
 * current message is that of the last start, also of one that was refused with 11, so that the list is often empty then; or the message that took its place
 * because enough keys answered it first.
 *
 * It takes no clock, tests no timeout and writes to neither state nor store: there is nothing to save after it. What lay in out is written over, so what is
 * to be sent leaves before, or the query is lent another out. Asked 4, 5, 7. */
rc_answer rc_tell_arrivals(const uint8_t *state, size_t state_length, const uint8_t *store, size_t store_length, uint8_t *out,
                           size_t out_length) RC_LENT(1, 3, 5);

/* The aggregator's answer to the job that is out. ok not 0: RC_RESULT with number 0, first the kind of signature (0 sign, 1 schnorr, 2 taproot), and
 * Idle. ok 0: RC_RESULT with number 23; nobody is waited for, the state stays. Asked 4, 6, 23. The mark is not asked: ok is taken as it is said.
 *
 * The job's answer has a mark: 1 (whole) exactly where every responder's shares are held and no key id occurs twice in the job's joined list of key ids.
 * With mark 0 no aggregator need be asked: answer 0, and look why. Shares are missing where one of the responders got 22 (20, 21): the share timeout
 * retries, and asks everybody anew. A key id occurs twice where a signer's list names it twice, or two signers' key sets have it: the share request that went
 * out has every list as it was sent. A retry would end the same way. So leave nonce responses that name a key twice unheard (their signer is then late, which
 * strikes nobody), call the signer, and commission without a key in two sets. What is recorded and sent is not changed by any of this. */
rc_answer rc_aggregated(uint8_t *state, size_t state_length, const uint8_t *store, size_t store_length, uint8_t ok) RC_LENT(1, 3);

/* Idle; ended signers, records, shares, clocks and a job that is out are forgotten. Struck signers, ids, message and held keys stay. Asked 4. */
rc_answer rc_reset(uint8_t *state, size_t state_length, const uint8_t *store, size_t store_length) RC_LENT(1, 3);

/* Whether the coordinator may move to a state: RC_RESULT, first 1 yes, 0 no. next: 0 to 14 in the Rust's order (0 Idle, 11 NonceRequest, 12 NonceGather,
 * 13 SigShareRequest, 14 SigShareGather). With 11 it says whether a start would get 11; with 1 (DkgPublicDistribute) whether the coordinator is idle.
 * Type and root are those of a signing state (11 to 14). Asked 4, 5; a state above 14, a type above 3, or RC_TAPROOT_ROOT with a root that
 * has not 32 bytes, is refused with 8 before, the type whatever the state. */
rc_answer rc_can_move_to(uint8_t *state, size_t state_length, const uint8_t *store, size_t store_length, uint8_t next, uint8_t signature_type,
                         const uint8_t *root, size_t root_length) RC_LENT(1, 3);

/* Whether no round is in hand: 1 in Idle; 0 while nonces or shares are gathered or a job is out, and where the state is refused. The question to ask before
 * a start. It is rc_can_move_to with 1 (DkgPublicDistribute), which fire.rs enters from Idle alone. */
static inline int rc_is_idle(uint8_t *state, size_t state_length, const uint8_t *store, size_t store_length) {
    const rc_answer a = rc_can_move_to(state, state_length, store, store_length, 1, RC_FROST, NULL, 0);
    return a.class_ == RC_RESULT && a.first == 1;
}

/* A packet's header. refusal: 0, or RC_REFUSED_LAYOUT or RC_REFUSED_LIMIT where the packet is not taken, and then all else is 0. */
typedef struct rc_packet {
    uint32_t refusal;
    uint32_t kind;           /* RC_KIND_... */
    uint32_t signature_type; /* RC_FROST .. RC_TAPROOT_ROOT */
    uint32_t pairs;          /* how many parts it has */
    uint32_t signer_id;
    uint32_t reserved;
    uint64_t dkg_id;
    uint64_t sign_id;
    uint64_t sign_iter_id;
} rc_packet;

/* Where a part begins in its packet, and how long it is. */
typedef struct rc_part {
    uint64_t at;
    uint64_t length;
} rc_part;

/* Reads a packet, from whomever: questions 8 and 9, and the header. packet_length is the packet's exact length: a byte more or less is 8. Neither this nor
 * rc_packet_part needs a coordinator. */
rc_packet rc_read_packet(const uint8_t *packet, size_t packet_length) RC_ANSWERS;

/* Where part i (from 0) of a packet that is taken lies: always inside the packet; length 0 where there is no such part. Which parts a kind has says the table
 * on the first page. What only goes out (kinds 32 to 35) is not taken by the reader; its parts are found in the same way, by the pairs behind the header. */
rc_part rc_packet_part(const uint8_t *packet, size_t packet_length, uint16_t i) RC_ANSWERS;

/*
 * Bench's writers, for a host that wants packets of its own: each writes one packet to the front of out, which has to have RC_ANSWER_LENGTH bytes
 * (RC_REFUSED_ROOM), and leaves the bytes past it alone; a refusal writes nothing. Lists and messages over 01's limits are RC_REFUSED_LIMIT, a signature
 * type above 3 is RC_REFUSED_LAYOUT. What the coordinator sends, its calls write by themselves; what a signer sends (kinds 2 and 4), the writers after these.
 */
typedef struct rc_written {
    uint32_t refusal; /* 0, or RC_REFUSED_... */
    uint32_t reserved;
    uint64_t length; /* of the packet */
} rc_written;

/* Ids, type and root of a request or a job. root counts where the type is RC_TAPROOT_ROOT. reserved is not looked at. */
typedef struct rc_head {
    uint64_t dkg_id;
    uint64_t sign_id;
    uint64_t sign_iter_id;
    uint8_t signature_type;
    uint8_t reserved[7];
    uint8_t root[32];
} rc_head;

/* The first count of ids; a count above RC_SIGNER_LIMIT is RC_REFUSED_LIMIT. */
typedef struct rc_signer_ids {
    uint32_t ids[RC_SIGNER_LIMIT];
    uint64_t count;
} rc_signer_ids;

/* A signer, and the clock reading at which it answered. reserved is not looked at. */
typedef struct rc_arrival {
    uint32_t signer_id;
    uint32_t reserved;
    uint64_t clock;
} rc_arrival;

/* The first count of arrivals, in the order given; a count above RC_SIGNER_LIMIT is RC_REFUSED_LIMIT. */
typedef struct rc_arrivals {
    rc_arrival arrivals[RC_SIGNER_LIMIT];
    uint64_t count;
} rc_arrivals;

/* A list in the bytes that are lent as source: where it begins, and how many entries it has. One that does not lie inside is RC_REFUSED_LIMIT. */
typedef struct rc_place {
    uint64_t at;
    uint64_t count;
} rc_place;

/* A nested response: message (entries of 1 byte), key ids (4), nonces (66). */
typedef struct rc_response {
    uint64_t dkg_id;
    uint64_t sign_id;
    uint64_t sign_iter_id;
    uint32_t signer_id;
    uint32_t reserved;
    rc_place message;
    rc_place key_ids;
    rc_place nonces;
} rc_response;

typedef struct rc_responses {
    rc_response places[RC_SIGNER_LIMIT];
    uint64_t count;
} rc_responses;

/* A signer's part of a job: key ids (4), nonces (66), shares (36: id and z_i), and from share_keys_at on the shares' key ids one after the other, so many
 * for each share. Signers are given in ascending order of their ids. */
typedef struct rc_job_place {
    rc_place key_ids;
    rc_place nonces;
    rc_place shares;
    uint64_t share_keys_at;
    uint8_t share_key_counts[RC_KEY_LIMIT];
} rc_job_place;

typedef struct rc_job_places {
    rc_job_place places[RC_SIGNER_LIMIT];
    uint64_t count;
} rc_job_places;

/* Kinds 1, 3 and 32. */
rc_written rc_write_nonce_request(uint8_t *out, size_t out_length, rc_head head, const uint8_t *message, size_t message_length) RC_LENT(1);
rc_written rc_write_signature_share_request(uint8_t *out, size_t out_length, rc_head head, const uint8_t *message, size_t message_length,
                                            const uint8_t *source, size_t source_length, rc_responses places) RC_LENT(1);
rc_written rc_write_job(uint8_t *out, size_t out_length, rc_head head, const uint8_t *message, size_t message_length, const uint8_t *source,
                        size_t source_length, rc_job_places places) RC_LENT(1);

/* Kinds 5, 6 and 7. */
rc_written rc_write_dkg_begin(uint8_t *out, size_t out_length, uint64_t dkg_id) RC_LENT(1);
rc_written rc_write_dkg_signer(uint8_t *out, size_t out_length, uint32_t signer_id, uint64_t dkg_id) RC_LENT(1);
rc_written rc_write_dkg_coordinator(uint8_t *out, size_t out_length, uint64_t dkg_id) RC_LENT(1);

/* Kinds 33, 34 and 35. */
rc_written rc_write_nonce_timeout(uint8_t *out, size_t out_length, rc_signer_ids waiters, rc_signer_ids malicious) RC_LENT(1);
rc_written rc_write_insufficient_signers(uint8_t *out, size_t out_length, rc_signer_ids malicious) RC_LENT(1);
rc_written rc_write_arrivals(uint8_t *out, size_t out_length, rc_arrivals arrivals) RC_LENT(1);

/*
 * A signer's writers, for a program that holds no coordinator: what a signer sends, from plain fields and lists. Each writes one packet to the front of
 * out, which may be as short as the packet: an exact fit is taken, and bytes past the packet are left alone. RC_NONCE_RESPONSE_LIMIT and
 * RC_SHARE_RESPONSE_LIMIT bytes are always enough. Asked 9, then 26 where out is shorter than the packet, and not 7; a refusal writes nothing. Every packet
 * written is read back as those fields, and every packet of kinds 2 and 4 that the reader takes is written back byte for byte.
 *
 * Lists are written as they are given: empty ones, no shares, an empty message, repeats, another number of nonces than of keys. No point and no key is
 * checked: which keys are its own, and that its nonces are points and its z_i scalars, a signer knows by itself. Ids, key ids and counts are numbers; a
 * nonce is its 66 bytes, a z_i its 32. message, key_ids, nonces, share_ids, z_i and key_counts may be NULL where their length or count is 0.
 */

/* Who responds, and to which request: the three ids are the request's. reserved is not looked at. */
typedef struct rc_response_head {
    uint64_t dkg_id;
    uint64_t sign_id;
    uint64_t sign_iter_id;
    uint32_t signer_id;
    uint32_t reserved;
} rc_response_head;

/* Kind 2, of 56 + message_length + 4 * key_count + nonces_length bytes; nonces_length is in bytes. 9: a message of more than RC_MESSAGE_LIMIT bytes, more
 * than RC_KEY_LIMIT key ids, more than RC_KEY_LIMIT nonces, a nonces_length that is no multiple of 66. */
rc_written rc_write_nonce_response(uint8_t *out, size_t out_length, rc_response_head head, const uint8_t *message, size_t message_length,
                                   const uint32_t *key_ids, size_t key_count, const uint8_t *nonces, size_t nonces_length) RC_LENT(1);

/* Kind 4, of 32 + 44 * share_count + 4 * key_count bytes. Share i has the id share_ids[i], the next 32 bytes of z_i, and the next key_counts[i] of key_ids.
 * 9: more than RC_KEY_LIMIT shares, more than RC_KEY_LIMIT key ids over all shares, a z_i_length (in bytes) that is not 32 * share_count, a
 * key_counts_length that is not share_count, counts that do not add up to key_count. */
rc_written rc_write_signature_share_response(uint8_t *out, size_t out_length, rc_response_head head, const uint32_t *share_ids, size_t share_count,
                                             const uint8_t *z_i, size_t z_i_length, const uint32_t *key_counts, size_t key_counts_length,
                                             const uint32_t *key_ids, size_t key_count) RC_LENT(1);

#ifdef __cplusplus
}
#endif

#endif
