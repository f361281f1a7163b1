/*
 * What docs/HOSTS.md says of the library's corners, tried with real signers: a line for each, and what was expected did come.
 */
#include "layout.h"
#include "repeats.h"
#include "stage.h"

#include <stdio.h>
#include <string.h>

static stage s;
static int failures;

static void begin(const char *words) {
    printf("%s\n", words);
    expect(&s, "dealt and commissioned", open_stage(&s, 1));
}

static void end(void) {
    failures += s.failures;
    close_stage(&s);
}

static int is(rc_answer a, uint32_t class_, uint32_t number) { return a.class_ == class_ && a.number == number; }

#define HELD s.host.state, RC_STATE_LENGTH, s.host.store, RC_STORE_LENGTH

static void starts(void) {
    begin("a start while nonces are gathered: 11, and the nonces asked for get 17");
    start(&s, RC_SCHNORR, "a", no_root);
    expect(&s, "11", is(start_unasked(&s, RC_SCHNORR, "a", no_root), RC_ERROR, RC_REFUSED_MOVE));
    answer(&s, 0, RC_ERROR, RC_REFUSED_SIGN_ID);
    end();
    begin("a start of another type and message while shares are gathered: 11, shares do nothing, the timeout is 12");
    start(&s, RC_SCHNORR, "a", no_root);
    answers(&s, "02", RC_PACKET);
    expect(&s, "11", is(start_unasked(&s, RC_TAPROOT, "b", no_root), RC_ERROR, RC_REFUSED_MOVE));
    answers(&s, "02", RC_NOTHING);
    s.clock += stage_timeouts.shares + SECOND;
    expect(&s, "12", is(host_timeout(&s.host, s.clock), RC_ERROR, RC_REFUSED_NO_RECORD));
    end();
    begin("a start of the same type while shares are gathered: taken, in the place of the round in hand");
    start(&s, RC_SCHNORR, "a", no_root);
    answers(&s, "02", RC_PACKET);
    expect(&s, "not Idle, so the host asks for no start", is(host_start(&s.host, s.clock, RC_SCHNORR, no_root, no_root), RC_ERROR, 11));
    expect(&s, "taken", is(start_unasked(&s, RC_SCHNORR, "b", no_root), RC_PACKET, 0));
    end();
}

static void aggregator_failed(void) {
    sealed lie;
    char event[128];
    begin("after 23 the share timeout retries, and leaves nobody out");
    start(&s, RC_SCHNORR, "a", no_root);
    answers(&s, "02", RC_PACKET);
    answers(&s, "0", RC_NOTHING);
    expect(&s, "signer 2 answers", answer_of(&s, 2, &lie, event, sizeof event));
    lie.packet.bytes[32 + 8 + SHARE_LENGTH - 1] ^= 1;
    expect(&s, "sealed", seal_packet(&lie, &s.secrets[2].seal));
    rc_answer a = host_take(&s.host, s.clock, &lie);
    expect(&s, "a job", is(a, RC_JOB, 0));
    do_job(&s, &a, 0);
    s.clock += stage_timeouts.shares + SECOND;
    a = host_timeout(&s.host, s.clock);
    follow(&s, "timeout", &a, RC_PACKET, 0);
    answers(&s, "02", RC_PACKET);
    answers(&s, "02", RC_JOB);
    end();
}

static void earlier_iteration(void) {
    sealed earlier;
    char event[128];
    begin("the library takes a share of the iteration before the retry; the sum is wrong then");
    start(&s, RC_SCHNORR, "a", no_root);
    answers(&s, "031", RC_PACKET);
    expect(&s, "signer 0 answers", answer_of(&s, 0, &earlier, event, sizeof event));
    answers(&s, "01", RC_NOTHING);
    s.clock += stage_timeouts.shares + SECOND;
    rc_answer a = host_timeout(&s.host, s.clock);
    follow(&s, "timeout", &a, RC_PACKET, 0);
    answers(&s, "012", RC_PACKET);
    expect(&s, "not heard by the host", !host_hears(&s.host, &earlier.packet));
    expect(&s, "taken by the library", is(take_unheard(&s, &earlier), RC_NOTHING, 0));
    answers(&s, "01", RC_NOTHING);
    expect(&s, "signer 2 answers", answer_of(&s, 2, &earlier, event, sizeof event));
    a = host_take(&s.host, s.clock, &earlier);
    expect(&s, "a job", is(a, RC_JOB, 0) && a.mark == 1);
    do_job(&s, &a, 0);
    expect(&s, "signer 0's share is the wrong one", s.last.verdict == SHARE_WRONG && s.last.signer == 0);
    end();
}

static void group_key_missing(void) {
    begin("no group key when the threshold is reached: 10, and only another signer's nonces go on");
    start(&s, RC_SCHNORR, "a", no_root);
    answers(&s, "1", RC_NOTHING);
    answers(&s, "0", RC_NOTHING);
    expect(&s, "cleared", is(rc_set_group_key(HELD, 0), RC_NOTHING, 0));
    answer(&s, 2, RC_ERROR, RC_REFUSED_GROUP_KEY);
    expect(&s, "held", is(rc_set_group_key(HELD, 1), RC_NOTHING, 0));
    answer(&s, 2, RC_NOTHING, 0);
    answer(&s, 3, RC_PACKET, 0);
    answers(&s, "0123", RC_JOB);
    end();
}

static void job_out(void) {
    static packet told;
    sealed last;
    char event[128];
    begin("while a job is out every call but the answer to it and reset gets 5");
    start(&s, RC_TAPROOT_ROOT, "a", with_root);
    answers(&s, "02", RC_PACKET);
    answers(&s, "2", RC_NOTHING);
    expect(&s, "signer 0 answers", answer_of(&s, 0, &last, event, sizeof event));
    const rc_answer a = host_take(&s.host, s.clock, &last);
    packet job = {(size_t)a.length, {0}};
    memcpy(job.bytes, s.host.out, job.length);
    expect(&s, "a job", is(a, RC_JOB, 0));
    expect(&s, "packet", is(host_take(&s.host, s.clock, &last), RC_ERROR, RC_REFUSED_JOB_OUT));
    expect(&s, "timeout", is(host_timeout(&s.host, s.clock), RC_ERROR, RC_REFUSED_JOB_OUT));
    expect(&s, "who has answered", is(host_arrivals(&s.host, &told), RC_ERROR, RC_REFUSED_JOB_OUT));
    expect(&s, "start", is(start_unasked(&s, RC_SCHNORR, "b", no_root), RC_ERROR, RC_REFUSED_JOB_OUT));
    expect(&s, "held key", is(rc_set_group_key(HELD, 1), RC_ERROR, RC_REFUSED_JOB_OUT));
    expect(&s, "not Idle", !host_idle(&s.host));
    expect(&s, "signed", is(host_do_job(&s.host, span_of(&job), 1, &s.last), RC_RESULT, 0) && s.last.verdict == AGGREGATED);
    expect(&s, "no job is out", is(rc_aggregated(HELD, 1), RC_ERROR, RC_REFUSED_NO_JOB));
    end();
}

/* Signer 1 has key 3 and shares for key 6. */
static void other_keys(void) {
    sealed given;
    char event[128];
    begin("shares for other keys: 22, waited for no more, and the job is not whole");
    start(&s, RC_SCHNORR, "a", no_root);
    answers(&s, "012", RC_PACKET);
    expect(&s, "signer 1 answers", answer_of(&s, 1, &given, event, sizeof event));
    put_number(given.packet.bytes + given.packet.length - KEY_LENGTH, KEY_LENGTH, 6);
    expect(&s, "sealed", seal_packet(&given, &s.secrets[1].seal));
    expect(&s, "22", is(host_take(&s.host, s.clock, &given), RC_RESULT, RC_REFUSED_WRONG_KEYS));
    answers(&s, "0", RC_NOTHING);
    expect(&s, "signer 2 answers", answer_of(&s, 2, &given, event, sizeof event));
    const rc_answer a = host_take(&s.host, s.clock, &given);
    expect(&s, "a job that is not whole", is(a, RC_JOB, 0) && a.mark == 0);
    do_job(&s, &a, 0);
    end();
}

/* Signer 0's answer, its first key named again at the end of its list, and sealed by it. */
static int repeats_key(sealed *given) {
    char event[128];
    uint32_t keys[RC_KEY_LIMIT];
    const member *m = s.signers[0].self;
    if (!answer_of(&s, 0, given, event, sizeof event)) return 0;
    const packet own = given->packet;
    const rc_packet h = rc_read_packet(own.bytes, own.length);
    const span message = packet_part(span_of(&own), 0), nonces = packet_part(span_of(&own), 2);
    memcpy(keys, m->keys, sizeof keys);
    keys[m->key_count] = keys[0];
    const rc_response_head head = {h.dkg_id, h.sign_id, h.sign_iter_id, h.signer_id, 0};
    packet *to = &given->packet;
    const rc_written w = rc_write_nonce_response(to->bytes, sizeof to->bytes, head, message.bytes, message.length, keys, m->key_count + 1,
                                                 nonces.bytes, nonces.length);
    return packet_written(to, w) && seal_packet(given, &s.secrets[0].seal);
}

/* Shares of a signer that signs whatever it is asked: its keys, and a scalar made up. */
static rc_answer shares_made_up(uint32_t id) {
    static const uint8_t z[Z_LENGTH] = {1};
    sealed given;
    const member *m = s.signers[id].self;
    const rc_packet h = rc_read_packet(s.request.packet.bytes, s.request.packet.length);
    const rc_response_head head = {h.dkg_id, h.sign_id, h.sign_iter_id, id, 0};
    const uint32_t count = m->key_count;
    packet *to = &given.packet;
    const rc_written w =
        rc_write_signature_share_response(to->bytes, sizeof to->bytes, head, &id, 1, z, sizeof z, &count, 1, m->keys, count);
    expect(&s, "written and sealed", packet_written(to, w) && seal_packet(&given, &s.secrets[id].seal));
    return host_take(&s.host, s.clock, &given);
}

static void key_named_twice(void) {
    sealed given;
    char event[128];
    begin("a signer names a key twice: the library takes it and the job is not whole; unheard by the host, the others sign");
    start(&s, RC_SCHNORR, "a", no_root);
    expect(&s, "signer 0 answers", repeats_key(&given));
    expect(&s, "not heard by the host", !host_hears(&s.host, &given.packet));
    expect(&s, "taken by the library", is(take_unheard(&s, &given), RC_NOTHING, 0));
    answers(&s, "2", RC_PACKET);
    const repeat r = find_repeat(span_of(&s.request.packet));
    expect(&s, "the share request tells who", r.found && r.first == 0 && r.second == 0);
    expect(&s, "and which key", r.key == s.signers[0].self->keys[0]);
    expect(&s, "no signer shares for it", !answer_of(&s, 2, &given, event, sizeof event));
    expect(&s, "shares made up", is(shares_made_up(2), RC_NOTHING, 0));
    const rc_answer a = shares_made_up(0);
    expect(&s, "a job that is not whole", is(a, RC_JOB, 0) && a.mark == 0);
    do_job(&s, &a, 0);
    expect(&s, "no aggregator is asked", s.last.verdict == JOB_NOT_WHOLE);
    expect(&s, "given up", host_give_up(&s.host));
    start(&s, RC_SCHNORR, "a", no_root);
    expect(&s, "signer 0 answers", repeats_key(&given));
    expect(&s, "dropped", is(host_take(&s.host, s.clock, &given), RC_NOTHING, 0));
    answers(&s, "123", RC_PACKET);
    expect(&s, "no key twice", !find_repeat(span_of(&s.request.packet)).found);
    answers(&s, "123", RC_JOB);
    end();
}

static void other_keys_last(void) {
    sealed given;
    char event[128];
    begin("22 for the last that is waited for: no job comes, and the share timeout retries and leaves nobody out");
    start(&s, RC_SCHNORR, "a", no_root);
    answers(&s, "02", RC_PACKET);
    answers(&s, "0", RC_NOTHING);
    expect(&s, "signer 2 answers", answer_of(&s, 2, &given, event, sizeof event));
    put_number(given.packet.bytes + given.packet.length - KEY_LENGTH, KEY_LENGTH, 6);
    expect(&s, "sealed", seal_packet(&given, &s.secrets[2].seal));
    expect(&s, "22", is(host_take(&s.host, s.clock, &given), RC_RESULT, RC_REFUSED_WRONG_KEYS));
    s.clock += stage_timeouts.shares + SECOND;
    const rc_answer a = host_timeout(&s.host, s.clock);
    follow(&s, "timeout", &a, RC_PACKET, 0);
    answers(&s, "02", RC_PACKET);
    answers(&s, "02", RC_JOB);
    end();
}

static void late_share(void) {
    sealed given;
    char event[128];
    static host before;
    begin("a share that comes late: rc_process drops it and leaves its signer out, rc_process_message takes it");
    start(&s, RC_SCHNORR, "a", no_root);
    answers(&s, "02", RC_PACKET);
    answers(&s, "0", RC_NOTHING);
    expect(&s, "signer 2 answers", answer_of(&s, 2, &given, event, sizeof event));
    s.clock += stage_timeouts.shares + SECOND;
    before = s.host;
    rc_answer a = host_take(&s.host, s.clock, &given);
    expect(&s, "the retry", is(a, RC_PACKET, 0) && packet_kind(host_out(&s.host, &a)) == RC_KIND_NONCE_REQUEST);
    s.host = before;
    a = host_take_untimed(&s.host, s.clock, &given);
    expect(&s, "a job", is(a, RC_JOB, 0));
    do_job(&s, &a, 1);
    end();
}

/* As a host that starts again: other buffers, with the saved bytes in them. */
static void loaded(void) {
    static host other;
    begin("state and store, saved in the middle of a round and loaded into other buffers, go on");
    start(&s, RC_TAPROOT, "a", no_root);
    answers(&s, "02", RC_PACKET);
    answers(&s, "0", RC_NOTHING);
    other.group = s.host.group;
    other.seal = s.host.seal;
    memcpy(other.state, s.host.state, sizeof other.state);
    memcpy(other.store, s.host.store, sizeof other.store);
    host_outstanding(&other, &s.request.packet);
    s.host = other;
    answers(&s, "0", RC_NOTHING);
    answers(&s, "2", RC_JOB);
    s.host.state[8] ^= 2;
    expect(&s, "another version: 4", is(host_timeout(&s.host, s.clock), RC_ERROR, RC_REFUSED_STATE));
    end();
}

/* A kind 1 to 7: how many parts it has at least, and whether a signer seals it. */
typedef struct sender {
    uint32_t kind, parts;
    int is_signer;
} sender;

static const sender senders[] = {
    {RC_KIND_NONCE_REQUEST, 2, 0}, {RC_KIND_NONCE_RESPONSE, 3, 1}, {RC_KIND_SHARE_REQUEST, 2, 0},   {RC_KIND_SHARE_RESPONSE, 0, 1},
    {RC_KIND_DKG_BEGIN, 0, 0},     {RC_KIND_DKG_SIGNER, 0, 1},     {RC_KIND_DKG_COORDINATOR, 0, 0},
};

/* A packet of that kind whose parts are empty, with that number in the signer's place. */
static void make(sealed *p, sender of, uint32_t id, const scalar *seal) {
    static const uint8_t none[1];
    const span empty[] = {{none, 0}, {none, 0}, {none, 0}};
    const rc_packet header = {.kind = of.kind, .pairs = of.parts, .signer_id = id, .dkg_id = HOST_DKG_ID};
    p->packet.length = lay_out(p->packet.bytes, header, empty).length;
    expect(&s, "read", rc_read_packet(p->packet.bytes, p->packet.length).kind == of.kind);
    expect(&s, "sealed", seal_packet(p, seal));
}

/* A coordinator's kind has 0 in the signer's place, and signer 0 is configured: its seal is not good for them all the same. */
static void who_sealed(void) {
    static sealed p;
    begin("each kind: under a signer's seal, under the coordinator's, and of a signer that nobody configured");
    s.host.iteration = 0; /* as in these packets */
    for (size_t i = 0; i < sizeof senders / sizeof senders[0]; i++) {
        make(&p, senders[i], 0, &s.host.seal);
        expect(&s, "the coordinator's seal", host_verdict(&s.group, &p) == !senders[i].is_signer);
        make(&p, senders[i], 0, &s.secrets[0].seal);
        expect(&s, "signer 0's seal", host_verdict(&s.group, &p) == senders[i].is_signer);
        expect(&s, "heard where it is a signer's", host_hears(&s.host, &p.packet) == senders[i].is_signer);
        expect(&s, "the library has no use for it", is(take_unheard(&s, &p), RC_NOTHING, 0));
        if (!senders[i].is_signer) continue;
        make(&p, senders[i], 9, &s.secrets[0].seal);
        expect(&s, "a stranger's", !host_verdict(&s.group, &p));
        expect(&s, "a stranger's, called good: 14", is(take_unheard(&s, &p), RC_ERROR, RC_REFUSED_SEAL));
    }
    end();
}

int main(void) {
    if (!curve_open()) return 2;
    starts();
    aggregator_failed();
    earlier_iteration();
    group_key_missing();
    job_out();
    other_keys();
    key_named_twice();
    other_keys_last();
    late_share();
    loaded();
    who_sealed();
    curve_close();
    printf(failures ? "%d wrong\n" : "all as it should be\n", failures);
    return failures != 0;
}
