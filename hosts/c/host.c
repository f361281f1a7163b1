#include "host.h"

#include "repeats.h"

#include <string.h>

#define STATE h->state, sizeof h->state
#define STORE h->store, sizeof h->store
#define OUT h->out, sizeof h->out

static rc_config configuration(const group *g, host_timeouts timeouts) {
    rc_config c;
    memset(&c, 0, sizeof c);
    c.num_signers = g->member_count;
    c.num_keys = g->key_total;
    c.threshold = g->threshold;
    c.dkg_threshold = g->key_total;
    c.sign_threshold = g->threshold;
    c.verify_packet_sigs = 1;
    c.nonce_timeout = (rc_timeout){1, timeouts.nonces};
    c.sign_timeout = (rc_timeout){1, timeouts.shares};
    c.signer_count = g->member_count;
    for (uint32_t i = 0; i < g->member_count; i++) {
        c.signers[i].id = g->members[i].id;
        c.signers[i].has_keys = 1;
        c.signers[i].key_count = g->members[i].key_count;
        memcpy(c.signers[i].keys, g->members[i].keys, sizeof g->members[i].keys);
    }
    return c;
}

static int took(rc_answer a) { return a.class_ == RC_NOTHING; }

static int tell_results(host *h) {
    uint32_t ended[RC_SIGNER_LIMIT];
    for (uint32_t i = 0; i < h->group->member_count; i++) ended[i] = h->group->members[i].id;
    return took(rc_take_results(STATE, STORE, HOST_DKG_ID, ended, h->group->member_count));
}

int host_commission(host *h, host_timeouts timeouts) {
    return took(rc_commission(STATE, STORE, configuration(h->group, timeouts))) && took(rc_set_coordinator_key(STATE, STORE, 1)) &&
           took(rc_set_group_key(STATE, STORE, 1)) && tell_results(h);
}

/* A packet that is to leave is sealed at once, so that what is saved is what is sent. */
static rc_answer sealing(host *h, rc_answer a) {
    if (a.class_ != RC_PACKET) return a;
    h->send.packet.length = (size_t)a.length;
    memcpy(h->send.packet.bytes, h->out, (size_t)a.length);
    host_outstanding(h, &h->send.packet);
    if (!seal_packet(&h->send, &h->seal)) h->send.packet.length = 0;
    return a;
}

void host_outstanding(host *h, const packet *p) { h->iteration = rc_read_packet(p->bytes, p->length).sign_iter_id; }

int host_idle(host *h) { return rc_is_idle(STATE, STORE); }

rc_answer host_start(host *h, uint64_t clock, uint8_t type, span message, span root) {
    static const uint8_t no_root[32];
    const span given = root.length > 0 ? root : (span){no_root, sizeof no_root};
    if (!host_idle(h)) return (rc_answer){.class_ = RC_ERROR, .number = RC_REFUSED_MOVE};
    return sealing(
        h, rc_start_signing_round(STATE, STORE, OUT, clock, message.bytes, message.length, type, given.bytes, given.length, 0, 0));
}

/* net.rs, Packet::verify, as in crates/layout's is_signer_kind: whether a signer's key tests this kind, or the coordinator's. */
static int is_signer_kind(uint32_t kind) {
    switch (kind) {
    case RC_KIND_NONCE_REQUEST: return 0;
    case RC_KIND_NONCE_RESPONSE: return 1;
    case RC_KIND_SHARE_REQUEST: return 0;
    case RC_KIND_SHARE_RESPONSE: return 1;
    case RC_KIND_DKG_BEGIN: return 0;
    case RC_KIND_DKG_SIGNER: return 1;
    case RC_KIND_DKG_COORDINATOR: return 0;
    default: return 0; /* rc_read_packet takes no other kind */
    }
}

int host_verdict(const group *g, const sealed *s) {
    const rc_packet p = rc_read_packet(s->packet.bytes, s->packet.length);
    if (p.refusal != 0) return 0;
    const member *m = group_member(g, p.signer_id);
    if (is_signer_kind(p.kind)) return m != NULL && seal_good(s, m->seal_key);
    return seal_good(s, g->host_seal_key);
}

int host_hears(const host *h, const packet *p) {
    const rc_packet header = rc_read_packet(p->bytes, p->length);
    if (header.refusal != 0) return 1; /* the library says what is wrong with it */
    if (header.kind == RC_KIND_SHARE_RESPONSE) return header.sign_iter_id == h->iteration;
    if (header.kind == RC_KIND_NONCE_RESPONSE) return !names_twice(packet_part(span_of(p), RESPONSE_KEYS));
    return is_signer_kind(header.kind);
}

rc_answer host_take(host *h, uint64_t clock, const sealed *s) {
    const uint8_t verdict = (uint8_t)host_verdict(h->group, s);
    if (!host_hears(h, &s->packet)) return (rc_answer){.class_ = RC_NOTHING};
    return sealing(h, rc_process(STATE, STORE, OUT, clock, verdict, s->packet.bytes, s->packet.length));
}

rc_answer host_take_untimed(host *h, uint64_t clock, const sealed *s) {
    const uint8_t verdict = (uint8_t)host_verdict(h->group, s);
    if (!host_hears(h, &s->packet)) return (rc_answer){.class_ = RC_NOTHING};
    return sealing(h, rc_process_message(STATE, STORE, OUT, clock, verdict, s->packet.bytes, s->packet.length));
}

rc_answer host_timeout(host *h, uint64_t clock) { return sealing(h, rc_process_timeout(STATE, STORE, OUT, clock)); }

rc_answer host_arrivals(const host *h, packet *told) {
    const rc_answer a = rc_tell_arrivals(STATE, STORE, told->bytes, sizeof told->bytes);
    told->length = (size_t)a.length;
    return a;
}

rc_answer host_do_job(host *h, span job, int whole, aggregation *a) {
    *a = aggregate(h->group, job, whole);
    return rc_aggregated(STATE, STORE, a->verdict == AGGREGATED);
}

int host_give_up(host *h) { return took(rc_reset(STATE, STORE)) && tell_results(h); }

span host_out(const host *h, const rc_answer *a) { return (span){h->out, (size_t)a->length}; }
