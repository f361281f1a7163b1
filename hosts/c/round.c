/*
 * Signing rounds in one process, from keys to BIP-340 signatures that libsecp256k1 accepts. A line an event: when, who did what, and what
 * the library answered. It tests itself: the last line says whether all was as it should be.
 */
#include "known.h"
#include "stage.h"
#include "words.h"

#include <stdio.h>
#include <string.h>

/* The signature again, apart from the aggregator: for this message, under the key that type and root give. */
static void verify(stage *s, uint8_t type, const char *words, span root) {
    terms t;
    const span message = {(const uint8_t *)words, strlen(words)};
    const int good = key_terms(&t, &s->group, type, root) && signature_good(s->last.signature, message, t.key);
    expect(s, "the signature verifies", good);
    if (s->quiet) return;
    printf("           key ");
    for (int i = 0; i < XONLY_LENGTH; i++) printf("%02x", t.key[i]);
    printf("\n           signature ");
    for (int i = 0; i < SIGNATURE_LENGTH; i++) printf("%02x", s->last.signature[i]);
    printf("\n           secp256k1_schnorrsig_verify: %s\n", good ? "good" : "NOT good");
}

static void whole_round(stage *s, uint8_t type, const char *words, span root, const char *nonces, const char *shares) {
    start(s, type, words, root);
    answers(s, nonces, RC_PACKET);
    answers(s, shares, RC_JOB);
    verify(s, type, words, root);
}

static void three_types(stage *s) {
    heading(s, "1. Schnorr. Four keys are enough: signer 3 is not needed.");
    whole_round(s, RC_SCHNORR, "payout 1: 120.00 to Alder", no_root, "012", "201");
    heading(s, "2. Taproot with a root.");
    whole_round(s, RC_TAPROOT_ROOT, "payout 2: 75.50 to Birch", with_root, "321", "132");
    heading(s, "3. Taproot without a root.");
    whole_round(s, RC_TAPROOT, "payout 3: 9.99 to Cedar", no_root, "20", "02");
}

/* Signer 1's own bytes under another's seal, then a changed byte under its own, then a signer that nobody configured. */
static void forgeries(stage *s) {
    char event[128];
    sealed real, forged;
    expect(s, "signer 1 answers", answer_of(s, 1, &real, event, sizeof event));
    forged = real;
    expect(s, "sealed by another", seal_packet(&forged, &s->secrets[3].seal));
    rc_answer a = host_take(&s->host, s->clock, &forged);
    follow(s, "a stranger: signer 1's nonces under signer 3's seal", &a, RC_ERROR, RC_REFUSED_SEAL);
    forged = real;
    forged.packet.bytes[forged.packet.length - 1] ^= 1;
    a = host_take(&s->host, s->clock, &forged);
    follow(s, "a stranger: one bit of signer 1's nonces changed", &a, RC_ERROR, RC_REFUSED_SEAL);
    forged = real;
    put_number(forged.packet.bytes + 4, 4, 9);
    expect(s, "sealed by itself", seal_packet(&forged, &s->secrets[1].seal));
    a = host_take(&s->host, s->clock, &forged);
    follow(s, "a stranger: nonces of signer 9", &a, RC_ERROR, RC_REFUSED_SEAL);
    a = host_take(&s->host, s->clock, &real);
    follow(s, event, &a, RC_NOTHING, 0);
    forged = s->request;
    expect(s, "sealed by a signer", seal_packet(&forged, &s->secrets[0].seal));
    const reply r = signer_take(&s->signers[3], &forged, &real);
    tell(s, "signer 3, given a nonce request that signer 0 sealed: %s", reply_words(r));
    expect(s, "a signer refuses a foreign seal", r == SILENT_SEAL);
}

/* On a copy: what becomes of signers 1 and 2, who answer in time, where a host starts a round of another type without asking. */
static void unasked_start(stage *s, const char *words) {
    static const uint8_t both[] = {1, 0, 0, 0, 2, 0, 0, 0};
    static host before;
    const uint64_t now = s->clock;
    before = s->host;
    tell(s, "-- on a copy of state and store: a host that starts a Taproot round now, without asking");
    rc_answer a = start_unasked(s, RC_TAPROOT, words, no_root);
    follow(s, "   host: start", &a, RC_ERROR, RC_REFUSED_MOVE);
    answer(s, 1, RC_RESULT, RC_REFUSED_SIGN_ID);
    answer(s, 2, RC_RESULT, RC_REFUSED_SIGN_ID);
    s->clock += stage_timeouts.shares + SECOND;
    a = host_timeout(&s->host, s->clock);
    follow(s, "   host: timeout?", &a, RC_RESULT, 0);
    expect(s, "both are left out", span_equal(written_part(host_out(&s->host, &a), 0), (span){both, sizeof both}));
    s->host = before;
    s->clock = now;
    tell(s, "-- back to the round itself");
}

/* A share request and its answer may come twice. A start waits until the round is over. */
static void again(stage *s, const char *words) {
    answer(s, 0, RC_NOTHING, 0);
    answer(s, 0, RC_NOTHING, 0);
    const rc_answer a = host_start(&s->host, s->clock, RC_TAPROOT, (span){(const uint8_t *)"x", 1}, no_root);
    follow(s, "host: another round now? It asks, and does not start", &a, RC_ERROR, RC_REFUSED_MOVE);
    unasked_start(s, words);
}

/* The coordinator's own nonce request of an earlier round, with its good seal: in Idle the library would begin that round again. */
static void played_back(stage *s) {
    static host before;
    expect(s, "its seal is good", host_verdict(&s->group, &s->first));
    before = s->host;
    rc_answer a = take_unheard(s, &s->first);
    expect(s, "on a copy the library begins that round", a.class_ == RC_PACKET);
    s->host = before;
    a = host_take(&s->host, s->clock, &s->first);
    follow(s, "a stranger: plays back a nonce request: not heard", &a, RC_NOTHING, 0);
    expect(s, "still Idle", host_idle(&s->host));
}

static void forged_round(stage *s) {
    heading(s, "4. Forged packets; packets that come twice; a start at the wrong time.");
    static const char words[] = "payout 4: 18.20 to Elm";
    played_back(s);
    start(s, RC_SCHNORR, words, no_root);
    forgeries(s);
    answers(s, "02", RC_PACKET);
    again(s, words);
    answers(s, "12", RC_JOB);
    verify(s, RC_SCHNORR, words, no_root);
}

static void time_passes(stage *s, uint64_t nanoseconds, const char *event, uint32_t class_, uint32_t number) {
    s->clock += nanoseconds;
    const rc_answer a = host_timeout(&s->host, s->clock);
    follow(s, event, &a, class_, number);
}

/* Signer 0's share of the iteration before, once more. The library would take it for one of this iteration. */
static void late_share(stage *s, const sealed *earlier) {
    sealed share;
    expect(s, "the same share again", signer_take(&s->signers[0], earlier, &share) == REPLY_SHARE_AGAIN);
    const rc_answer a = host_take(&s->host, s->clock, &share);
    follow(s, "signer 0: its share of the iteration before: not heard", &a, RC_NOTHING, 0);
}

static void silent_share(stage *s) {
    heading(s, "5. Signer 3 gives nonces and then no share: it is left out, and the retry signs without it.");
    start(s, RC_SCHNORR, "payout 5: 31.00 to Fir", no_root);
    answers(s, "031", RC_PACKET);
    const sealed earlier = s->request;
    answers(s, "0", RC_NOTHING);
    time_passes(s, stage_timeouts.shares - SECOND, "host: timeout? (signers 1 and 3 are waited for)", RC_NOTHING, 0);
    answers(s, "1", RC_NOTHING);
    time_passes(s, 2 * SECOND, "host: timeout? (signer 3 is waited for)", RC_PACKET, 0);
    operator_looks(s, "", "012");
    answers(s, "3012", RC_PACKET);
    late_share(s, &earlier);
    answers(s, "012", RC_JOB);
    verify(s, RC_SCHNORR, "payout 5: 31.00 to Fir", no_root);
}

static void late_nonces(stage *s) {
    char event[128];
    sealed late;
    static const uint8_t answered[] = {0, 0, 0, 0, 1, 0, 0, 0}, left_out[] = {3, 0, 0, 0};
    heading(s, "6. Signer 2 gives no nonces in time: a result says so, nobody is left out for it, and the round can go on.");
    start(s, RC_SCHNORR, "payout 6: 4.10 to Gorse", no_root);
    answers(s, "0", RC_NOTHING);
    s->clock += 2 * SECOND;
    answers(s, "1", RC_NOTHING);
    s->clock += 2 * SECOND;
    operator_looks(s, "01", "2");
    s->clock += stage_timeouts.nonces;
    rc_answer a = host_timeout(&s->host, s->clock);
    follow(s, "host: timeout?", &a, RC_RESULT, 0);
    const span out = host_out(&s->host, &a);
    expect(s, "kind 33", packet_kind(out) == RC_KIND_NONCE_TIMEOUT);
    expect(s, "signers 0 and 1 had answered", span_equal(written_part(out, 0), (span){answered, sizeof answered}));
    expect(s, "signer 3 is left out", span_equal(written_part(out, 1), (span){left_out, sizeof left_out}));
    expect(s, "signer 2 answers", answer_of(s, 2, &late, event, sizeof event));
    a = host_take(&s->host, s->clock, &late);
    follow(s, "signer 2: nonces, late, by rc_process: dropped", &a, RC_RESULT, 0);
    a = host_take_untimed(&s->host, s->clock, &late);
    follow(s, "signer 2: the same by rc_process_message", &a, RC_PACKET, 0);
    operator_looks(s, "012", "");
    answers(s, "012", RC_JOB);
    verify(s, RC_SCHNORR, "payout 6: 4.10 to Gorse", no_root);
}

static void nobody_answers(stage *s) {
    heading(s, "7. Nobody gives nonces; the host gives the round up.");
    start(s, RC_SCHNORR, "payout 7: 66.00 to Hazel", no_root);
    s->clock += stage_timeouts.nonces - SECOND;
    operator_looks(s, "", "012");
    time_passes(s, 2 * SECOND, "host: timeout?", RC_ERROR, RC_REFUSED_NO_RECORD);
    const int idle = host_give_up(&s->host);
    expect(s, "given up", idle);
    tell(s, "host: reset, and key generation's results again: %s", idle ? "taken" : "refused");
}

/* Signer 1 answers with a z that is off by one bit, under its own good seal. */
static void wrong_share(stage *s) {
    char event[128];
    sealed lie;
    heading(s, "8. Signer 1's share is wrong: the aggregator names it, and the host gives the round up and starts again.");
    start(s, RC_TAPROOT, "payout 8: 12.00 to Ivy", no_root);
    answers(s, "012", RC_PACKET);
    answers(s, "02", RC_NOTHING);
    expect(s, "signer 1 answers", answer_of(s, 1, &lie, event, sizeof event));
    lie.packet.bytes[32 + 8 + SHARE_LENGTH - 1] ^= 1;
    expect(s, "sealed by itself", seal_packet(&lie, &s->secrets[1].seal));
    const rc_answer a = host_take(&s->host, s->clock, &lie);
    follow(s, "signer 1: a wrong share", &a, RC_JOB, 0);
    if (a.class_ == RC_JOB) do_job(s, &a, 0);
    expect(s, "named", s->last.verdict == SHARE_WRONG && s->last.signer == 1);
    const int idle = host_give_up(&s->host);
    expect(s, "given up", idle);
    tell(s, "host: reset, and key generation's results again: %s", idle ? "taken" : "refused");
    whole_round(s, RC_TAPROOT, "payout 8: 12.00 to Ivy", no_root, "210", "210");
}

static void too_few(stage *s) {
    heading(s, "9. Signer 2 gives no share either: three keys are left, and four sign.");
    start(s, RC_SCHNORR, "payout 9: 1.00 to Juniper", no_root);
    answers(s, "20", RC_PACKET);
    answers(s, "0", RC_NOTHING);
    s->clock += stage_timeouts.shares + SECOND;
    const rc_answer a = host_timeout(&s->host, s->clock);
    follow(s, "host: timeout?", &a, RC_RESULT, 0);
    expect(s, "kind 34", packet_kind(host_out(&s->host, &a)) == RC_KIND_INSUFFICIENT_SIGNERS);
}

/* Key, tweaked key and nonce are odd or even by chance: newly dealt groups meet all of it. */
static int many_groups(stage *s, int groups) {
    int failures = 0;
    for (int i = 0; i < groups; i++) {
        expect(s, "dealt and commissioned", open_stage(s, 1));
        three_types(s);
        failures += s->failures;
        close_stage(s);
    }
    printf("\n%d rounds with %d newly dealt groups, all three types: %s\n", 3 * groups, groups, failures == 0 ? "verified" : "WRONG");
    return failures;
}

int main(void) {
    static stage s;
    if (!curve_open()) return 2;
    if (!open_stage(&s, 0)) {
        printf("WRONG: not dealt, or not commissioned\n");
        return 2;
    }
    expect(&s, "BIP-341's own tweaked keys", known_tweaks());
    three_types(&s);
    forged_round(&s);
    silent_share(&s);
    late_nonces(&s);
    nobody_answers(&s);
    wrong_share(&s);
    too_few(&s);
    int failures = s.failures;
    close_stage(&s);
    failures += many_groups(&s, 24);
    curve_close();
    printf(failures ? "%d wrong\n" : "all as it should be\n", failures);
    return failures != 0;
}
