/* A whole round with two signers of a key each: cc round.c $(pkg-config --cflags --libs roundcabinet). Nonces, shares and aggregator are made up. */
#include <roundcabinet.h>
#include <stdio.h>
#include <string.h>

static uint8_t state[RC_STATE_LENGTH], store[RC_STORE_LENGTH], out[RC_ANSWER_LENGTH], sent[RC_ANSWER_LENGTH], packet[RC_NONCE_RESPONSE_LIMIT];
#define LENT state, sizeof state, store, sizeof store

/* A signer's answer to the request that was sent: its nonces, or one share. It has one key. */
static size_t respond(uint32_t signer, size_t length) {
    const rc_packet asked = rc_read_packet(sent, length);
    const rc_part message = rc_packet_part(sent, length, 0);
    const rc_response_head head = {asked.dkg_id, asked.sign_id, asked.sign_iter_id, signer, 0};
    const uint32_t key = signer + 1, one = 1;
    uint8_t bytes[66];
    memset(bytes, 2, sizeof bytes);
    if (asked.kind == RC_KIND_NONCE_REQUEST)
        return rc_write_nonce_response(packet, sizeof packet, head, sent + message.at, message.length, &key, 1, bytes, 66).length;
    return rc_write_signature_share_response(packet, sizeof packet, head, &signer, 1, bytes, 32, &one, 1, &key, 1).length;
}

int main(void) {
    const uint8_t message[] = "payout 7";
    const uint32_t ended[] = {0, 1};
    rc_config c;
    memset(&c, 0, sizeof c);
    c.num_signers = c.num_keys = c.threshold = c.sign_threshold = 2;
    c.signer_count = 2;
    for (uint32_t i = 0; i < 2; i++) c.signers[i] = (rc_signer){.id = i, .has_keys = 1, .key_count = 1, .keys = {i + 1}};
    if (rc_version() != RC_VERSION || rc_commission(LENT, c).number || rc_set_group_key(LENT, 1).number || rc_take_results(LENT, 7, ended, 2).number) return 1;
    rc_answer a = rc_start_signing_round(LENT, out, sizeof out, 0, message, sizeof message, RC_SCHNORR, NULL, 0, 0, 0);
    while (a.class_ == RC_PACKET) {
        const size_t length = (size_t)a.length;
        memcpy(sent, out, length); /* save state and store here, then seal and send */
        printf("sent: %s of %lu bytes\n", rc_kind_text(sent[0]), (unsigned long)length);
        for (uint32_t i = 0; i < 2; i++) a = rc_process(LENT, out, sizeof out, 1, 1, packet, respond(i, length));
    }
    if (a.class_ == RC_JOB) a = rc_aggregated(LENT, (uint8_t)a.mark); /* a host aggregates here */
    printf("%s\n", a.class_ == RC_RESULT && a.number == 0 && rc_is_idle(LENT) ? "signed" : rc_text(a.number));
    return a.class_ != RC_RESULT || a.number != 0;
}
