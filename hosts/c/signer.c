#include "signer.h"

#include <stdlib.h>
#include <string.h>

void signer_open(signer *s, const group *g, uint32_t id, const member_secrets *secrets) {
    *s = (signer){g, group_member(g, id), *secrets, NULL};
}

void signer_close(signer *s) {
    while (s->first != NULL) {
        kept *next = s->first->next;
        scalar_wipe(&s->first->nonces[0]);
        scalar_wipe(&s->first->nonces[1]);
        free(s->first);
        s->first = next;
    }
    for (int k = 0; k < RC_KEY_LIMIT; k++) scalar_wipe(&s->secrets.keys[k]);
    scalar_wipe(&s->secrets.seal);
}

const char *reply_words(reply r) {
    static const char *const words[] = {"nonces",
                                        "the same nonces again",
                                        "its share",
                                        "the same share again",
                                        "silent: not the coordinator's seal",
                                        "silent: no packet for signers",
                                        "silent: not named",
                                        "silent: not what the nonces were given for",
                                        "silent: these nonces have signed another request",
                                        "silent: failed"};
    return words[r];
}

int reply_answers(reply r) { return r <= REPLY_SHARE_AGAIN; }

/* Seals an answer and keeps it as it will leave. Its writer was lent no more bytes than are kept. */
static int seal_and_keep(kept_answer *to, sealed *answer, const signer *s) {
    if (!seal_packet(answer, &s->secrets.seal)) return 0;
    to->length = answer->packet.length;
    memcpy(to->bytes, answer->packet.bytes, to->length);
    memcpy(to->seal, answer->seal, SIGNATURE_LENGTH);
    return 1;
}

static void recall(sealed *answer, const kept_answer *from) {
    answer->packet.length = from->length;
    memcpy(answer->packet.bytes, from->bytes, from->length);
    memcpy(answer->seal, from->seal, SIGNATURE_LENGTH);
}

static rc_response_head response_head(const signer *s, const rc_packet *request) {
    return (rc_response_head){request->dkg_id, request->sign_id, request->sign_iter_id, s->self->id, 0};
}

/* Draws D and E and writes the response. */
static int commit(const signer *s, kept *k, const sealed *request, const rc_packet *header, sealed *answer) {
    uint8_t nonces[NONCE_LENGTH];
    packet *to = &answer->packet;
    const span message = packet_part(span_of(&request->packet), 0);
    for (int i = 0; i < 2; i++) {
        point p;
        if (!scalar_draw(&k->nonces[i]) || !point_of(&p, &k->nonces[i]) || !point_write(nonces + POINT_LENGTH * i, &p)) return 0;
    }
    return packet_written(to, rc_write_nonce_response(to->bytes, ANSWER_LIMIT, response_head(s, header), message.bytes, message.length,
                                                      s->self->keys, s->self->key_count, nonces, sizeof nonces)) &&
           seal_and_keep(&k->commitment, answer, s);
}

static reply give_nonces(signer *s, const sealed *request, const rc_packet *header, sealed *answer) {
    uint8_t digest[HASH_LENGTH];
    if (!packet_digest(digest, &request->packet)) return SILENT_FAILED;
    for (const kept *k = s->first; k != NULL; k = k->next) {
        if (memcmp(k->nonce_request, digest, HASH_LENGTH) != 0) continue;
        recall(answer, &k->commitment);
        return REPLY_NONCES_AGAIN;
    }
    kept *fresh = calloc(1, sizeof *fresh);
    if (fresh == NULL) return SILENT_FAILED;
    memcpy(fresh->nonce_request, digest, HASH_LENGTH);
    if (!commit(s, fresh, request, header, answer)) {
        free(fresh);
        return SILENT_FAILED;
    }
    fresh->next = s->first;
    s->first = fresh;
    return REPLY_NONCES;
}

/* The nonces of a share request, one for each response: the ids are the request's, the message too, the keys are the signer's own list.
 */
static int read_signing(signing *to, const group *g, span whole, const rc_packet *header) {
    to->type = (uint8_t)header->signature_type;
    to->message = packet_part(whole, 0);
    to->root = packet_part(whole, 1);
    to->count = header->pairs - REQUEST_PARTS;
    for (uint32_t i = 0; i < to->count; i++) {
        uint8_t keys[KEY_LENGTH * RC_KEY_LIMIT];
        const span response = packet_part(whole, (uint16_t)(REQUEST_PARTS + i));
        const rc_packet nested = rc_read_packet(response.bytes, response.length);
        const member *m = group_member(g, nested.signer_id);
        const span nonces = packet_part(response, 2);
        if (m == NULL || nonces.length != NONCE_LENGTH || !span_equal(packet_part(response, 0), to->message)) return 0;
        if (!span_equal(packet_part(response, RESPONSE_KEYS), (span){keys, member_keys(m, keys)})) return 0;
        if (nested.dkg_id != header->dkg_id || nested.sign_id != header->sign_id || nested.sign_iter_id != header->sign_iter_id) return 0;
        to->commitments[i].signer = m->id;
        memcpy(to->commitments[i].bytes, nonces.bytes, NONCE_LENGTH);
    }
    return 1;
}

/* This signer's own response inside a share request: empty where there is none. */
static span own_response(const signer *s, span whole, uint32_t pairs) {
    for (uint32_t i = REQUEST_PARTS; i < pairs; i++) {
        const span response = packet_part(whole, (uint16_t)i);
        if (rc_read_packet(response.bytes, response.length).signer_id == s->self->id) return response;
    }
    return (span){whole.bytes, 0};
}

int signer_named(const signer *s, const packet *request) {
    const rc_packet header = rc_read_packet(request->bytes, request->length);
    return header.kind == RC_KIND_SHARE_REQUEST && own_response(s, span_of(request), header.pairs).length > 0;
}

/* The nonce request that this share request must follow: the same ids, type, message and root. So it is written again and compared by its
 * digest. */
static int follows(const kept *k, span whole, const rc_packet *header) {
    packet asked;
    rc_head head = {header->dkg_id, header->sign_id, header->sign_iter_id, (uint8_t)header->signature_type, {0}, {0}};
    const span message = packet_part(whole, 0), root = packet_part(whole, 1);
    uint8_t digest[HASH_LENGTH];
    memcpy(head.root, root.bytes, root.length);
    return packet_written(&asked, rc_write_nonce_request(asked.bytes, sizeof asked.bytes, head, message.bytes, message.length)) &&
           packet_digest(digest, &asked) && memcmp(digest, k->nonce_request, HASH_LENGTH) == 0;
}

/* challenge times the Lagrange-weighted sum of this signer's secrets. */
static int weighted_secret(scalar *to, const signer *s, const terms *t) {
    for (uint32_t k = 0; k < s->self->key_count; k++) {
        scalar weighted;
        if (!lagrange(&weighted, t, s->self->keys[k]) || !scalar_multiply(&weighted, &s->secrets.keys[k])) return 0;
        if (k == 0) *to = weighted;
        if (k > 0 && !scalar_add(to, &weighted)) return 0;
    }
    return scalar_multiply(to, &t->challenge) && (!t->key_negated || scalar_negate(to));
}

/* z = (d + binding e) + challenge times the secret, each with the sign that BIP-340 gives it. */
static int share_of(scalar *z, const signer *s, const kept *k, const signing *what, const terms *t) {
    scalar secret;
    uint32_t i = 0;
    while (i < what->count && what->commitments[i].signer != s->self->id) i++;
    if (i == what->count) return 0;
    *z = k->nonces[1];
    const int good = scalar_multiply(z, &t->binding[i]) && scalar_add(z, &k->nonces[0]) && (!t->nonce_negated || scalar_negate(z)) &&
                     weighted_secret(&secret, s, t) && scalar_add(z, &secret);
    scalar_wipe(&secret);
    return good;
}

/* The nonces are wiped before the share leaves: whatever happens next, they sign nothing else. */
static reply sign(signer *s, kept *k, span whole, const rc_packet *header, sealed *answer) {
    packet *to = &answer->packet;
    signing what;
    terms t;
    scalar z;
    if (!follows(k, whole, header) || !read_signing(&what, s->group, whole, header)) return SILENT_OTHER;
    if (!signing_terms(&t, s->group, &what) || !share_of(&z, s, k, &what, &t)) return SILENT_FAILED;
    k->signed_once = 1;
    scalar_wipe(&k->nonces[0]);
    scalar_wipe(&k->nonces[1]);
    const int written = packet_written(
        to, rc_write_signature_share_response(to->bytes, ANSWER_LIMIT, response_head(s, header), &s->self->id, 1, z.bytes, sizeof z.bytes,
                                              &s->self->key_count, 1, s->self->keys, s->self->key_count));
    return written && seal_and_keep(&k->share, answer, s) ? REPLY_SHARE : SILENT_FAILED;
}

static reply give_share(signer *s, const sealed *request, const rc_packet *header, sealed *answer) {
    const span whole = span_of(&request->packet), own = own_response(s, whole, header->pairs);
    uint8_t digest[HASH_LENGTH];
    if (own.length == 0) return SILENT_NOT_NAMED;
    kept *k = s->first;
    while (k != NULL && !span_equal(own, (span){k->commitment.bytes, k->commitment.length})) k = k->next;
    if (k == NULL) return SILENT_OTHER;
    if (!packet_digest(digest, &request->packet)) return SILENT_FAILED;
    if (k->signed_once) {
        if (memcmp(k->share_request, digest, HASH_LENGTH) != 0) return SILENT_USED;
        if (k->share.length == 0) return SILENT_FAILED;
        recall(answer, &k->share);
        return REPLY_SHARE_AGAIN;
    }
    memcpy(k->share_request, digest, HASH_LENGTH);
    return sign(s, k, whole, header, answer);
}

reply signer_take(signer *s, const sealed *request, sealed *answer) {
    reply r = SILENT_PACKET;
    if (!seal_good(request, s->group->host_seal_key)) return SILENT_SEAL;
    const rc_packet header = rc_read_packet(request->packet.bytes, request->packet.length);
    if (header.refusal != 0) return SILENT_PACKET;
    if (header.kind == RC_KIND_NONCE_REQUEST) r = give_nonces(s, request, &header, answer);
    if (header.kind == RC_KIND_SHARE_REQUEST) r = give_share(s, request, &header, answer);
    return r;
}
