/*
 * A signer's two writers (kinds 2 and 4) held against a writer by hand, layout.c: bytes, lengths and refusals, for many lists that were
 * drawn and for each limit at its edge and past it; into buffers of every length up to a little past the packet. What the library's
 * reader says of a packet is what was given; and a packet that the reader takes, changed ones too, is written back byte for byte. Only
 * what is wrong is printed.
 */
#include "layout.h"

#include <stdio.h>
#include <string.h>

enum { PLACES = 40, MESSAGE_PLACES = 600, DRAWN = 4000, AT_EVERY_LENGTH = 150, CHANGED = 20000, FRONT = 64, SURPLUS = 9, OVER = 2 };
enum { ROOM = MESSAGE_PLACES + PLACES * (NONCE_LENGTH + SHARE_LENGTH + 2 * KEY_LENGTH) + 128 };
enum { NONCES = RC_KIND_NONCE_RESPONSE, SHARES = RC_KIND_SHARE_RESPONSE };

/* What the writers are given. Lists have places past the limits, so that the lengths beside them are true there too. */
typedef struct response {
    int kind;
    rc_response_head head;
    size_t message_length, key_count, nonces_length, share_count, z_i_length, key_counts_length;
    uint8_t message[MESSAGE_PLACES], nonces[PLACES * NONCE_LENGTH], z_i[PLACES * Z_LENGTH];
    uint32_t key_ids[PLACES], share_ids[PLACES], key_counts[PLACES];
} response;

static int failures, looked_at;

static void check(const response *r, const char *what, int good) {
    looked_at++;
    failures += !good;
    if (good || failures > 20) return;
    printf("WRONG: kind %d: %s (message %zu, keys %zu, nonces %zu, shares %zu, z_i %zu, counts %zu)\n", r->kind, what, r->message_length,
           r->key_count, r->nonces_length, r->share_count, r->z_i_length, r->key_counts_length);
}

/* --- what is drawn */

static uint64_t draw(void) {
    static uint64_t x = 0x9e3779b97f4a7c15u;
    x ^= x << 13;
    x ^= x >> 7;
    x ^= x << 17;
    return x;
}

static size_t below(size_t n) { return (size_t)(draw() % n); }

/* Often the edges. */
static size_t up_to(size_t limit) {
    const size_t edges[] = {0, 1, limit - 1, limit};
    return below(3) == 0 ? edges[below(4)] : below(limit + 1);
}

static void fill(void *to, size_t length) {
    uint8_t *bytes = to;
    for (size_t i = 0; i < length; i++) bytes[i] = (uint8_t)(draw() >> 24);
}

/* So many counts that add up to the number of keys. */
static void spread(response *r) {
    memset(r->key_counts, 0, sizeof r->key_counts);
    for (size_t k = 0; k < r->key_count && r->key_counts_length > 0; k++) r->key_counts[below(r->key_counts_length)]++;
}

/* Lists of these lengths that agree; every byte that is lent, reserved ones too, is drawn. */
static void fill_response(response *r, int kind, size_t message, size_t keys, size_t others) {
    fill(r, sizeof *r);
    r->kind = kind;
    r->message_length = message;
    r->key_count = kind == SHARES && others == 0 ? 0 : keys;
    r->nonces_length = others * NONCE_LENGTH;
    r->share_count = r->key_counts_length = others;
    r->z_i_length = others * Z_LENGTH;
    spread(r);
    if (below(4) == 0) memset(r->key_ids, 7, sizeof r->key_ids); /* repeats */
}

static void draw_response(response *r) {
    fill_response(r, below(2) == 0 ? NONCES : SHARES, up_to(RC_MESSAGE_LIMIT), up_to(RC_KEY_LIMIT), up_to(RC_KEY_LIMIT));
}

/* --- what is wanted */

/* Whether 9 is answered yes. */
static int is_within(const response *r) {
    uint64_t total = 0;
    if (r->kind == NONCES)
        return r->message_length <= 256 && r->key_count <= 16 && r->nonces_length <= 16 * 66 && r->nonces_length % 66 == 0;
    if (r->share_count > 16 || r->key_count > 16 || r->key_counts_length != r->share_count) return 0;
    for (size_t i = 0; i < r->share_count; i++) total += r->key_counts[i];
    return r->z_i_length == 32 * r->share_count && total == r->key_count;
}

static span key_bytes(uint8_t *to, const uint32_t *ids, size_t count) {
    for (size_t i = 0; i < count; i++) put_number(to + KEY_LENGTH * i, KEY_LENGTH, ids[i]);
    return (span){to, KEY_LENGTH * count};
}

/* The parts of a packet within the limits; their bytes lie in `to`. */
static uint32_t parts_of(const response *r, span parts[RC_KEY_LIMIT], uint8_t *to) {
    size_t key = 0;
    if (r->kind == NONCES) {
        parts[0] = (span){r->message, r->message_length};
        parts[1] = key_bytes(to, r->key_ids, r->key_count);
        parts[2] = (span){r->nonces, r->nonces_length};
        return 3;
    }
    for (size_t i = 0; i < r->share_count; i++) {
        put_number(to, KEY_LENGTH, r->share_ids[i]);
        memcpy(to + KEY_LENGTH, r->z_i + Z_LENGTH * i, Z_LENGTH);
        const span keys = key_bytes(to + SHARE_LENGTH, r->key_ids + key, r->key_counts[i]);
        parts[i] = (span){to, SHARE_LENGTH + keys.length};
        key += r->key_counts[i];
        to += parts[i].length;
    }
    return (uint32_t)r->share_count;
}

static rc_packet header_of(const response *r, uint32_t pairs) {
    return (rc_packet){.kind = (uint32_t)r->kind,
                       .pairs = pairs,
                       .signer_id = r->head.signer_id,
                       .dkg_id = r->head.dkg_id,
                       .sign_id = r->head.sign_id,
                       .sign_iter_id = r->head.sign_iter_id};
}

/* --- what is written */

static uint8_t out[ROOM + SURPLUS];

static rc_written write_into(const response *r, size_t room) {
    if (r->kind == NONCES)
        return rc_write_nonce_response(out, room, r->head, r->message, r->message_length, r->key_ids, r->key_count, r->nonces,
                                       r->nonces_length);
    return rc_write_signature_share_response(out, room, r->head, r->share_ids, r->share_count, r->z_i, r->z_i_length, r->key_counts,
                                             r->key_counts_length, r->key_ids, r->key_count);
}

static uint8_t painted(size_t i) { return (uint8_t)(i * 7 + 3); }

static int is_painted(size_t from, size_t to) {
    for (size_t i = from; i < to; i++)
        if (out[i] != painted(i)) return 0;
    return 1;
}

/* Lends so many bytes of a painted buffer: the answer, the packet, and nothing past it, nor anything on a refusal. */
static void look(const response *r, span want, size_t room) {
    const uint32_t refusal = !is_within(r) ? RC_REFUSED_LIMIT : room < want.length ? RC_REFUSED_BUFFER : 0;
    const size_t length = refusal == 0 ? want.length : 0;
    for (size_t i = 0; i < room + SURPLUS; i++) out[i] = painted(i);
    const rc_written w = write_into(r, room);
    check(r, "refusal and length", w.refusal == refusal && w.reserved == 0 && w.length == length);
    check(r, "each byte of the packet", refusal != 0 || span_equal((span){out, length}, want));
    check(r, "nothing but the packet", is_painted(length, room + SURPLUS));
}

/* By hand, where there is such a packet. */
static span laid_out(const response *r) {
    static uint8_t to[ROOM], bytes[ROOM];
    span parts[RC_KEY_LIMIT];
    if (!is_within(r)) return (span){to, 0};
    const uint32_t pairs = parts_of(r, parts, bytes);
    return lay_out(to, header_of(r, pairs), parts);
}

/* What the reader says of the packet is what was given. */
static void read_back(const response *r, span whole) {
    static uint8_t bytes[ROOM];
    span parts[RC_KEY_LIMIT];
    const rc_packet want = header_of(r, parts_of(r, parts, bytes)), p = rc_read_packet(whole.bytes, whole.length);
    check(r, "taken by the reader", p.refusal == 0 && p.reserved == 0);
    check(r, "kind and type", p.kind == want.kind && p.signature_type == 0);
    check(r, "number of parts", p.pairs == want.pairs);
    check(r, "signer", p.signer_id == want.signer_id);
    check(r, "ids", p.dkg_id == want.dkg_id && p.sign_id == want.sign_id && p.sign_iter_id == want.sign_iter_id);
    for (uint16_t i = 0; i < want.pairs; i++) check(r, "a part", span_equal(packet_part(whole, i), parts[i]));
}

/* --- drawn lists */

static void drawn(void) {
    response r;
    for (int i = 0; i < DRAWN; i++) {
        draw_response(&r);
        const span want = laid_out(&r);
        if (want.length > 0) look(&r, want, want.length - 1);
        look(&r, want, want.length);
        read_back(&r, (span){out, want.length});
        look(&r, want, ROOM);
    }
    for (int i = 0; i < AT_EVERY_LENGTH; i++) {
        draw_response(&r);
        const span want = laid_out(&r);
        for (size_t room = 0; room <= want.length + SURPLUS; room++) look(&r, want, room);
    }
}

/* --- limits, and lists that do not agree */

/* No buffer, one that is a byte short, an exact one and a long one. */
static void look_around(const response *r) {
    const span want = laid_out(r);
    look(r, want, 0);
    if (want.length > 0) look(r, want, want.length - 1);
    look(r, want, want.length);
    look(r, want, ROOM);
}

static void nonce_limits(void) {
    static const size_t messages[] = {0, 1, 255, 256, 257, MESSAGE_PLACES}, keys[] = {0, 1, 15, 16, 17, PLACES},
                        bytes[] = {0, 1, 65, 66, 67, 132, 989, 990, 1055, 1056, 1057, 1122, PLACES * NONCE_LENGTH};
    response r;
    for (size_t m = 0; m < sizeof messages / sizeof *messages; m++)
        for (size_t k = 0; k < sizeof keys / sizeof *keys; k++)
            for (size_t n = 0; n < sizeof bytes / sizeof *bytes; n++) {
                fill_response(&r, NONCES, messages[m], keys[k], 0);
                r.nonces_length = bytes[n];
                look_around(&r);
            }
}

/* Each list by itself one shorter and longer than the others want it, and counts whose sum is right only in 32 bits. */
static void disagreeing(const response *good) {
    const size_t shares = good->share_count;
    response r = *good;
    for (size_t length = 0; length <= Z_LENGTH * (shares + 1); length++) {
        r.z_i_length = length;
        look_around(&r);
    }
    r = *good;
    for (r.key_counts_length = 0; r.key_counts_length <= shares + 1; r.key_counts_length++) look_around(&r);
    r = *good;
    for (r.key_count = 0; r.key_count <= RC_KEY_LIMIT + OVER; r.key_count++) look_around(&r);
    for (size_t i = 0; i < shares; i++) {
        static const uint32_t by[] = {1, 16, 0x80000000u, UINT32_MAX};
        r = *good;
        for (int j = 0; j < 4; j++) {
            r.key_counts[i] = good->key_counts[i] + by[j];
            look_around(&r);
            r.key_counts[shares - 1 - i] -= by[j]; /* where these are two, the sum is the same again, or more by 2^32 */
            look_around(&r);
            r = *good;
        }
    }
}

static void share_limits(void) {
    response r;
    for (size_t shares = 0; shares <= RC_KEY_LIMIT + OVER; shares++)
        for (size_t keys = 0; keys <= RC_KEY_LIMIT + OVER; keys++) {
            fill_response(&r, SHARES, 0, keys, shares);
            look_around(&r);
            if (shares % 5 < 2 && keys % 5 < 2) disagreeing(&r);
        }
    fill_response(&r, SHARES, 0, PLACES, PLACES);
    look_around(&r);
}

/* --- worked numbers, and the longest */

static void expect(const response *r, size_t room, uint32_t refusal, size_t length) {
    const rc_written w = write_into(r, room);
    check(r, "a worked number", w.refusal == refusal && w.length == length);
}

static void worked(void) {
    response r;
    fill_response(&r, NONCES, 1, 2, 2);
    r.head.signer_id = 1;
    r.message[0] = 'a';
    r.key_ids[0] = 2;
    r.key_ids[1] = 3;
    expect(&r, 197, 0, 197);
    expect(&r, 196, RC_REFUSED_BUFFER, 0);
    r.message_length = 257;
    expect(&r, 0, RC_REFUSED_LIMIT, 0);
    r.message_length = 256;
    expect(&r, 0, RC_REFUSED_BUFFER, 0);
    fill_response(&r, NONCES, RC_MESSAGE_LIMIT, RC_KEY_LIMIT, RC_KEY_LIMIT);
    expect(&r, ROOM, 0, RC_NONCE_RESPONSE_LIMIT);
    fill_response(&r, SHARES, 0, 0, 0);
    expect(&r, 32, 0, 32);
    expect(&r, 31, RC_REFUSED_BUFFER, 0);
    fill_response(&r, SHARES, 0, 2, 1);
    expect(&r, 84, 0, 84);
    fill_response(&r, SHARES, 0, RC_KEY_LIMIT, RC_KEY_LIMIT);
    expect(&r, ROOM, 0, RC_SHARE_RESPONSE_LIMIT);
}

/* --- written back */

/* The fields that the reader finds in a packet that it takes. */
static void found(response *r, span whole, const rc_packet *p) {
    memset(r, 0, sizeof *r);
    r->kind = (int)p->kind;
    r->head = (rc_response_head){p->dkg_id, p->sign_id, p->sign_iter_id, p->signer_id, 0};
    const span message = packet_part(whole, 0), keys = packet_part(whole, 1), nonces = packet_part(whole, 2);
    if (r->kind == NONCES) {
        memcpy(r->message, message.bytes, r->message_length = message.length);
        r->key_count = keys.length / KEY_LENGTH;
        for (size_t k = 0; k < r->key_count; k++) r->key_ids[k] = (uint32_t)number_at(keys.bytes + KEY_LENGTH * k, KEY_LENGTH);
        memcpy(r->nonces, nonces.bytes, r->nonces_length = nonces.length);
        return;
    }
    r->share_count = r->key_counts_length = p->pairs;
    r->z_i_length = Z_LENGTH * r->share_count;
    for (uint16_t i = 0; i < p->pairs; i++) {
        const span share = packet_part(whole, i);
        r->share_ids[i] = (uint32_t)number_at(share.bytes, KEY_LENGTH);
        memcpy(r->z_i + Z_LENGTH * i, share.bytes + KEY_LENGTH, Z_LENGTH);
        r->key_counts[i] = (uint32_t)((share.length - SHARE_LENGTH) / KEY_LENGTH);
        for (size_t at = SHARE_LENGTH; at < share.length; at += KEY_LENGTH)
            r->key_ids[r->key_count++] = (uint32_t)number_at(share.bytes + at, KEY_LENGTH);
    }
}

/* Packets with a byte changed, mostly in front, where the reader looks: those that it takes all the same are written back as they are. */
static void written_back(void) {
    static uint8_t bytes[ROOM];
    int taken = 0;
    response r;
    for (int i = 0; i < CHANGED; i++) {
        draw_response(&r);
        const span right = laid_out(&r), changed = {bytes, right.length};
        const size_t front = right.length < FRONT ? right.length : FRONT;
        memcpy(bytes, right.bytes, right.length);
        bytes[below(below(2) == 0 ? front : right.length)] ^= (uint8_t)(1u << below(8));
        const rc_packet p = rc_read_packet(changed.bytes, changed.length);
        if (p.refusal != 0 || (p.kind != NONCES && p.kind != SHARES)) continue;
        found(&r, changed, &p);
        look(&r, changed, changed.length);
        taken++;
    }
    check(&r, "some changed packets are taken", taken > CHANGED / 4);
}

int main(void) {
    worked();
    drawn();
    nonce_limits();
    share_limits();
    written_back();
    printf("%d answers and packets of a signer's writers looked at\n", looked_at);
    printf(failures ? "%d wrong\n" : "all as it should be\n", failures);
    return failures != 0;
}
