#include "aggregate.h"

#include "seal.h"

#include <string.h>

/* A job's parts: these four, then a part for each share. */
enum { JOB_MESSAGE, JOB_ROOT, JOB_KEYS, JOB_NONCES, JOB_SHARES };

typedef struct job_shares {
    scalar z[RC_SIGNER_LIMIT];
} job_shares;

const char *aggregate_words(aggregate_verdict v) {
    static const char *const words[] = {"signature verified", "not whole: shares are missing, or a key is named twice",
                                        "not one nonce pair and one share a signer", "a share is wrong", "the sum is wrong"};
    return words[v];
}

/* Share i: its signer's id, z, and the signer's own keys, which stand at the same place in the job's list. */
static int read_share(signing *what, job_shares *shares, const group *g, span job, uint32_t i, size_t *keys_at) {
    uint8_t keys[KEY_LENGTH * RC_KEY_LIMIT];
    const span share = written_part(job, (uint16_t)(JOB_SHARES + i)), all = written_part(job, JOB_KEYS);
    if (share.length < SHARE_LENGTH) return 0;
    const member *m = group_member(g, (uint32_t)number_at(share.bytes, 4));
    if (m == NULL) return 0;
    const span own = {keys, member_keys(m, keys)};
    if (!span_equal(own, (span){share.bytes + SHARE_LENGTH, share.length - SHARE_LENGTH})) return 0;
    if (own.length > all.length - *keys_at || !span_equal(own, (span){all.bytes + *keys_at, own.length})) return 0;
    *keys_at += own.length;
    what->commitments[i].signer = m->id;
    memcpy(what->commitments[i].bytes, written_part(job, JOB_NONCES).bytes + NONCE_LENGTH * (size_t)i, NONCE_LENGTH);
    memcpy(shares->z[i].bytes, share.bytes + 4, SCALAR_LENGTH);
    return 1;
}

static int read_job(signing *what, job_shares *shares, const group *g, span job) {
    const uint16_t parts = written_parts(job);
    size_t keys_at = 0;
    if (packet_kind(job) != RC_KIND_JOB || parts <= JOB_SHARES || parts - JOB_SHARES > RC_SIGNER_LIMIT) return 0;
    what->type = job.bytes[1];
    what->message = written_part(job, JOB_MESSAGE);
    what->root = written_part(job, JOB_ROOT);
    what->count = (uint32_t)parts - JOB_SHARES;
    if (written_part(job, JOB_NONCES).length != NONCE_LENGTH * (size_t)what->count) return 0;
    for (uint32_t i = 0; i < what->count; i++)
        if (!read_share(what, shares, g, job, i, &keys_at)) return 0;
    return keys_at == written_part(job, JOB_KEYS).length;
}

/* The public side of a signer's weighted secrets. */
static int weighted_keys(point *to, const member *m, const terms *t) {
    for (uint32_t k = 0; k < m->key_count; k++) {
        point key;
        scalar weight;
        if (!point_read(&key, m->key_points[k]) || !lagrange(&weight, t, m->keys[k]) || !point_multiply(&key, &weight)) return 0;
        if (k == 0) *to = key;
        if (k > 0 && !point_add(to, &key)) return 0;
    }
    return point_multiply(to, &t->challenge) && (!t->key_negated || point_negate(to));
}

/* z G = the bound nonce + challenge times the weighted keys. */
static int share_good(const group *g, const signing *what, const terms *t, const scalar *z, uint32_t i) {
    point given, nonce, keys;
    return point_of(&given, z) && bound_nonce(&nonce, t, what, i) &&
           weighted_keys(&keys, group_member(g, what->commitments[i].signer), t) && point_add(&nonce, &keys) &&
           point_equal(&given, &nonce);
}

static int sum_shares(scalar *to, const job_shares *shares, uint32_t count, const terms *t) {
    scalar tweak = t->tweak;
    *to = shares->z[0];
    for (uint32_t i = 1; i < count; i++)
        if (!scalar_add(to, &shares->z[i])) return 0;
    return !t->tweaked || (scalar_multiply(&tweak, &t->challenge) && scalar_add(to, &tweak));
}

aggregation aggregate(const group *g, span job, int whole) {
    aggregation a = {JOB_NOT_WHOLE, 0, {0}, {0}};
    signing what;
    job_shares shares;
    terms t;
    scalar sum;
    if (!whole) return a;
    a.verdict = JOB_UNREADABLE;
    if (!read_job(&what, &shares, g, job)) return a;
    a.verdict = SUM_WRONG;
    if (!signing_terms(&t, g, &what)) return a;
    for (uint32_t i = 0; i < what.count; i++) {
        if (share_good(g, &what, &t, &shares.z[i], i)) continue;
        a.verdict = SHARE_WRONG;
        a.signer = what.commitments[i].signer;
        return a;
    }
    if (!sum_shares(&sum, &shares, what.count, &t)) return a;
    memcpy(a.key, t.key, XONLY_LENGTH);
    memcpy(a.signature, t.nonce, XONLY_LENGTH);
    memcpy(a.signature + XONLY_LENGTH, sum.bytes, SCALAR_LENGTH);
    if (signature_good(a.signature, what.message, a.key)) a.verdict = AGGREGATED;
    return a;
}
