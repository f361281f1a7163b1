#include "group.h"

#include <string.h>

enum { THRESHOLD = 4, MEMBERS = 4 };

static const struct { uint32_t count, keys[2]; } holdings[MEMBERS] = {{2, {1, 2}}, {1, {3}}, {2, {4, 5}}, {1, {6}}};

/* The polynomial's value at a key's number, by Horner. */
static int value_at(scalar *to, const scalar *polynomial, uint32_t key) {
    const scalar x = scalar_number(key);
    *to = polynomial[THRESHOLD - 1];
    for (int i = THRESHOLD - 2; i >= 0; i--)
        if (!scalar_multiply(to, &x) || !scalar_add(to, &polynomial[i])) return 0;
    return 1;
}

static int public_bytes(uint8_t to[POINT_LENGTH], const scalar *secret) {
    point p;
    return point_of(&p, secret) && point_write(to, &p);
}

static int seal_pair(uint8_t public_key[XONLY_LENGTH], scalar *secret) {
    point p;
    int odd;
    return scalar_draw(secret) && point_of(&p, secret) && point_xonly(public_key, &odd, &p);
}

static int deal_member(member *m, member_secrets *secrets, const scalar *polynomial) {
    for (uint32_t k = 0; k < m->key_count; k++)
        if (!value_at(&secrets->keys[k], polynomial, m->keys[k]) || !public_bytes(m->key_points[k], &secrets->keys[k])) return 0;
    return seal_pair(m->seal_key, &secrets->seal);
}

static void name_members(group *g) {
    memset(g, 0, sizeof *g);
    g->threshold = THRESHOLD;
    g->member_count = MEMBERS;
    for (uint32_t i = 0; i < MEMBERS; i++) {
        g->members[i].id = i;
        g->members[i].key_count = holdings[i].count;
        memcpy(g->members[i].keys, holdings[i].keys, sizeof holdings[i].keys);
        g->key_total += holdings[i].count;
    }
}

int deal(group *g, member_secrets *secrets, scalar *host_seal) {
    scalar polynomial[THRESHOLD];
    name_members(g);
    memset(secrets, 0, MEMBERS * sizeof *secrets);
    int good = seal_pair(g->host_seal_key, host_seal);
    for (int i = 0; i < THRESHOLD; i++) good = good && scalar_draw(&polynomial[i]);
    good = good && public_bytes(g->key, &polynomial[0]);
    for (uint32_t i = 0; i < MEMBERS; i++) good = good && deal_member(&g->members[i], &secrets[i], polynomial);
    for (int i = 0; i < THRESHOLD; i++) scalar_wipe(&polynomial[i]);
    return good;
}

const member *group_member(const group *g, uint32_t id) {
    for (uint32_t i = 0; i < g->member_count; i++)
        if (g->members[i].id == id) return &g->members[i];
    return NULL;
}

size_t member_keys(const member *m, uint8_t to[KEY_LENGTH * RC_KEY_LIMIT]) {
    for (uint32_t k = 0; k < m->key_count; k++) put_number(to + KEY_LENGTH * k, KEY_LENGTH, m->keys[k]);
    return KEY_LENGTH * (size_t)m->key_count;
}
