#include "repeats.h"

typedef struct named {
    uint32_t key;
    uint32_t signer;
} named;

static uint32_t key_at(span keys, size_t i) { return (uint32_t)number_at(keys.bytes + KEY_LENGTH * i, KEY_LENGTH); }

int names_twice(span keys) {
    for (size_t i = 0; i < keys.length / KEY_LENGTH; i++)
        for (size_t j = 0; j < i; j++)
            if (key_at(keys, j) == key_at(keys, i)) return 1;
    return 0;
}

/* The first of these that names the key. */
static const named *by_key(const named *all, size_t count, uint32_t key) {
    for (size_t i = 0; i < count; i++)
        if (all[i].key == key) return &all[i];
    return NULL;
}

repeat find_repeat(span share_request) {
    named all[RC_SIGNER_LIMIT * RC_KEY_LIMIT];
    size_t count = 0;
    const rc_packet header = rc_read_packet(share_request.bytes, share_request.length);
    if (header.kind != RC_KIND_SHARE_REQUEST) return (repeat){0, 0, 0, 0};
    for (uint32_t i = REQUEST_PARTS; i < header.pairs; i++) {
        const span response = packet_part(share_request, (uint16_t)i), keys = packet_part(response, RESPONSE_KEYS);
        const uint32_t signer = rc_read_packet(response.bytes, response.length).signer_id;
        for (size_t k = 0; k < keys.length / KEY_LENGTH; k++) {
            const named *before = by_key(all, count, key_at(keys, k));
            if (before != NULL) return (repeat){1, before->key, before->signer, signer};
            all[count++] = (named){key_at(keys, k), signer};
        }
    }
    return (repeat){0, 0, 0, 0};
}
