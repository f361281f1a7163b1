#include "curve.h"

#include <secp256k1_extrakeys.h>
#include <string.h>
#include <sys/random.h>

static secp256k1_context *context;

int curve_open(void) {
    uint8_t seed[32];
    context = secp256k1_context_create(SECP256K1_CONTEXT_NONE);
    return context != NULL && random_bytes(seed, sizeof seed) && secp256k1_context_randomize(context, seed);
}

void curve_close(void) {
    secp256k1_context_destroy(context);
    context = NULL;
}

const secp256k1_context *curve_context(void) { return context; }

int random_bytes(uint8_t *to, size_t length) {
    /* Up to 256 bytes come whole. */
    return length <= 256 && getrandom(to, length, 0) == (ssize_t)length;
}

int hash_tagged(uint8_t hash[HASH_LENGTH], const char *tag, const uint8_t *bytes, size_t length) {
    return secp256k1_tagged_sha256(context, hash, (const uint8_t *)tag, strlen(tag), bytes, length);
}

int scalar_draw(scalar *to) { return random_bytes(to->bytes, SCALAR_LENGTH) && secp256k1_ec_seckey_verify(context, to->bytes); }

scalar scalar_number(uint32_t n) {
    scalar s = {{0}};
    for (int i = 0; i < 4; i++) s.bytes[SCALAR_LENGTH - 1 - i] = (uint8_t)(n >> (8 * i));
    return s;
}

int scalar_add(scalar *to, const scalar *other) { return secp256k1_ec_seckey_tweak_add(context, to->bytes, other->bytes); }

int scalar_multiply(scalar *to, const scalar *other) { return secp256k1_ec_seckey_tweak_mul(context, to->bytes, other->bytes); }

int scalar_negate(scalar *to) { return secp256k1_ec_seckey_negate(context, to->bytes); }

/* Fermat: the power n - 2, n being the order. libsecp256k1 offers no inverse. */
int scalar_invert(scalar *to) {
    static const uint8_t exponent[SCALAR_LENGTH] = {0xff, 0xff, 0xff, 0xff, 0xff, 0xff, 0xff, 0xff, 0xff, 0xff, 0xff,
                                                    0xff, 0xff, 0xff, 0xff, 0xfe, 0xba, 0xae, 0xdc, 0xe6, 0xaf, 0x48,
                                                    0xa0, 0x3b, 0xbf, 0xd2, 0x5e, 0x8c, 0xd0, 0x36, 0x41, 0x3f};
    const scalar base = *to;
    scalar power = scalar_number(1);
    for (int bit = 0; bit < 256; bit++) {
        const scalar half = power;
        if (!scalar_multiply(&power, &half)) return 0;
        if ((exponent[bit / 8] >> (7 - bit % 8) & 1) && !scalar_multiply(&power, &base)) return 0;
    }
    *to = power;
    return 1;
}

void scalar_wipe(scalar *to) {
    volatile uint8_t *bytes = to->bytes;
    for (size_t i = 0; i < SCALAR_LENGTH; i++) bytes[i] = 0;
}

int point_of(point *to, const scalar *times) { return secp256k1_ec_pubkey_create(context, to, times->bytes); }

int point_add(point *to, const point *other) {
    const point first = *to;
    const point *const both[] = {&first, other};
    return secp256k1_ec_pubkey_combine(context, to, both, 2);
}

int point_multiply(point *to, const scalar *times) { return secp256k1_ec_pubkey_tweak_mul(context, to, times->bytes); }

int point_negate(point *to) { return secp256k1_ec_pubkey_negate(context, to); }

int point_equal(const point *a, const point *b) { return secp256k1_ec_pubkey_cmp(context, a, b) == 0; }

int point_read(point *to, const uint8_t from[POINT_LENGTH]) { return secp256k1_ec_pubkey_parse(context, to, from, POINT_LENGTH); }

int point_write(uint8_t to[POINT_LENGTH], const point *from) {
    size_t length = POINT_LENGTH;
    return secp256k1_ec_pubkey_serialize(context, to, &length, from, SECP256K1_EC_COMPRESSED) && length == POINT_LENGTH;
}

int point_xonly(uint8_t to[XONLY_LENGTH], int *odd, const point *from) {
    secp256k1_xonly_pubkey x;
    return secp256k1_xonly_pubkey_from_pubkey(context, &x, odd, from) && secp256k1_xonly_pubkey_serialize(context, to, &x);
}
