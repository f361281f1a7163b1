/*
 * The curve, by libsecp256k1: scalars modulo the group's order, points, tagged hashes. Each function answers 1 where it worked. A sum
 * that is zero or a hash at or above the order is a failure here, not a value: neither comes by chance.
 */
#ifndef HOST_CURVE_H
#define HOST_CURVE_H

#include <secp256k1.h>
#include <stddef.h>
#include <stdint.h>

enum { SCALAR_LENGTH = 32, POINT_LENGTH = 33, XONLY_LENGTH = 32, HASH_LENGTH = 32, SIGNATURE_LENGTH = 64 };

typedef struct scalar {
    uint8_t bytes[SCALAR_LENGTH];
} scalar;

typedef secp256k1_pubkey point;

/* One context for the process, randomized against side channels. */
int curve_open(void);
void curve_close(void);
const secp256k1_context *curve_context(void);

int random_bytes(uint8_t *to, size_t length);
int hash_tagged(uint8_t hash[HASH_LENGTH], const char *tag, const uint8_t *bytes, size_t length);

int scalar_draw(scalar *to);
scalar scalar_number(uint32_t n);
int scalar_add(scalar *to, const scalar *other);
int scalar_multiply(scalar *to, const scalar *other);
int scalar_negate(scalar *to);
int scalar_invert(scalar *to);
void scalar_wipe(scalar *to);

int point_of(point *to, const scalar *times);
int point_add(point *to, const point *other);
int point_multiply(point *to, const scalar *times);
int point_negate(point *to);
int point_equal(const point *a, const point *b);
int point_read(point *to, const uint8_t from[POINT_LENGTH]);
int point_write(uint8_t to[POINT_LENGTH], const point *from);
/* The x coordinate; odd is 1 where y is odd. */
int point_xonly(uint8_t to[XONLY_LENGTH], int *odd, const point *from);

#endif
