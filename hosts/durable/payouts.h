/* What is to be signed, by its number alone, so that who checks needs nobody's word for it: the three types in turn, a root where the
 * type has one. */
#ifndef DURABLE_PAYOUTS_H
#define DURABLE_PAYOUTS_H

#include "terms.h"

typedef struct payout {
    int64_t number;
    uint8_t type;
    size_t message_length;
    uint8_t message[RC_MESSAGE_LIMIT];
    size_t root_length;
    uint8_t root[32];
} payout;

int payout_fill(payout *p, int64_t number);
span payout_message(const payout *p);
span payout_root(const payout *p);

/* Files of the working folder: whole, or not taken. */
int file_write(const char *name, const void *from, size_t length);
int file_read(const char *name, void *to, size_t length);

#endif
