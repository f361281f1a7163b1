#include "layout.h"

#include <string.h>

span lay_out(uint8_t *to, rc_packet h, const span *parts) {
    size_t at = HEADER_LENGTH + PAIR_LENGTH * (size_t)h.pairs;
    put_number(to, 1, h.kind);
    put_number(to + 1, 1, h.signature_type);
    put_number(to + 2, 2, h.pairs);
    put_number(to + 4, 4, h.signer_id);
    put_number(to + 8, 8, h.dkg_id);
    put_number(to + 16, 8, h.sign_id);
    put_number(to + 24, 8, h.sign_iter_id);
    for (size_t i = 0; i < h.pairs; i++) {
        put_number(to + HEADER_LENGTH + PAIR_LENGTH * i, 4, at);
        put_number(to + HEADER_LENGTH + PAIR_LENGTH * i + 4, 4, parts[i].length);
        memcpy(to + at, parts[i].bytes, parts[i].length);
        at += parts[i].length;
    }
    return (span){to, at};
}
