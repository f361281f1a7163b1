#include "packets.h"

#include <string.h>

uint64_t number_at(const uint8_t *bytes, int length) {
    uint64_t n = 0;
    for (int i = length - 1; i >= 0; i--) n = n << 8 | bytes[i];
    return n;
}

void put_number(uint8_t *to, int length, uint64_t n) {
    for (int i = 0; i < length; i++) to[i] = (uint8_t)(n >> (8 * i));
}

int packet_written(packet *to, rc_written w) {
    to->length = (size_t)w.length;
    return w.refusal == 0;
}

span packet_part(span whole, uint16_t i) {
    const rc_part part = rc_packet_part(whole.bytes, whole.length, i);
    return (span){whole.bytes + part.at, (size_t)part.length};
}

uint16_t written_parts(span whole) {
    if (whole.length < HEADER_LENGTH) return 0;
    const uint16_t count = (uint16_t)number_at(whole.bytes + 2, 2);
    return HEADER_LENGTH + PAIR_LENGTH * (size_t)count <= whole.length ? count : 0;
}

span written_part(span whole, uint16_t i) {
    const span none = {whole.bytes, 0};
    if (i >= written_parts(whole)) return none;
    const uint8_t *pair = whole.bytes + HEADER_LENGTH + PAIR_LENGTH * (size_t)i;
    const uint64_t at = number_at(pair, 4), length = number_at(pair + 4, 4);
    if (at > whole.length || length > whole.length - at) return none;
    return (span){whole.bytes + at, (size_t)length};
}

uint8_t packet_kind(span whole) { return whole.length > 0 ? whole.bytes[0] : 0; }

span span_of(const packet *p) { return (span){p->bytes, p->length}; }

int span_equal(span a, span b) { return a.length == b.length && (a.length == 0 || memcmp(a.bytes, b.bytes, a.length) == 0); }
