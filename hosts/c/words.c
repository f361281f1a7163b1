#include "words.h"

#include <stdio.h>

void list_words(char *to, size_t room, span ids) {
    size_t at = 0;
    if (ids.length < KEY_LENGTH) snprintf(to, room, "none");
    for (size_t i = 0; i + KEY_LENGTH <= ids.length && at < room; i += KEY_LENGTH)
        at += (size_t)snprintf(to + at, room - at, "%s%lu", i > 0 ? " " : "", (unsigned long)number_at(ids.bytes + i, KEY_LENGTH));
}

static void result_words(char *to, size_t room, const rc_answer *a, span out) {
    char first[128], second[128];
    list_words(first, sizeof first, written_part(out, 0));
    list_words(second, sizeof second, written_part(out, 1));
    if (a->number != 0)
        snprintf(to, room, "result %u: %s", a->number, rc_text(a->number));
    else if (packet_kind(out) == RC_KIND_NONCE_TIMEOUT)
        snprintf(to, room, "result: nonce timeout, answered so far: %s, left out for good: %s", first, second);
    else if (packet_kind(out) == RC_KIND_INSUFFICIENT_SIGNERS)
        snprintf(to, room, "result: insufficient signers, left out for good: %s", first);
    else
        snprintf(to, room, "result: signed, %s", a->first == 0 ? "frost" : a->first == 1 ? "schnorr" : "taproot");
}

void answer_words(char *to, size_t room, const rc_answer *a, span out) {
    switch (a->class_) {
    case RC_NOTHING: snprintf(to, room, "nothing to do"); break;
    case RC_PACKET:
        snprintf(to, room, "send a %s: sign id %lu, iteration %lu, %zu bytes", rc_kind_text(packet_kind(out)),
                 (unsigned long)number_at(out.bytes + 16, 8), (unsigned long)number_at(out.bytes + 24, 8), out.length);
        break;
    case RC_JOB: snprintf(to, room, "job for the aggregator, %s, %zu bytes", a->mark ? "whole" : "NOT whole", out.length); break;
    case RC_RESULT: result_words(to, room, a, out); break;
    default: snprintf(to, room, "refused with %u: %s", a->number, rc_text(a->number));
    }
}
