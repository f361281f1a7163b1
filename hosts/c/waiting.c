#include "waiting.h"

#include <stdio.h>
#include <string.h>

enum { SIGNERS_PART = 0, CLOCKS_PART = 1, CLOCK_LENGTH = 8, LIST_WORDS = 512 };

static int has_answered(const rc_arrivals *a, uint32_t signer) {
    for (uint64_t i = 0; i < a->count; i++)
        if (a->arrivals[i].signer_id == signer) return 1;
    return 0;
}

/* The two lists of kind 35. */
static rc_arrivals read_arrivals(span told) {
    rc_arrivals a = {.count = 0};
    const span signers = written_part(told, SIGNERS_PART), clocks = written_part(told, CLOCKS_PART);
    for (size_t i = 0; i < signers.length / KEY_LENGTH && i < clocks.length / CLOCK_LENGTH && i < RC_SIGNER_LIMIT; i++) {
        a.arrivals[i].signer_id = (uint32_t)number_at(signers.bytes + KEY_LENGTH * i, KEY_LENGTH);
        a.arrivals[i].clock = number_at(clocks.bytes + CLOCK_LENGTH * i, CLOCK_LENGTH);
        a.count++;
    }
    return a;
}

/* Whether an answer of this signer would be recorded, which that of a struck one is not: on a copy of state and store one is handed in,
 * with its keys and no nonces. What is recorded changes the state, and what is dropped does not. */
static int is_heard(const host *h, span request, const member *m) {
    static uint8_t state[RC_STATE_LENGTH], store[RC_STORE_LENGTH], out[RC_ANSWER_LENGTH], answer[RC_NONCE_RESPONSE_LIMIT];
    const rc_packet asked = rc_read_packet(request.bytes, request.length);
    const span message = packet_part(request, 0);
    const rc_response_head head = {asked.dkg_id, asked.sign_id, asked.sign_iter_id, m->id, 0};
    const rc_written w =
        rc_write_nonce_response(answer, sizeof answer, head, message.bytes, message.length, m->keys, m->key_count, NULL, 0);
    memcpy(state, h->state, sizeof state);
    memcpy(store, h->store, sizeof store);
    const rc_answer a =
        rc_process_message(state, sizeof state, store, sizeof store, out, sizeof out, 0, 1, answer, (size_t)w.length);
    return a.class_ != RC_ERROR && memcmp(state, h->state, sizeof state) != 0;
}

int find_waiting(const host *h, span request, waiting *w) {
    static packet told;
    const rc_answer a = host_arrivals(h, &told);
    w->answered = read_arrivals(span_of(&told));
    w->missing.count = 0;
    if (a.class_ != RC_RESULT) return 0;
    for (uint32_t i = 0; i < h->group->member_count; i++) {
        const member *m = &h->group->members[i];
        if (!has_answered(&w->answered, m->id) && is_heard(h, request, m)) w->missing.ids[w->missing.count++] = m->id;
    }
    return 1;
}

static double seconds(uint64_t from, uint64_t to) { return ((double)to - (double)from) / 1e9; }

static void missing_words(char *to, size_t room, const rc_signer_ids *missing, double waited) {
    size_t at = 0;
    if (missing->count == 0) snprintf(to, room, "nobody is waited for");
    for (uint64_t i = 0; i < missing->count && at < room; i++) {
        if (i == 0) at += (size_t)snprintf(to, room, "waiting %.2f s for signer%s", waited, missing->count == 1 ? "" : "s");
        at += (size_t)snprintf(to + at, room - at, "%s %u", i > 0 ? "," : "", missing->ids[i]);
    }
}

static void answered_words(char *to, size_t room, const rc_arrivals *answered, uint64_t asked) {
    size_t at = 0;
    for (uint64_t i = 0; i < answered->count && at < room; i++)
        at += (size_t)snprintf(to + at, room - at, "%ssigner %u answered after %.2f s", i > 0 ? ", " : "", answered->arrivals[i].signer_id,
                               seconds(asked, answered->arrivals[i].clock));
    if (answered->count == 0) snprintf(to, room, "nobody has answered");
}

void waiting_words(char *to, size_t room, const waiting *w, uint64_t asked, uint64_t now) {
    char missing[LIST_WORDS], answered[LIST_WORDS];
    missing_words(missing, sizeof missing, &w->missing, seconds(asked, now));
    answered_words(answered, sizeof answered, &w->answered, asked);
    snprintf(to, room, "%s; %s", missing, answered);
}
