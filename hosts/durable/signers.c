/*
 * The four signers, a process of its own: what they keep does not die with the coordinator. They log every frame that reaches them and
 * every reply, for the check.
 *
 *   signers FOLDER [--silent SIGNER FROM]
 *
 * --silent: that signer gives no share where the sign id is FROM or more, though it gives nonces.
 */
#include "payouts.h"
#include "signer.h"
#include "wire.h"

#include <fcntl.h>
#include <stdio.h>
#include <stdlib.h>
#include <string.h>
#include <sys/socket.h>
#include <unistd.h>

enum { SIGNERS = 4, HEX_LENGTH = 2 * HASH_LENGTH + 1 };

typedef struct team {
    group group;
    member_secrets secrets[SIGNERS];
    signer signers[SIGNERS];
    int log;
    long silent, from;
} team;

static void hex_words(char to[HEX_LENGTH], const uint8_t hash[HASH_LENGTH]) {
    for (int i = 0; i < HASH_LENGTH; i++) snprintf(to + 2 * i, 3, "%02x", hash[i]);
}

static void log_frame(const team *t, const sealed *s, const rc_packet *header) {
    uint8_t digest[HASH_LENGTH];
    char hex[HEX_LENGTH];
    if (!frame_digest(digest, s)) return;
    hex_words(hex, digest);
    dprintf(t->log, "frame %s %u %lu %lu\n", hex, header->kind, (unsigned long)header->sign_id, (unsigned long)header->sign_iter_id);
}

static void log_reply(const team *t, uint32_t id, const sealed *request, const rc_packet *header, const char *word) {
    uint8_t digest[HASH_LENGTH];
    char hex[HEX_LENGTH];
    if (!packet_digest(digest, &request->packet)) return;
    hex_words(hex, digest);
    dprintf(t->log, "reply %s %u %lu %lu %u %s\n", hex, header->kind, (unsigned long)header->sign_id, (unsigned long)header->sign_iter_id,
            id, word);
}

/* Answers are logged before they are sent: one that a dead coordinator never read counts as an answer too. */
static void hand_to(team *t, const wire *w, const sealed *request, const rc_packet *header, uint32_t id) {
    sealed answer;
    if (header->kind == RC_KIND_SHARE_REQUEST && !signer_named(&t->signers[id], &request->packet)) return;
    if (t->silent == (long)id && header->kind == RC_KIND_SHARE_REQUEST && header->sign_id >= (uint64_t)t->from) {
        log_reply(t, id, request, header, "silent");
        return;
    }
    const reply r = signer_take(&t->signers[id], request, &answer);
    log_reply(t, id, request, header, reply_answers(r) ? "answered" : "refused");
    if (!reply_answers(r)) return;
    usleep((useconds_t)(random() % 2000));
    wire_send(w, &answer);
}

/* In any order, as from machines that nobody here sees. */
static void hand_out(team *t, const wire *w, const sealed *request) {
    uint32_t order[SIGNERS];
    const rc_packet header = rc_read_packet(request->packet.bytes, request->packet.length);
    log_frame(t, request, &header);
    for (uint32_t i = 0; i < SIGNERS; i++) order[i] = i;
    for (uint32_t i = SIGNERS - 1; i > 0; i--) {
        const uint32_t j = (uint32_t)random() % (i + 1), other = order[j];
        order[j] = order[i];
        order[i] = other;
    }
    for (uint32_t i = 0; i < SIGNERS; i++) hand_to(t, w, request, &header, order[i]);
}

static void serve(team *t, int listening) {
    static wire w;
    static sealed request;
    for (;;) {
        wire_open(&w, accept(listening, NULL, NULL));
        if (w.fd < 0) return;
        while (wire_receive(&w, &request, -1) == 1) hand_out(t, &w, &request);
        wire_close(&w);
    }
}

static int open_team(team *t) {
    if (!file_read("group", &t->group, sizeof t->group) || !file_read("signers.secret", t->secrets, sizeof t->secrets)) return 0;
    for (uint32_t i = 0; i < SIGNERS; i++) signer_open(&t->signers[i], &t->group, i, &t->secrets[i]);
    t->log = open("signers.log", O_WRONLY | O_CREAT | O_APPEND | O_CLOEXEC, 0600);
    return t->log >= 0;
}

int main(int count, char **words) {
    static team t;
    t.silent = -1;
    if (count == 5 && strcmp(words[2], "--silent") == 0) {
        t.silent = atol(words[3]);
        t.from = atol(words[4]);
    }
    if (count < 2 || chdir(words[1]) != 0 || !curve_open() || !open_team(&t)) return 2;
    srandom((unsigned)getpid());
    const int listening = wire_listen();
    if (listening < 0) return 2;
    serve(&t, listening);
    return 1;
}
