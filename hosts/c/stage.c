#include "stage.h"

#include "waiting.h"
#include "words.h"

#include <stdarg.h>
#include <stdio.h>
#include <string.h>

enum { KEY_WORDS = 64 };

const host_timeouts stage_timeouts = {10 * SECOND, 20 * SECOND};
static const uint8_t script_root[32] = "a Taproot root has 32 bytes....";
const span no_root = {script_root, 0};
const span with_root = {script_root, 32};

void tell(const stage *s, const char *format, ...) {
    va_list arguments;
    if (s->quiet) return;
    printf("%7.3f s  ", (double)s->clock / (double)SECOND);
    va_start(arguments, format);
    vprintf(format, arguments);
    va_end(arguments);
    printf("\n");
}

void heading(const stage *s, const char *words) {
    if (!s->quiet) printf("\n%s\n", words);
}

void expect(stage *s, const char *what, int good) {
    if (good) return;
    printf("WRONG: %s\n", what);
    s->failures++;
}

static void tell_answer(stage *s, const char *event, const rc_answer *a) {
    char words[320];
    answer_words(words, sizeof words, a, host_out(&s->host, a));
    tell(s, "%-58s -> %s", event, words);
}

/* Does the job at once: the library takes no packet while one is out. */
void do_job(stage *s, const rc_answer *a, int success) {
    char event[96];
    packet job = {(size_t)a->length, {0}};
    memcpy(job.bytes, s->host.out, job.length);
    const rc_answer told = host_do_job(&s->host, span_of(&job), a->mark != 0, &s->last);
    if (s->last.verdict == SHARE_WRONG)
        snprintf(event, sizeof event, "aggregator: the share of signer %u is wrong", s->last.signer);
    else
        snprintf(event, sizeof event, "aggregator: %s", aggregate_words(s->last.verdict));
    tell_answer(s, event, &told);
    expect(s, "the aggregator's answer", told.class_ == RC_RESULT && told.number == (success ? 0 : RC_REFUSED_AGGREGATION));
}

/* What follows from an answer, and whether it is the expected one. */
void follow(stage *s, const char *event, const rc_answer *a, uint32_t class_, uint32_t number) {
    tell_answer(s, event, a);
    expect(s, "another class or number was expected", a->class_ == class_ && a->number == number);
    if (a->class_ != RC_PACKET) return;
    s->request = s->host.send;
    if (packet_kind(span_of(&s->request.packet)) == RC_KIND_NONCE_REQUEST) s->asked = s->clock;
}

void operator_looks(stage *s, const char *answered, const char *missing) {
    char words[1024], came[RC_SIGNER_LIMIT + 1] = "", waited[RC_SIGNER_LIMIT + 1] = "";
    waiting w;
    expect(s, "the library tells who has answered", find_waiting(&s->host, span_of(&s->request.packet), &w));
    for (uint64_t i = 0; i < w.answered.count; i++) came[i] = (char)('0' + w.answered.arrivals[i].signer_id);
    for (uint64_t i = 0; i < w.missing.count; i++) waited[i] = (char)('0' + w.missing.ids[i]);
    expect(s, "who has answered", strcmp(came, answered) == 0);
    expect(s, "who is waited for", strcmp(waited, missing) == 0);
    waiting_words(words, sizeof words, &w, s->asked, s->clock);
    tell(s, "operator: %s", words);
}

void start(stage *s, uint8_t type, const char *words, span root) {
    char event[96];
    const span message = {(const uint8_t *)words, strlen(words)};
    snprintf(event, sizeof event, "host: start \"%s\"", words);
    const rc_answer a = host_start(&s->host, s->clock, type, message, root);
    follow(s, event, &a, RC_PACKET, 0);
    if (s->first.packet.length == 0) s->first = s->request;
}

rc_answer start_unasked(stage *s, uint8_t type, const char *words, span root) {
    host *h = &s->host;
    return rc_start_signing_round(h->state, RC_STATE_LENGTH, h->store, RC_STORE_LENGTH, h->out, RC_ANSWER_LENGTH, s->clock,
                                  (const uint8_t *)words, strlen(words), type, root.bytes, root.length, 0, 0);
}

rc_answer take_unheard(stage *s, const sealed *p) {
    host *h = &s->host;
    return rc_process_message(h->state, RC_STATE_LENGTH, h->store, RC_STORE_LENGTH, h->out, RC_ANSWER_LENGTH, s->clock, 1,
                              p->packet.bytes, p->packet.length);
}

int answer_of(stage *s, uint32_t id, sealed *answer, char *event, size_t room) {
    char keys[KEY_WORDS];
    uint8_t bytes[KEY_LENGTH * RC_KEY_LIMIT];
    const member *m = s->signers[id].self;
    list_words(keys, sizeof keys, (span){bytes, member_keys(m, bytes)});
    s->clock += SECOND / 100;
    const reply r = signer_take(&s->signers[id], &s->request, answer);
    snprintf(event, room, "signer %u (keys %s): %s", id, keys, reply_words(r));
    if (!reply_answers(r)) tell(s, "%s", event);
    return reply_answers(r);
}

/* A signer takes the coordinator's last packet, and its answer goes to the library, which should answer so. */
void answer(stage *s, uint32_t id, uint32_t class_, uint32_t number) {
    char event[128];
    sealed given;
    if (!answer_of(s, id, &given, event, sizeof event)) {
        expect(s, "a signer was silent", 0);
        return;
    }
    const rc_answer a = host_take(&s->host, s->clock, &given);
    follow(s, event, &a, class_, number);
    if (a.class_ == RC_JOB) do_job(s, &a, 1);
}

void answers(stage *s, const char *ids, uint32_t last_class) {
    for (; *ids != 0; ids++) answer(s, (uint32_t)(*ids - '0'), ids[1] == 0 ? last_class : RC_NOTHING, 0);
}

int open_stage(stage *s, int quiet) {
    s->clock = s->asked = 0;
    s->quiet = quiet;
    s->failures = 0;
    s->first.packet.length = 0;
    s->host.group = &s->group;
    if (!deal(&s->group, s->secrets, &s->host.seal)) return 0;
    for (uint32_t i = 0; i < SIGNERS; i++) signer_open(&s->signers[i], &s->group, i, &s->secrets[i]);
    return host_commission(&s->host, stage_timeouts);
}

void close_stage(stage *s) {
    for (uint32_t i = 0; i < SIGNERS; i++) signer_close(&s->signers[i]);
}
