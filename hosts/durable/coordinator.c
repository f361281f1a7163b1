/*
 * The durable coordinator: takes the payouts one by one and signs each. Every call of the library is saved before anything that follows
 * from it is sent. It may be killed at any point and started again.
 *
 *   coordinator FOLDER [--tell] [--linger MICROSECONDS] [--send-first]
 *
 * --linger waits a random time, up to so long, before and after each save and each sending, so that a kill falls there too. --send-first
 * is WRONG on purpose: it sends before it saves, to show that the check finds it.
 */
#include "database.h"
#include "wire.h"
#include "words.h"

#include <fcntl.h>
#include <stdio.h>
#include <stdlib.h>
#include <string.h>
#include <sys/file.h>
#include <time.h>
#include <unistd.h>

#define MILLISECOND 1000000ull
static const host_timeouts timeouts = {300 * MILLISECOND, 300 * MILLISECOND};

typedef struct coordinator {
    group group;
    host host;
    database database;
    wire wire;
    payout payout; /* the one in progress, where there is one */
    int in_progress;
    uint64_t base;   /* clock readings go on where the saved ones ended */
    uint64_t opened; /* the monotonic clock when this life began */
    uint64_t asked;  /* the reading when the outstanding packet was sent, in this life */
    int tell, send_first;
    int failed; /* a payout was, in this life */
    long linger;
} coordinator;

static uint64_t monotonic(void) {
    struct timespec t;
    clock_gettime(CLOCK_MONOTONIC, &t);
    return (uint64_t)t.tv_sec * 1000000000ull + (uint64_t)t.tv_nsec;
}

/* Counts only the time that this program was up: what nobody could hear does not make a signer late. */
static uint64_t reading(const coordinator *c) { return c->base + (monotonic() - c->opened); }

static void linger(const coordinator *c, long longest) {
    if (longest > 0 && c->linger > 0) usleep((useconds_t)(random() % longest));
}

static void tell(const coordinator *c, const char *event, const rc_answer *a) {
    char words[320];
    if (!c->tell) return;
    answer_words(words, sizeof words, a, host_out(&c->host, a));
    printf("payout %lld, %-28s -> %s\n", (long long)c->payout.number, event, words);
    fflush(stdout);
}

static void fail(coordinator *c, const char *why) {
    fprintf(stderr, "payout %lld failed: %s\n", (long long)c->payout.number, why);
    c->failed = 1;
}

/* A line that breaks is opened again by the loop, which then sends what is outstanding. */
static void deliver(coordinator *c, const sealed *s) {
    c->asked = reading(c);
    if (!wire_send(&c->wire, s)) wire_close(&c->wire);
}

/* Save, then send. */
static int conclude(coordinator *c, uint64_t clock, const change *ch) {
    if (ch->send != NULL && ch->send->packet.length == 0) return 0; /* it could not be sealed */
    if (c->send_first && ch->send != NULL) {
        deliver(c, ch->send);
        linger(c, 40 * c->linger); /* so that most kills fall between the two */
    }
    linger(c, c->linger);
    if (!database_save(&c->database, &c->host, clock, ch)) return 0;
    linger(c, c->linger);
    if (!c->send_first && ch->send != NULL) deliver(c, ch->send);
    linger(c, c->linger);
    return 1;
}

static int do_job(coordinator *c, const packet *job, int whole) {
    aggregation a;
    change ch = {.job_done = 1, .payout = &c->payout};
    const uint64_t clock = reading(c);
    const rc_answer told = host_do_job(&c->host, span_of(job), whole, &a);
    const int signed_now = told.class_ == RC_RESULT && told.number == 0;
    tell(c, aggregate_words(a.verdict), &told);
    ch.standing = signed_now ? SIGNED : FAILED;
    if (signed_now) ch.signature = a.signature;
    if (!signed_now && !host_give_up(&c->host)) return 0;
    if (!signed_now) fail(c, aggregate_words(a.verdict));
    c->in_progress = 0;
    return conclude(c, clock, &ch);
}

/* Nonces late, or nobody there: ask again, by the packet that is outstanding. */
static int ask_again(coordinator *c) {
    sealed s;
    const int found = database_outstanding(&c->database, &s);
    if (found == 1) {
        host_outstanding(&c->host, &s.packet);
        deliver(c, &s);
    }
    return found >= 0;
}

/* What follows from a call that was made at that reading. */
static int follow(coordinator *c, uint64_t clock, const rc_answer *a) {
    packet job;
    change ch = {0};
    const span out = host_out(&c->host, a);
    const int too_few = a->class_ == RC_RESULT && packet_kind(out) == RC_KIND_INSUFFICIENT_SIGNERS && a->length > 0;
    const int late =
        (a->class_ == RC_RESULT && a->number == 0 && !too_few) || (a->class_ == RC_ERROR && a->number == RC_REFUSED_NO_RECORD);
    if (a->class_ == RC_PACKET) ch.send = &c->host.send;
    if (a->class_ == RC_JOB) {
        job.length = out.length;
        memcpy(job.bytes, out.bytes, out.length);
        ch.job = &job;
        ch.whole = a->mark != 0;
    }
    if (too_few) {
        ch.payout = &c->payout;
        ch.standing = FAILED;
        fail(c, "too few signers are left");
    }
    if (!conclude(c, clock, &ch)) return 0;
    if (a->class_ == RC_JOB) return do_job(c, &job, ch.whole);
    if (late) return ask_again(c);
    return !too_few;
}

/* 1 started or nothing to start, 0 failed. */
static int start_next(coordinator *c) {
    const int found = database_waiting(&c->database, &c->payout);
    if (found <= 0) return found == 0;
    const uint64_t clock = reading(c);
    const rc_answer a = host_start(&c->host, clock, c->payout.type, payout_message(&c->payout), payout_root(&c->payout));
    tell(c, "start", &a);
    if (a.class_ != RC_PACKET) return 0;
    const change ch = {.send = &c->host.send, .payout = &c->payout, .standing = IN_PROGRESS};
    c->in_progress = 1;
    return conclude(c, clock, &ch);
}

/* A packet is taken whatever the time is: rc_process would look at the timeout first and drop an answer that lay in the line. */
static int take(coordinator *c, const sealed *s) {
    const uint64_t clock = reading(c);
    const rc_answer a = host_take_untimed(&c->host, clock, s);
    char event[48];
    const rc_packet header = rc_read_packet(s->packet.bytes, s->packet.length);
    snprintf(event, sizeof event, "%s of %u", rc_kind_text(header.kind), header.signer_id);
    tell(c, event, &a);
    return follow(c, clock, &a);
}

/* The timeout is asked only when nothing lies in the line, and a whole timeout has passed since THIS life sent what is outstanding. */
static int wait_and_take(coordinator *c) {
    sealed s;
    const uint64_t longest = timeouts.nonces > timeouts.shares ? timeouts.nonces : timeouts.shares;
    const uint64_t now = reading(c), due = c->asked + longest + 2 * MILLISECOND;
    const int got = c->wire.fd < 0 ? -1 : wire_receive(&c->wire, &s, now < due ? (int)((due - now) / MILLISECOND) + 1 : 0);
    if (got == 1) return take(c, &s);
    if (got == -1) {
        wire_close(&c->wire);
        return wire_connect(&c->wire) && ask_again(c);
    }
    const uint64_t clock = reading(c);
    if (clock < due) return 1;
    const rc_answer a = host_timeout(&c->host, clock);
    c->asked = clock;
    tell(c, "timeout?", &a);
    return follow(c, clock, &a);
}

/* What a life before this one left: nothing, a job that is not done, or a packet that may not have been sent or answered. */
static int resume(coordinator *c) {
    packet job;
    int whole = 0;
    const int current = database_current(&c->database, &c->payout), out = database_job(&c->database, &job, &whole);
    c->in_progress = current == 1;
    if (current < 0 || out < 0) return 0;
    if (out == 1) return do_job(c, &job, whole);
    return !c->in_progress || ask_again(c);
}

static int open_coordinator(coordinator *c) {
    if (!file_read("group", &c->group, sizeof c->group) || !file_read("host.secret", &c->host.seal, sizeof c->host.seal)) return 0;
    c->host.group = &c->group;
    c->opened = monotonic();
    if (!database_open(&c->database)) return 0;
    const int loaded = database_load(&c->database, &c->host, &c->base);
    if (loaded == 1) return 1;
    const change none = {0};
    return loaded == 0 && host_commission(&c->host, timeouts) && database_save(&c->database, &c->host, c->base, &none);
}

/* One caller at a time: the lock goes with the process, however that ends. */
static int alone(void) {
    const int fd = open("lock", O_RDWR | O_CREAT | O_CLOEXEC, 0600);
    return fd >= 0 && flock(fd, LOCK_EX | LOCK_NB) == 0;
}

static int read_arguments(coordinator *c, int count, char **words) {
    for (int i = 2; i < count; i++) {
        if (strcmp(words[i], "--tell") == 0) c->tell = 1;
        if (strcmp(words[i], "--send-first") == 0) c->send_first = 1;
        if (strcmp(words[i], "--linger") == 0 && i + 1 < count) c->linger = atol(words[++i]);
    }
    return count > 1 && chdir(words[1]) == 0;
}

int main(int count, char **words) {
    static coordinator c;
    c.wire.fd = -1;
    if (!read_arguments(&c, count, words) || !alone() || !curve_open() || !open_coordinator(&c)) {
        fprintf(stderr, "coordinator: no folder, no group in it, or another coordinator is at work there\n");
        return 2;
    }
    srandom((unsigned)(monotonic() ^ (uint64_t)getpid()));
    int good = wire_connect(&c.wire) && resume(&c);
    while (good) {
        if (!c.in_progress) good = start_next(&c);
        if (!good || !c.in_progress) break;
        good = wait_and_take(&c);
    }
    database_close(&c.database);
    wire_close(&c.wire);
    curve_close();
    return good && !c.failed ? 0 : 1;
}
