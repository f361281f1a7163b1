/*
 *   check FOLDER PAYOUTS KILLS
 *
 * Holds what the signers logged against what the coordinator's database says, after all is over. Three claims:
 *   - no round is lost: each payout that was asked for has a signature, and libsecp256k1 accepts it;
 *   - nobody who answered is left out: who is left out has been silent on purpose;
 *   - no packet left that was not saved: each frame that reached the signers stands in the outbox, no iteration had two share
 *     requests, and no signer had to refuse one.
 * The coordinator's word is taken for none of them: the messages come from their numbers, the signatures are verified anew, and who
 * is left out is asked of the library, on a copy of state and store.
 */
#include "database.h"
#include "seal.h"
#include "wire.h"
#include "words.h"

#include <stdio.h>
#include <stdlib.h>
#include <string.h>
#include <unistd.h>

enum { HEX_LENGTH = 2 * HASH_LENGTH + 1, LINE_LENGTH = 256 };

typedef struct findings {
    long payouts, verified, frames, again, packets, answers, silences, refusals;
    int silent[RC_SIGNER_LIMIT];
    int left_out[RC_SIGNER_LIMIT];
    long violations;
} findings;

static void violation(findings *f, const char *claim, const char *what) {
    printf("VIOLATION of \"%s\": %s\n", claim, what);
    f->violations++;
}

static long count_rows(sqlite3 *m, const char *sql) {
    sqlite3_stmt *s = NULL;
    long n = -1;
    if (sqlite3_prepare_v2(m, sql, -1, &s, NULL) == SQLITE_OK && sqlite3_step(s) == SQLITE_ROW) n = (long)sqlite3_column_int64(s, 0);
    sqlite3_finalize(s);
    return n;
}

static int insert(sqlite3 *m, const char *sql, const char *text, const long *numbers, int count) {
    sqlite3_stmt *s = NULL;
    if (sqlite3_prepare_v2(m, sql, -1, &s, NULL) != SQLITE_OK) return 0;
    sqlite3_bind_text(s, 1, text, -1, SQLITE_STATIC);
    for (int i = 0; i < count; i++) sqlite3_bind_int64(s, 2 + i, numbers[i]);
    const int good = sqlite3_step(s) == SQLITE_DONE;
    sqlite3_finalize(s);
    return good;
}

/* A line of the signers' log into a table of its own, in memory. */
static int take_line(sqlite3 *m, findings *f, const char *line) {
    char hex[HEX_LENGTH], word[16];
    long n[4];
    if (sscanf(line, "frame %64s %ld %ld %ld", hex, &n[0], &n[1], &n[2]) == 4)
        return insert(m, "INSERT INTO frame VALUES (?, ?, ?, ?)", hex, n, 3);
    if (sscanf(line, "reply %64s %ld %ld %ld %ld %15s", hex, &n[0], &n[1], &n[2], &n[3], word) != 6) return 0;
    if (n[3] < 0 || n[3] >= RC_SIGNER_LIMIT) return 0;
    f->silences += strcmp(word, "silent") == 0;
    f->answers += strcmp(word, "answered") == 0;
    f->refusals += strcmp(word, "refused") == 0;
    if (strcmp(word, "silent") == 0) f->silent[n[3]] = 1;
    return insert(m, "INSERT INTO reply VALUES (?, ?, ?, ?, ?)", hex, n, 4);
}

static int read_log(sqlite3 *m, findings *f) {
    char line[LINE_LENGTH];
    int good = 1;
    FILE *log = fopen("signers.log", "r");
    if (log == NULL) return 0;
    while (good && fgets(line, sizeof line, log) != NULL) good = take_line(m, f, line);
    fclose(log);
    return good;
}

/* The digests of what the database says was to be sent. */
static int read_outbox(sqlite3 *m, database *d) {
    static sealed s;
    sqlite3_stmt *rows = NULL;
    int good = sqlite3_prepare_v2(d->handle, "SELECT packet, seal FROM outbox", -1, &rows, NULL) == SQLITE_OK;
    while (good && sqlite3_step(rows) == SQLITE_ROW) {
        uint8_t digest[HASH_LENGTH];
        char hex[HEX_LENGTH];
        s.packet.length = (size_t)sqlite3_column_bytes(rows, 0);
        good = s.packet.length <= PACKET_LIMIT && sqlite3_column_bytes(rows, 1) == SIGNATURE_LENGTH;
        if (!good) break;
        memcpy(s.packet.bytes, sqlite3_column_blob(rows, 0), s.packet.length);
        memcpy(s.seal, sqlite3_column_blob(rows, 1), SIGNATURE_LENGTH);
        good = frame_digest(digest, &s);
        for (int i = 0; i < HASH_LENGTH; i++) snprintf(hex + 2 * i, 3, "%02x", digest[i]);
        good = good && insert(m, "INSERT INTO saved VALUES (?)", hex, NULL, 0);
    }
    sqlite3_finalize(rows);
    return good;
}

static void check_packets(sqlite3 *m, findings *f) {
    static const char claim[] = "no packet left that was not saved";
    const long unsaved = count_rows(m, "SELECT count(DISTINCT digest) FROM frame WHERE digest NOT IN (SELECT digest FROM saved)");
    const long doubled = count_rows(m, "SELECT count(*) FROM (SELECT 1 FROM reply WHERE kind = 3 GROUP BY sign, iteration"
                                       " HAVING count(DISTINCT digest) > 1)");
    char what[LINE_LENGTH];
    f->frames = count_rows(m, "SELECT count(*) FROM frame");
    f->packets = count_rows(m, "SELECT count(*) FROM saved");
    f->again = f->frames - count_rows(m, "SELECT count(DISTINCT digest) FROM frame");
    snprintf(what, sizeof what, "%ld frames reached the signers and stand nowhere in the outbox", unsaved);
    if (unsaved != 0) violation(f, claim, what);
    snprintf(what, sizeof what, "%ld iterations had two share requests", doubled);
    if (doubled != 0) violation(f, claim, what);
    snprintf(what, sizeof what, "signers had to refuse %ld requests", f->refusals);
    if (f->refusals != 0) violation(f, claim, what);
    if (f->frames <= 0) violation(f, claim, "the signers' log has no frames at all");
}

static int signature_of(database *d, long number, uint8_t signature[SIGNATURE_LENGTH]) {
    sqlite3_stmt *s = NULL;
    if (sqlite3_prepare_v2(d->handle, "SELECT signature FROM payout WHERE number = ?", -1, &s, NULL) != SQLITE_OK) return 0;
    sqlite3_bind_int64(s, 1, number);
    const int good = sqlite3_step(s) == SQLITE_ROW && sqlite3_column_bytes(s, 0) == SIGNATURE_LENGTH;
    if (good) memcpy(signature, sqlite3_column_blob(s, 0), SIGNATURE_LENGTH);
    sqlite3_finalize(s);
    return good;
}

static void check_signatures(database *d, const group *g, findings *f) {
    static const char claim[] = "no round is lost";
    char what[LINE_LENGTH];
    for (long n = 1; n <= f->payouts; n++) {
        uint8_t signature[SIGNATURE_LENGTH];
        payout p;
        terms t;
        if (signature_of(d, n, signature) && payout_fill(&p, n) && key_terms(&t, g, p.type, payout_root(&p)) &&
            signature_good(signature, payout_message(&p), t.key))
            f->verified++;
    }
    snprintf(what, sizeof what, "%ld of %ld payouts have no good signature", f->payouts - f->verified, f->payouts);
    if (f->verified != f->payouts) violation(f, claim, what);
}

/* Some nonces, in the name of a signer: good enough to be recorded. */
static int probe_packet(packet *to, const member *m, uint64_t sign_id, uint64_t iteration) {
    const rc_response_head head = {HOST_DKG_ID, sign_id, iteration, m->id, 0};
    uint8_t nonces[NONCE_LENGTH];
    scalar secret;
    point p;
    if (!scalar_draw(&secret) || !point_of(&p, &secret) || !point_write(nonces, &p) || !point_write(nonces + POINT_LENGTH, &p)) return 0;
    return packet_written(to, rc_write_nonce_response(to->bytes, PACKET_LIMIT, head, (const uint8_t *)"who?", 4, m->keys, m->key_count,
                                                      nonces, sizeof nonces));
}

/* Who is left out stands in a nonce timeout's second list. So, on the copy: a round is begun, ONE signer that is not left out answers,
 * time passes. */
static int find_left_out(host *h, uint64_t clock, findings *f) {
    static packet p;
    if (!host_give_up(h)) return 0;
    rc_answer a = host_start(h, clock, RC_SCHNORR, (span){(const uint8_t *)"who?", 4}, (span){h->out, 0});
    const uint64_t sign_id = number_at(h->out + 16, 8), iteration = number_at(h->out + 24, 8);
    if (a.class_ != RC_PACKET) return 0;
    for (uint32_t i = 0; i < h->group->member_count; i++) {
        if (!probe_packet(&p, &h->group->members[i], sign_id, iteration)) return 0;
        a = rc_process_message(h->state, sizeof h->state, h->store, sizeof h->store, h->out, sizeof h->out, clock, 1, p.bytes, p.length);
        a = host_timeout(h, UINT64_MAX);
        if (a.class_ == RC_RESULT) break;
    }
    const span out = host_out(h, &a), list = written_part(out, 1);
    if (a.class_ != RC_RESULT || packet_kind(out) != RC_KIND_NONCE_TIMEOUT) return 0;
    for (size_t i = 0; i + KEY_LENGTH <= list.length; i += KEY_LENGTH) {
        const uint64_t id = number_at(list.bytes + i, KEY_LENGTH);
        if (id < RC_SIGNER_LIMIT) f->left_out[id] = 1;
    }
    return 1;
}

static void check_left_out(database *d, const group *g, findings *f) {
    static const char claim[] = "nobody who answered is left out";
    static host h;
    uint64_t clock = 0;
    char what[LINE_LENGTH];
    h.group = g;
    if (database_load(d, &h, &clock) != 1 || !find_left_out(&h, clock, f)) {
        violation(f, claim, "state and store tell nothing");
        return;
    }
    for (int id = 0; id < RC_SIGNER_LIMIT; id++) {
        if (!f->left_out[id] || f->silent[id]) continue;
        snprintf(what, sizeof what, "signer %d is left out and was never silent", id);
        violation(f, claim, what);
    }
}

static void print_ids(const char *words, const int *flags) {
    printf("%-34s", words);
    int none = 1;
    for (int id = 0; id < RC_SIGNER_LIMIT; id++) {
        if (!flags[id]) continue;
        printf(" %d", id);
        none = 0;
    }
    printf("%s\n", none ? " none" : "");
}

static int report(const findings *f, const char *kills) {
    printf("%-34s %ld\n", "rounds asked for", f->payouts);
    printf("%-34s %s\n", "kills survived", kills);
    printf("%-34s %ld\n", "signatures verified", f->verified);
    printf("%-34s %ld saved, %ld sent, %ld of these again\n", "packets", f->packets, f->frames, f->again);
    printf("%-34s %ld answers, %ld times silent on purpose\n", "signers", f->answers, f->silences);
    print_ids("left out at the end", f->left_out);
    printf("%s\n", f->violations == 0 ? "all as it should be" : "NOT as it should be");
    return f->violations == 0 ? 0 : 1;
}

int main(int count, char **words) {
    static findings f;
    static group g;
    database d;
    sqlite3 *m = NULL;
    const char tables[] =
        "CREATE TABLE frame (digest, kind, sign, iteration); CREATE TABLE reply (digest, kind, sign, iteration, signer);"
        "CREATE TABLE saved (digest PRIMARY KEY);";
    if (count != 4 || chdir(words[1]) != 0 || !curve_open() || !file_read("group", &g, sizeof g) || !database_open(&d)) return 2;
    f.payouts = atol(words[2]);
    if (sqlite3_open(":memory:", &m) != SQLITE_OK || sqlite3_exec(m, tables, NULL, NULL, NULL) != SQLITE_OK) return 2;
    if (!read_log(m, &f) || !read_outbox(m, &d)) violation(&f, "the logs can be read", "signers.log or outbox cannot be");
    check_packets(m, &f);
    check_signatures(&d, &g, &f);
    check_left_out(&d, &g, &f);
    sqlite3_close(m);
    database_close(&d);
    curve_close();
    return report(&f, words[3]);
}
