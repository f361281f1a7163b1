#include "database.h"

#include <stdio.h>
#include <string.h>

static const char schema[] =
    "PRAGMA journal_mode = WAL; PRAGMA synchronous = FULL;"
    "CREATE TABLE IF NOT EXISTS coordinator (one INTEGER PRIMARY KEY CHECK (one = 1), state BLOB NOT NULL, store BLOB NOT NULL,"
    " clock INTEGER NOT NULL);"
    "CREATE TABLE IF NOT EXISTS outbox (number INTEGER PRIMARY KEY, packet BLOB NOT NULL, seal BLOB NOT NULL,"
    " outstanding INTEGER NOT NULL);"
    "CREATE TABLE IF NOT EXISTS job (one INTEGER PRIMARY KEY CHECK (one = 1), packet BLOB NOT NULL, whole INTEGER NOT NULL);"
    "CREATE TABLE IF NOT EXISTS payout (number INTEGER PRIMARY KEY, type INTEGER NOT NULL, message BLOB NOT NULL,"
    " root BLOB NOT NULL, standing INTEGER NOT NULL, signature BLOB);";

static int done(database *d, const char *sql) { return sqlite3_exec(d->handle, sql, NULL, NULL, NULL) == SQLITE_OK; }

int database_open(database *d) {
    if (sqlite3_open("rounds.db", &d->handle) != SQLITE_OK) return 0;
    sqlite3_busy_timeout(d->handle, 10000);
    return done(d, schema);
}

void database_close(database *d) {
    sqlite3_close(d->handle);
    d->handle = NULL;
}

static sqlite3_stmt *prepared(database *d, const char *sql) {
    sqlite3_stmt *s = NULL;
    if (sqlite3_prepare_v2(d->handle, sql, -1, &s, NULL) != SQLITE_OK) fprintf(stderr, "database: %s\n", sqlite3_errmsg(d->handle));
    return s;
}

static void give_blob(sqlite3_stmt *s, int place, span b) {
    if (b.length == 0)
        sqlite3_bind_zeroblob(s, place, 0);
    else
        sqlite3_bind_blob(s, place, b.bytes, (int)b.length, SQLITE_STATIC);
}

static int run(sqlite3_stmt *s) {
    const int good = s != NULL && sqlite3_step(s) == SQLITE_DONE;
    return sqlite3_finalize(s) == SQLITE_OK && good;
}

/* A blob of at most so many bytes; its length, or more than the room where it does not fit. */
static size_t take_blob(sqlite3_stmt *s, int column, uint8_t *to, size_t room) {
    const void *bytes = sqlite3_column_blob(s, column);
    const size_t length = (size_t)sqlite3_column_bytes(s, column);
    if (length > 0 && length <= room) memcpy(to, bytes, length);
    return length;
}

/* Ends a query of one row at most: what sqlite3_step said, and whether the row was as it should be. */
static int one_row(sqlite3_stmt *s, int step, int good) {
    sqlite3_finalize(s);
    if (step == SQLITE_DONE) return 0;
    return step == SQLITE_ROW && good ? 1 : -1;
}

int database_ask(database *d, const payout *p) {
    sqlite3_stmt *s = prepared(d, "INSERT INTO payout VALUES (?, ?, ?, ?, 0, NULL)");
    sqlite3_bind_int64(s, 1, p->number);
    sqlite3_bind_int(s, 2, p->type);
    give_blob(s, 3, payout_message(p));
    give_blob(s, 4, payout_root(p));
    return run(s);
}

int database_load(database *d, host *h, uint64_t *clock) {
    int good = 0;
    sqlite3_stmt *s = prepared(d, "SELECT state, store, clock FROM coordinator");
    const int step = sqlite3_step(s);
    if (step == SQLITE_ROW) {
        good = take_blob(s, 0, h->state, sizeof h->state) == sizeof h->state &&
               take_blob(s, 1, h->store, sizeof h->store) == sizeof h->store;
        *clock = (uint64_t)sqlite3_column_int64(s, 2);
    }
    return one_row(s, step, good);
}

int database_outstanding(database *d, sealed *to) {
    int good = 0;
    sqlite3_stmt *s = prepared(d, "SELECT packet, seal FROM outbox WHERE outstanding ORDER BY number DESC LIMIT 1");
    const int step = sqlite3_step(s);
    if (step == SQLITE_ROW) {
        to->packet.length = take_blob(s, 0, to->packet.bytes, PACKET_LIMIT);
        good = to->packet.length <= PACKET_LIMIT && take_blob(s, 1, to->seal, SIGNATURE_LENGTH) == SIGNATURE_LENGTH;
    }
    return one_row(s, step, good);
}

int database_job(database *d, packet *job, int *whole) {
    int good = 0;
    sqlite3_stmt *s = prepared(d, "SELECT packet, whole FROM job");
    const int step = sqlite3_step(s);
    if (step == SQLITE_ROW) {
        job->length = take_blob(s, 0, job->bytes, PACKET_LIMIT);
        *whole = sqlite3_column_int(s, 1);
        good = job->length <= PACKET_LIMIT;
    }
    return one_row(s, step, good);
}

static int find_payout(database *d, payout *p, const char *sql) {
    int good = 0;
    sqlite3_stmt *s = prepared(d, sql);
    const int step = sqlite3_step(s);
    if (step == SQLITE_ROW) {
        p->number = sqlite3_column_int64(s, 0);
        p->type = (uint8_t)sqlite3_column_int(s, 1);
        p->message_length = take_blob(s, 2, p->message, sizeof p->message);
        p->root_length = take_blob(s, 3, p->root, sizeof p->root);
        good = p->message_length <= sizeof p->message && p->root_length <= sizeof p->root;
    }
    return one_row(s, step, good);
}

int database_current(database *d, payout *p) {
    return find_payout(d, p, "SELECT number, type, message, root FROM payout WHERE standing = 1");
}

int database_waiting(database *d, payout *p) {
    return find_payout(d, p, "SELECT number, type, message, root FROM payout WHERE standing = 0 ORDER BY number LIMIT 1");
}

static int save_coordinator(database *d, const host *h, uint64_t clock) {
    sqlite3_stmt *s = prepared(d, "INSERT OR REPLACE INTO coordinator VALUES (1, ?, ?, ?)");
    give_blob(s, 1, (span){h->state, sizeof h->state});
    give_blob(s, 2, (span){h->store, sizeof h->store});
    sqlite3_bind_int64(s, 3, (sqlite3_int64)clock);
    return run(s);
}

static int save_packet(database *d, const sealed *p) {
    sqlite3_stmt *s = prepared(d, "INSERT INTO outbox (packet, seal, outstanding) VALUES (?, ?, 1)");
    give_blob(s, 1, span_of(&p->packet));
    give_blob(s, 2, (span){p->seal, SIGNATURE_LENGTH});
    return run(s);
}

static int save_job(database *d, const packet *job, int whole) {
    sqlite3_stmt *s = prepared(d, "INSERT OR REPLACE INTO job VALUES (1, ?, ?)");
    give_blob(s, 1, span_of(job));
    sqlite3_bind_int(s, 2, whole);
    return run(s);
}

static int save_standing(database *d, const change *c) {
    sqlite3_stmt *s = prepared(d, "UPDATE payout SET standing = ?, signature = ? WHERE number = ?");
    sqlite3_bind_int(s, 1, c->standing);
    if (c->signature != NULL) give_blob(s, 2, (span){c->signature, SIGNATURE_LENGTH});
    sqlite3_bind_int64(s, 3, c->payout->number);
    return run(s);
}

int database_save(database *d, const host *h, uint64_t clock, const change *c) {
    int good = done(d, "BEGIN IMMEDIATE") && save_coordinator(d, h, clock);
    if (c->send != NULL || c->job != NULL) good = good && done(d, "UPDATE outbox SET outstanding = 0 WHERE outstanding");
    if (c->send != NULL) good = good && save_packet(d, c->send);
    if (c->job != NULL) good = good && save_job(d, c->job, c->whole);
    if (c->job_done) good = good && done(d, "DELETE FROM job");
    if (c->payout != NULL) good = good && save_standing(d, c);
    if (good && done(d, "COMMIT")) return 1;
    done(d, "ROLLBACK");
    return 0;
}
