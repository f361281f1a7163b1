/*
 * What survives: state and store, the clock's last reading, what is to be sent, the job that is out, the payouts. A call of the library
 * and all that follows from it is ONE transaction: after a kill, either the call was made or it was not.
 *
 * SQLite keeps a write-ahead log and syncs it at each commit (synchronous = FULL), so that a commit outlives the power too. kill -9 alone
 * would not ask for the sync: what a process has written, the kernel has.
 */
#ifndef DURABLE_DATABASE_H
#define DURABLE_DATABASE_H

#include "host.h"
#include "payouts.h"

#include <sqlite3.h>

typedef struct database {
    sqlite3 *handle;
} database;

/* Where a payout stands. */
enum { WAITING, IN_PROGRESS, SIGNED, FAILED };

/* What follows from a call, to be saved with state and store. */
typedef struct change {
    const sealed *send; /* to the outbox; what was outstanding there is no more */
    const packet *job;  /* a job is out: it and its mark; nothing is outstanding */
    int whole;
    int job_done;
    const payout *payout; /* stands so now, with this signature if there is one */
    int standing;
    const uint8_t *signature;
} change;

int database_open(database *d);
void database_close(database *d);
int database_ask(database *d, const payout *p);

/* 1 there is one, 0 there is none, -1 failed. */
int database_load(database *d, host *h, uint64_t *clock);
int database_outstanding(database *d, sealed *s);
int database_job(database *d, packet *job, int *whole);
int database_current(database *d, payout *p); /* the one in progress */
int database_waiting(database *d, payout *p); /* the oldest one waiting */

int database_save(database *d, const host *h, uint64_t clock, const change *c);

#endif
