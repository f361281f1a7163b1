/*
 *   prepare FOLDER PAYOUTS
 *
 * Deals a group into the folder where none is there, and adds payouts until there are so many. The coordinator's program reads `group`
 * and `host.secret`, the signers' `group` and `signers.secret`.
 */
#include "database.h"

#include <stdio.h>
#include <stdlib.h>
#include <unistd.h>

static int deal_once(void) {
    group g;
    member_secrets secrets[4];
    scalar host_seal;
    if (access("group", F_OK) == 0) return 1;
    return deal(&g, secrets, &host_seal) && file_write("signers.secret", secrets, sizeof secrets) &&
           file_write("host.secret", &host_seal, sizeof host_seal) && file_write("group", &g, sizeof g);
}

static long asked_so_far(database *d) {
    sqlite3_stmt *s = NULL;
    long n = -1;
    if (sqlite3_prepare_v2(d->handle, "SELECT count(*) FROM payout", -1, &s, NULL) != SQLITE_OK) return -1;
    if (sqlite3_step(s) == SQLITE_ROW) n = (long)sqlite3_column_int64(s, 0);
    sqlite3_finalize(s);
    return n;
}

int main(int count, char **words) {
    database d;
    payout p;
    if (count != 3 || chdir(words[1]) != 0 || !curve_open() || !deal_once() || !database_open(&d)) return 2;
    const long wanted = atol(words[2]), there = asked_so_far(&d);
    int good = there >= 0 && sqlite3_exec(d.handle, "BEGIN IMMEDIATE", NULL, NULL, NULL) == SQLITE_OK;
    for (long n = there + 1; good && n <= wanted; n++) good = payout_fill(&p, n) && database_ask(&d, &p);
    good = good && sqlite3_exec(d.handle, "COMMIT", NULL, NULL, NULL) == SQLITE_OK;
    database_close(&d);
    curve_close();
    return good ? 0 : 1;
}
