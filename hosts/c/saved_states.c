/*
 * The saved form and its version. hosts/states has a saved state of each version that there has been, N.bin. The calls that led to it are
 * made anew, and have to leave the present version's bytes again. Where they do not, the form has changed, and files of the old one would
 * be misread: the version has to be raised. A state of an older version, and one that says the next, is refused with 4 by each call and
 * left as it is.
 *
 * saved_states FOLDER            the test
 * saved_states FOLDER --write    writes the present version's file; one that is there is not overwritten
 *
 * The state has ten signers, four records, everybody's shares, two struck signers and a job that is out: each field holds a value, and one
 * of its own where that can be. Nonces and shares are made up.
 */
#include "packets.h"

#include <stdio.h>
#include <string.h>

enum { SIGNERS = RC_SIGNER_LIMIT, RECORDS = 4, LATE_SIGNERS = 2, ROOT = 32, VERSION_PLACE = 8, NAME_ROOM = 4096, FILE_ROOM = 1 << 16 };

/* Bytes as a file has them. What is lent is at least as long as a state, with zeros behind a shorter file. */
typedef struct stored {
    size_t length;
    uint8_t bytes[FILE_ROOM];
} stored;

static uint8_t state[RC_STATE_LENGTH], store[RC_STORE_LENGTH], out[RC_ANSWER_LENGTH];
static int failures;

#define LENT state, sizeof state, store, sizeof store
#define OUT out, sizeof out

static void expect(const char *what, int good) {
    if (!good) printf("WRONG: %s\n", what);
    failures += !good;
}

static void answers(const char *what, rc_answer a, uint32_t class_) { expect(what, a.class_ == class_ && a.number == 0); }

/* --- the calls that lead to the state */

/* The bytes of a number all differ, so that one that is laid out the other way round is seen. */
static const uint64_t dkg_id = 0x1112131415161718, sign_id = 0x2122232425262728, iteration = 0x3132333435363738;
static const uint64_t nonce_start = 0x4142434445464748, sign_start = 0x5152535455565758, share_timeout = 0x6162636465666768;
static const size_t message_lengths[RECORDS] = {11, 101, 201, RC_MESSAGE_LIMIT};
static uint8_t bytes[RC_KEY_LIMIT * NONCE_LENGTH]; /* messages, root, nonces and z_i */

/* Descending, as no list is that is sorted. */
static uint32_t id_of(uint32_t signer) { return 0x71727374 - 0x101 * signer; }
static uint32_t key_count(uint32_t signer) { return RC_KEY_LIMIT + 1 - SIGNERS + signer; }

static void put_keys(uint32_t *to, uint32_t signer) {
    for (uint32_t k = 0; k < key_count(signer); k++) to[k] = 0x81828384 + 0x101 * (RC_KEY_LIMIT * signer + k);
}

/* A pattern in which no point stands that a response is dropped for. */
static void fill_bytes(void) {
    for (size_t i = 0; i < sizeof bytes; i++) bytes[i] = (uint8_t)(7 * i + i / 256 + 3);
}

/* All keys are needed, so only the record that everybody answers asks for shares. Where somebody is struck, too few keys are left, and the
 * round stays: a retry would forget the records. */
static rc_config configuration(void) {
    rc_config c;
    memset(&c, 0, sizeof c);
    c.num_signers = 0x91929394;
    c.num_keys = 0xa1a2a3a4;
    c.threshold = 0xb1b2b3b4;
    c.dkg_threshold = 0xc1c2c3c4;
    c.dkg_public_timeout = (rc_timeout){1, 0xd1d2d3d4d5d6d7d8};
    c.dkg_private_timeout = (rc_timeout){1, 0xe1e2e3e4e5e6e7e8};
    c.dkg_end_timeout = (rc_timeout){1, 0xf1f2f3f4f5f6f7f8};
    c.nonce_timeout = (rc_timeout){1, 0x0102030405060708};
    c.sign_timeout = (rc_timeout){1, share_timeout};
    c.verify_packet_sigs = 1;
    c.signer_count = SIGNERS;
    for (uint32_t i = 0; i < SIGNERS; i++) {
        c.signers[i].id = id_of(i);
        c.signers[i].has_keys = 1;
        c.signers[i].key_count = key_count(i);
        put_keys(c.signers[i].keys, i);
        c.sign_threshold += key_count(i);
    }
    return c;
}

static void set_up(void) {
    uint32_t ended[SIGNERS];
    for (uint32_t i = 0; i < SIGNERS; i++) ended[i] = id_of(i);
    answers("commission", rc_commission(LENT, configuration()), RC_NOTHING);
    answers("coordinator key", rc_set_coordinator_key(LENT, 1), RC_NOTHING);
    answers("group key", rc_set_group_key(LENT, 1), RC_NOTHING);
    answers("results", rc_take_results(LENT, dkg_id, ended, SIGNERS), RC_NOTHING);
}

static void process(const char *what, uint64_t clock, packet *p, rc_written w, uint32_t class_) {
    expect(what, packet_written(p, w));
    answers(what, rc_process_message(LENT, OUT, clock, 1, p->bytes, p->length), class_);
}

static rc_written nonce_request(packet *p) {
    rc_head head = {.dkg_id = dkg_id, .sign_id = sign_id, .sign_iter_id = iteration, .signature_type = RC_TAPROOT_ROOT};
    memcpy(head.root, bytes + sizeof bytes - ROOT, ROOT);
    return rc_write_nonce_request(p->bytes, sizeof p->bytes, head, bytes, 1);
}

static rc_response_head head_of(uint32_t signer) { return (rc_response_head){dkg_id, sign_id, iteration, id_of(signer), 0}; }

/* Each response at a reading of its own, the last one at sign_start. */
static uint64_t came_at(uint32_t signer, uint32_t record) {
    return sign_start - 0x101 * (uint64_t)(RECORDS * SIGNERS - 1 - (record * SIGNERS + signer));
}

/* With another number of nonces than of keys, whoever responds. */
static void respond(uint32_t signer, uint32_t record, uint32_t class_) {
    static packet p;
    uint32_t keys[RC_KEY_LIMIT];
    const size_t nonces = NONCE_LENGTH * (size_t)(RC_KEY_LIMIT - signer);
    put_keys(keys, signer);
    const rc_written w = rc_write_nonce_response(p.bytes, sizeof p.bytes, head_of(signer), bytes, message_lengths[record], keys,
                                                 key_count(signer), bytes, nonces);
    process("nonces", came_at(signer, record), &p, w, class_);
}

/* Shares for one key, two, three and so on; of the last signer, one for each of its sixteen keys. */
static void share(uint32_t signer, uint32_t class_) {
    static packet p;
    uint32_t keys[RC_KEY_LIMIT], counts[RC_KEY_LIMIT], count = 0;
    put_keys(keys, signer);
    for (uint32_t left = key_count(signer); left > 0; left -= counts[count++]) {
        counts[count] = signer + 1 == SIGNERS ? 1 : count + 1;
        if (counts[count] > left) counts[count] = left;
    }
    const rc_written w = rc_write_signature_share_response(p.bytes, sizeof p.bytes, head_of(signer), keys, count, bytes, Z_LENGTH * count,
                                                           counts, count, keys, key_count(signer));
    process("shares", sign_start, &p, w, class_);
}

/* The round is begun by a request of another coordinator's, whose iteration may be any number. In each record but the last somebody else
 * is missing. */
static void gather_nonces(void) {
    static packet p;
    process("nonce request", nonce_start, &p, nonce_request(&p), RC_PACKET);
    for (uint32_t record = 0; record < RECORDS; record++)
        for (uint32_t i = 0; i < SIGNERS; i++) {
            const int last = record + 1 == RECORDS;
            if (last || i != 3 * record) respond(i, record, last && i + 1 == SIGNERS ? RC_PACKET : RC_NOTHING);
        }
}

/* Two signers are late and struck. What they send after that is recorded all the same, and is the last that was waited for. */
static void gather_shares(void) {
    for (uint32_t i = 0; i < SIGNERS - LATE_SIGNERS; i++) share(i, RC_NOTHING);
    answers("shares late", rc_process_timeout(LENT, OUT, sign_start + share_timeout + 1), RC_RESULT);
    expect("too few keys are left", out[0] == RC_KIND_INSUFFICIENT_SIGNERS);
    for (uint32_t i = SIGNERS - LATE_SIGNERS; i < SIGNERS; i++) share(i, i + 1 < SIGNERS ? RC_NOTHING : RC_JOB);
}

static void make_state(void) {
    fill_bytes();
    set_up();
    gather_nonces();
    gather_shares();
    expect("RC_STATE_VERSION is the archive's", number_at(state + VERSION_PLACE, 8) == RC_STATE_VERSION);
}

/* --- the stored files */

static int open_file(FILE **file, const char *folder, int version, const char *mode) {
    char name[NAME_ROOM];
    snprintf(name, sizeof name, "%s/%d.bin", folder, version);
    *file = fopen(name, mode);
    if (*file == NULL) perror(name);
    return *file != NULL;
}

static int read_stored(stored *to, const char *folder, int version) {
    FILE *file;
    memset(to, 0, sizeof *to);
    if (!open_file(&file, folder, version, "rb")) return 0;
    to->length = fread(to->bytes, 1, sizeof to->bytes, file);
    const int whole = !ferror(file) && to->length < sizeof to->bytes;
    fclose(file);
    return whole;
}

/* With x a file that is there is not opened. */
static int write_state(const char *folder) {
    FILE *file;
    if (!open_file(&file, folder, RC_STATE_VERSION, "wbx")) return 0;
    const int written = fwrite(state, 1, sizeof state, file) == sizeof state;
    return fclose(file) == 0 && written;
}

static void compare(const stored *f) {
    size_t at = 0;
    while (at < f->length && at < sizeof state && f->bytes[at] == state[at]) at++;
    if (at == f->length && at == sizeof state) return;
    printf("WRONG: the saved form changed: raise the version. Byte %zu differs; the stored state has %zu bytes, the new one %zu\n", at,
           f->length, sizeof state);
    failures++;
}

/* --- each call on a stored file */

static const char *const calls[] = {
    "rc_set_coordinator_key", "rc_set_group_key", "rc_take_results", "rc_start_signing_round", "rc_process",     "rc_process_message",
    "rc_process_timeout",     "rc_tell_arrivals", "rc_aggregated",   "rc_reset",               "rc_can_move_to",
};
enum { CALLS = sizeof calls / sizeof calls[0] };

/* What is given besides the state is good. */
static rc_answer make(int call, uint8_t *lent, size_t length) {
#define BOTH lent, length, store, sizeof store
    static packet p;
    const uint32_t ended = id_of(0);
    expect("a packet", packet_written(&p, nonce_request(&p)));
    switch (call) {
    case 0: return rc_set_coordinator_key(BOTH, 1);
    case 1: return rc_set_group_key(BOTH, 1);
    case 2: return rc_take_results(BOTH, dkg_id, &ended, 1);
    case 3: return rc_start_signing_round(BOTH, OUT, sign_start, bytes, 1, RC_SCHNORR, NULL, 0, 0, 0);
    case 4: return rc_process(BOTH, OUT, sign_start, 1, p.bytes, p.length);
    case 5: return rc_process_message(BOTH, OUT, sign_start, 1, p.bytes, p.length);
    case 6: return rc_process_timeout(BOTH, OUT, sign_start);
    case 7: return rc_tell_arrivals(BOTH, OUT);
    case 8: return rc_aggregated(BOTH, 1);
    case 9: return rc_reset(BOTH);
    default: return rc_can_move_to(BOTH, 11, RC_SCHNORR, NULL, 0);
    }
#undef BOTH
}

/* Each call refuses these bytes with 4 and leaves them, or none does. */
static void see_refusals(const stored *f, int version, int refused) {
    static stored lent;
    for (int call = 0; call < CALLS; call++) {
        lent = *f;
        const rc_answer a = make(call, lent.bytes, f->length > RC_STATE_LENGTH ? f->length : RC_STATE_LENGTH);
        const int is_refused = a.class_ == RC_ERROR && a.number == RC_REFUSED_STATE;
        const int same = memcmp(lent.bytes, f->bytes, sizeof lent.bytes) == 0;
        if (is_refused == refused && (same || !refused)) continue;
        printf("WRONG: %s, given a state of version %d: class %u, number %u, the state %s\n", calls[call], version, a.class_, a.number,
               same ? "as it was" : "changed");
        failures++;
    }
}

/* An older file that does not say its version would be refused for nothing. */
static void test_older(const char *folder, int version) {
    static stored f;
    expect("there is a file for each older version", read_stored(&f, folder, version));
    expect("it says its version", number_at(f.bytes + VERSION_PLACE, 8) == (uint64_t)version);
    see_refusals(&f, version, 1);
}

static void test_present(const char *folder) {
    static stored f;
    const int there = read_stored(&f, folder, RC_STATE_VERSION);
    expect("there is a file for the present version (make -C hosts/c saved_state writes it)", there);
    if (!there) return;
    compare(&f);
    see_refusals(&f, RC_STATE_VERSION, 0);
    put_number(f.bytes + VERSION_PLACE, 8, RC_STATE_VERSION + 1);
    see_refusals(&f, RC_STATE_VERSION + 1, 1);
}

static void test(const char *folder) {
    for (int version = 1; version < RC_STATE_VERSION; version++) test_older(folder, version);
    test_present(folder);
}

int main(int count, char **arguments) {
    const int writes = count == 3 && strcmp(arguments[2], "--write") == 0;
    if (count != 2 && !writes) {
        fprintf(stderr, "saved_states FOLDER [--write]\n");
        return 2;
    }
    make_state();
    if (!writes)
        test(arguments[1]);
    else if (failures == 0)
        expect("the state is written", write_state(arguments[1]));
    printf("saved states, version 1 to %d\n", RC_STATE_VERSION);
    printf(failures ? "%d wrong\n" : "all as it should be\n", failures);
    return failures != 0;
}
