/*
 * A stage for stories: four signers, the coordinator's host and a clock that the story moves on, all in one process. Each step says what
 * the library should answer; what differs is counted.
 */
#ifndef HOST_STAGE_H
#define HOST_STAGE_H

#include "host.h"
#include "signer.h"

enum { SIGNERS = 4 };

#define SECOND 1000000000ull
extern const host_timeouts stage_timeouts;
extern const span no_root, with_root;

typedef struct stage {
    group group;
    member_secrets secrets[SIGNERS];
    signer signers[SIGNERS];
    host host;
    sealed request; /* the coordinator's last packet, as the signers have it */
    sealed first;   /* and its first */
    aggregation last;
    uint64_t clock;
    uint64_t asked; /* its reading at the coordinator's last nonce request */
    int quiet;
    int failures;
} stage;

/* A newly dealt group, a newly commissioned coordinator, the clock at 0. */
int open_stage(stage *s, int quiet);
void close_stage(stage *s);

void tell(const stage *s, const char *format, ...);
void heading(const stage *s, const char *words);
void expect(stage *s, const char *what, int good);

void start(stage *s, uint8_t type, const char *words, span root);
/* A signer takes the coordinator's last packet, and its answer goes to the library, which should answer so. A job is done at once. */
void answer(stage *s, uint32_t id, uint32_t class_, uint32_t number);
/* Several of them, by their digits: nothing is to do but for the last, which gets that class. */
void answers(stage *s, const char *ids, uint32_t last_class);
/* Only what a signer would answer: 1 where it answers. event says it in words. */
int answer_of(stage *s, uint32_t id, sealed *answer, char *event, size_t room);
/* An operator looks whom to call: by their digits, who has answered the request, and who is waited for. */
void operator_looks(stage *s, const char *answered, const char *missing);
/* What follows from an answer of the library's, and whether it is the expected one. */
void follow(stage *s, const char *event, const rc_answer *a, uint32_t class_, uint32_t number);
void do_job(stage *s, const rc_answer *a, int success);

/* Past the host's own rules: a start without asking; a packet that it would not hear, with a good verdict. */
rc_answer start_unasked(stage *s, uint8_t type, const char *words, span root);
rc_answer take_unheard(stage *s, const sealed *p);

#endif
