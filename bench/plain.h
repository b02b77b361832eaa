/* The load journal in plain C, without proofs: what the proved engine is measured against.
   No header of a C library is needed: the kit's compiler comes without them. */
#ifndef PLAIN_H
#define PLAIN_H

#ifndef J_MAX
#define J_MAX 4096
#endif
#ifndef L_MAX
#define L_MAX 16
#endif
#define N_MAX 5
#define UNKNOWN 4294967295u
#define HIGHEST_PN 999999999u
#define LAST_EPOCH 1000000u
#define HIGHEST_NUMBER 1000000000u

typedef unsigned char u8;
typedef unsigned int u32;
typedef unsigned long u64;

enum { RECOVERING, ACTIVE, UPDATING, UPDATING_PREVIOUS, REFRESH };
enum { ELECTION, SEND_COLLECT, COLLECT_PHASE, LEASE_PHASE, BEGIN_PHASE, COMMIT_PHASE, LEASE_DONE };
enum { COLLECT = 1, LAST, BEGIN, ACCEPT, COMMIT, LEASE, LEASE_ACK };
enum { ELECT, RECOVER, COLLECT_CALL, READY, PROPOSE, AGREE, FINISH, HEARD, STOP, RETURN, TIMEOUT,
       OFFER, TRIM, LOSE, REPEAT, DELIVER, HOLDS, SITE };
enum { DONE = 0, TAKEN = 100, ROLE, PHASE, NUMBER, PLACE, STOPPED = 200 };

struct mail {
    u32 kind, pn, last, first, unagreed_pn, count;
    u64 records[J_MAX];
};

struct link {
    u32 first, count;
    struct mail mails[L_MAX];
};

struct camera {
    u32 leads, state, phase, pn, last, first, stored_pn, stored_number, best_pn, best_number;
    u32 answered, accepts, heard;
    u64 best, waiting, agreeing;
    u32 peers[N_MAX];
    u32 held;
    u64 records[J_MAX];
};

/* How many numbers there are from first to last; records stand from first on. */
static inline u32 span(u32 first, u32 last) { return last + 1 - first; }

/* Which mails carry the sender's first. */
static inline u32 has_first(u32 kind) { return kind == LAST || kind == BEGIN || kind == COMMIT; }

struct site {
    u32 n, j, l, epoch, present;
    struct camera boxes[N_MAX];
    struct link links[N_MAX][N_MAX];
};

/* Boxes count from 1 in every argument. Answers: 0 done, a refusal's number, 100 taken, 101 to 104
   discarded. The site is by form, and a refusal leaves it. */
void fresh(struct site *s, u32 n, u32 j, u32 l);
u32 step(struct site *s, u32 call, u32 c, u32 x, u32 y);
u32 holds(const struct site *s, u32 c, u32 k, u32 left, u32 right);
/* The run after an election: 0, or 3, or STOPPED and the number of the refusal that stopped it; not
   where it is 3, *used has the steps. */
u32 run(struct site *s, u32 steps, u32 *used);

u32 by_form(const struct site *s);

u64 image_length(const struct site *s);
void image_write(const struct site *s, u8 *image);
/* 0, or 1 where the bytes are no site by form. */
u32 image_read(struct site *s, const u8 *image, u64 length);

#endif
