/* The rules of the load journal in plain C: a fresh site, a step, a holds line. */
#include "plain.h"

static u32 has(u32 set, u32 c) { return set >> (c - 1) & 1; }
static u32 ones(u32 set) { return (u32)__builtin_popcount(set); }
static u32 new_pn(u32 old, u32 rank) { return (old / 100 + (old % 100 >= rank)) * 100 + rank; }
static struct camera *at(struct site *s, u32 c) { return &s->boxes[c - 1]; }
static struct link *link_of(struct site *s, u32 a, u32 b) { return &s->links[a - 1][b - 1]; }
static u32 others(const struct site *s, u32 c) { return s->present & ~(1u << (c - 1)); }

static u32 agreed(const struct camera *b) { return span(b->first, b->last); }

static void copy(u64 *to, const u64 *from, u32 count) {
    __builtin_memcpy(to, from, (u64)count * sizeof *to);
}

void fresh(struct site *s, u32 n, u32 j, u32 l) {
    s->n = n, s->j = j, s->l = l, s->epoch = 1, s->present = (1u << n) - 1;
    for (u32 c = 1; c <= n; c++) {
        struct camera *b = at(s, c);
        __builtin_memset(b, 0, sizeof *b);
        b->first = 1;
        for (u32 k = 0; k < N_MAX; k++) b->peers[k] = UNKNOWN;
        for (u32 k = 1; k <= n; k++) link_of(s, c, k)->first = link_of(s, c, k)->count = 0;
    }
}

static u32 full(struct site *s, u32 c, u32 to) {
    for (u32 k = 1; k <= s->n; k++)
        if (has(to, k) && link_of(s, c, k)->count == s->l) return 1;
    return 0;
}

static void send(struct site *s, u32 c, u32 to, u32 kind, u32 pn, u32 last, u32 unagreed_pn,
                 const u64 *records, u32 count) {
    for (u32 k = 1; k <= s->n; k++) {
        if (!has(to, k)) continue;
        struct link *link = link_of(s, c, k);
        u32 place = link->first + link->count;
        struct mail *m = &link->mails[place < s->l ? place : place - s->l];
        m->kind = kind, m->pn = pn, m->last = last, m->unagreed_pn = unagreed_pn, m->count = count;
        m->first = has_first(kind) ? at(s, c)->first : 0;
        copy(m->records, records, count);
        link->count++;
    }
}

static void drop_head(struct site *s, struct link *link) {
    link->first = link->first + 1 == s->l ? 0 : link->first + 1;
    link->count--;
}

/* The head stands twice: the first place steps back by one, and the mail is copied there. */
static u32 repeat(struct site *s, struct link *link) {
    if (!link->count) return 3;
    if (link->count == s->l) return 8;
    const struct mail *head = &link->mails[link->first];
    link->first = link->first == 0 ? s->l - 1 : link->first - 1;
    struct mail *m = &link->mails[link->first];
    __builtin_memcpy(m, head, __builtin_offsetof(struct mail, records));
    copy(m->records, head->records, head->count);
    link->count++;
    return DONE;
}

static void put_unagreed(struct camera *b, u64 r, u32 pn) {
    b->records[agreed(b)] = r;
    b->held = agreed(b) + 1;
    b->stored_number = b->last + 1;
    b->stored_pn = pn;
}

static u32 unagreed_pn(const struct camera *b) {
    return b->held > agreed(b) && b->stored_number == b->last + 1 ? b->stored_pn : 0;
}

/* There is no room for last+1, or no such number. */
static u32 no_room(const struct site *s, u32 first, u32 last) {
    return last + 2 > s->j + first || last == HIGHEST_NUMBER;
}

/* The records below first are dropped; it is at most one above the number of the last of them. */
static void raise(struct camera *b, u32 first) {
    if (first <= b->first) return;
    u32 dropped = first - b->first;
    b->held -= dropped;
    __builtin_memmove(b->records, b->records + dropped, (u64)b->held * sizeof *b->records);
    b->first = first;
}

static void take_records(struct camera *b, const struct mail *m) {
    if (m->first > b->last + 1) {
        b->first = m->first, b->last = m->last, b->held = agreed(b);
        copy(b->records, m->records, b->held);
        return;
    }
    if (m->last > b->last) b->held = agreed(b);
    raise(b, m->first);
    if (m->last <= b->last) return;
    copy(b->records + agreed(b), m->records + span(m->first, b->last), m->last - b->last);
    b->last = m->last, b->held = agreed(b);
}

static void clear_best(struct camera *b) { b->best_pn = b->best_number = 0, b->best = 0; }

static void clear_stale_best(struct camera *b) {
    if (b->best_number <= b->last) clear_best(b);
}

static void forget_peers(struct site *s, struct camera *b) {
    for (u32 k = 0; k < s->n; k++) b->peers[k] = UNKNOWN;
}

static u32 elect(struct site *s, u32 c) {
    if (s->epoch % 2 == 0 || !has(s->present, c)) return 3;
    if (ones(s->present) < s->n / 2 + 1) return 4;
    for (u32 k = 1; k <= s->n; k++) {
        struct camera *b = at(s, k);
        b->leads = k == c;
        b->state = ones(s->present) == 1 ? ACTIVE : RECOVERING;
        b->phase = ELECTION;
        b->waiting = b->agreeing = 0;
        for (u32 a = 1; a <= s->n; a++) link_of(s, a, k)->count = 0;
    }
    s->epoch++;
    return DONE;
}

static u32 presence(struct site *s, u32 c, u32 was) {
    if (has(s->present, c) != was) return 3;
    if (s->epoch == LAST_EPOCH) return 5;
    s->present ^= 1u << (c - 1);
    s->epoch += s->epoch % 2 == 0;
    return DONE;
}

static u32 timeout(struct site *s, u32 c) {
    if (s->epoch % 2 || !has(s->present, c)) return 3;
    if (s->epoch == LAST_EPOCH) return 5;
    s->epoch++;
    return DONE;
}

static u32 recover(struct site *s, u32 c, struct camera *b) {
    if (b->phase != ELECTION || b->state != RECOVERING || ones(s->present) <= 1) return 3;
    if (new_pn(b->pn, c) > HIGHEST_PN) return 6;
    b->pn = new_pn(b->pn, c);
    b->phase = SEND_COLLECT;
    return DONE;
}

static u32 collect(struct site *s, u32 c, struct camera *b) {
    if (b->state != RECOVERING || b->phase != SEND_COLLECT) return 3;
    if (full(s, c, others(s, c))) return 8;
    forget_peers(s, b);
    b->answered = 1u << (c - 1);
    if (b->held > agreed(b))
        b->best_pn = unagreed_pn(b), b->best_number = b->last + 1, b->best = b->records[agreed(b)];
    else
        clear_best(b);
    b->phase = COLLECT_PHASE;
    send(s, c, others(s, c), COLLECT, b->pn, b->last, 0, 0, 0);
    return DONE;
}

/* The links to the others have room. */
static u32 lease(struct site *s, u32 c, struct camera *b) {
    b->state = ACTIVE, b->phase = LEASE_PHASE;
    b->heard = 1u << (c - 1);
    send(s, c, others(s, c), LEASE, 0, b->last, 0, 0, 0);
    return DONE;
}

static u32 start(struct site *s, u32 c, struct camera *b, u64 r) {
    put_unagreed(b, r, b->pn);
    b->agreeing = r;
    b->accepts = 1u << (c - 1);
    b->phase = BEGIN_PHASE;
    send(s, c, others(s, c), BEGIN, b->pn, b->last, 0, &r, 1);
    return DONE;
}

static u32 ready(struct site *s, u32 c, struct camera *b) {
    if (b->phase != COLLECT_PHASE || b->answered != s->present) return 3;
    u32 previous = b->best_number == b->last + 1 && b->best != 0;
    if (previous && no_room(s, b->first, b->last)) return 7;
    if (full(s, c, others(s, c))) return 8;
    forget_peers(s, b);
    if (!previous) return lease(s, c, b);
    b->state = UPDATING_PREVIOUS;
    return start(s, c, b, b->best);
}

static u32 offer(struct camera *b, u32 left, u32 right) {
    if (b->state != ACTIVE || b->waiting) return 3;
    b->waiting = (u64)left << 32 | right;
    return DONE;
}

static u32 propose(struct site *s, u32 c, struct camera *b) {
    if (b->state != ACTIVE || !b->waiting) return 3;
    if (b->phase != LEASE_PHASE && b->phase != LEASE_DONE && b->phase != ELECTION) return 3;
    if (no_room(s, b->first, b->last)) return 7;
    if (full(s, c, others(s, c))) return 8;
    u64 r = b->waiting;
    b->waiting = 0;
    b->state = UPDATING;
    return start(s, c, b, r);
}

static u32 agree(struct site *s, u32 c, struct camera *b) {
    if (b->phase != BEGIN_PHASE) return 3;
    if (b->state != UPDATING && b->state != UPDATING_PREVIOUS) return 3;
    if ((b->accepts & s->present) != s->present || b->held == agreed(b)) return 3;
    if (full(s, c, others(s, c))) return 8;
    b->last++;
    b->agreeing = 0;
    b->state = REFRESH, b->phase = COMMIT_PHASE;
    send(s, c, others(s, c), COMMIT, b->pn, b->last, 0, b->records, agreed(b));
    return DONE;
}

static u32 finish(struct site *s, u32 c, struct camera *b) {
    if (b->state != REFRESH || b->phase != COMMIT_PHASE) return 3;
    if (full(s, c, others(s, c))) return 8;
    return lease(s, c, b);
}

static u32 heard(const struct site *s, struct camera *b) {
    if (b->phase != LEASE_PHASE || (b->heard & s->present) != s->present) return 3;
    b->phase = LEASE_DONE;
    return DONE;
}

/* Any box, not a leader alone. */
static u32 trim(const struct site *s, u32 c, struct camera *b, u32 k) {
    if (s->epoch % 2 || !has(s->present, c) || k <= b->first || k > b->last) return 3;
    raise(b, k);
    return DONE;
}

static u32 on_collect(struct site *s, u32 from, u32 c, struct camera *b, const struct mail *m) {
    if (b->leads) return ROLE;
    if (full(s, c, 1u << (from - 1))) return 8;
    b->state = RECOVERING;
    if (m->pn > b->pn) b->pn = m->pn;
    send(s, c, 1u << (from - 1), LAST, b->pn, b->last, unagreed_pn(b), b->records, b->held);
    return TAKEN;
}

static u32 hear(struct camera *b, const struct mail *m) {
    u32 next = span(m->first, m->last);
    if (m->count == next || m->last < b->last) return 0;
    if (m->last + 1 < b->best_number || m->unagreed_pn < b->best_pn) return 0;
    b->best_pn = m->unagreed_pn, b->best_number = m->last + 1, b->best = m->records[next];
    return 1;
}

static u32 on_last(struct site *s, u32 from, u32 c, struct camera *b, const struct mail *m) {
    if (!b->leads) return ROLE;
    if (b->phase != COLLECT_PHASE) return PHASE;
    if (m->pn > b->pn && new_pn(m->pn, c) > HIGHEST_PN) return 6;
    u32 last = m->last > b->last ? m->last : b->last, lagging = 0;
    for (u32 k = 1; k <= s->n; k++) {
        u32 peer = k == from ? m->last : b->peers[k - 1];
        if (peer != UNKNOWN && peer < last) lagging |= 1u << (k - 1);
    }
    lagging &= others(s, c);
    if (full(s, c, lagging)) return 8;
    b->peers[from - 1] = m->last;
    take_records(b, m);
    send(s, c, lagging, COMMIT, b->pn, b->last, 0, b->records, agreed(b));
    u32 became = 0;
    if (m->pn > b->pn)
        b->pn = new_pn(m->pn, c), b->phase = SEND_COLLECT;
    else if (m->pn == b->pn)
        b->answered |= 1u << (from - 1), became = hear(b, m);
    if (!became) clear_stale_best(b);
    return TAKEN;
}

static u32 on_begin(struct site *s, u32 from, u32 c, struct camera *b, const struct mail *m) {
    if (b->leads) return ROLE;
    if (m->pn != b->pn) return NUMBER;
    if (m->last != b->last) return PLACE;
    if (no_room(s, m->first > b->first ? m->first : b->first, b->last)) return 7;
    if (full(s, c, 1u << (from - 1))) return 8;
    raise(b, m->first);
    put_unagreed(b, m->records[0], m->pn);
    b->state = UPDATING;
    send(s, c, 1u << (from - 1), ACCEPT, b->pn, b->last, 0, 0, 0);
    return TAKEN;
}

static u32 on_accept(u32 from, struct camera *b, const struct mail *m) {
    if (!b->leads) return ROLE;
    if (b->phase != BEGIN_PHASE) return PHASE;
    if (m->pn != b->pn) return NUMBER;
    if (m->last != b->last) return PLACE;
    b->accepts |= 1u << (from - 1);
    return TAKEN;
}

static u32 on_commit(struct camera *b, const struct mail *m) {
    if (b->leads) return ROLE;
    take_records(b, m);
    clear_stale_best(b);
    return TAKEN;
}

static u32 on_lease(struct site *s, u32 from, u32 c, struct camera *b, const struct mail *m) {
    if (b->leads) return ROLE;
    if (m->last != b->last) return PLACE;
    if (full(s, c, 1u << (from - 1))) return 8;
    b->state = ACTIVE;
    send(s, c, 1u << (from - 1), LEASE_ACK, 0, b->last, 0, 0, 0);
    return TAKEN;
}

static u32 on_lease_ack(u32 from, struct camera *b) {
    if (!b->leads) return ROLE;
    if (b->phase != LEASE_PHASE) return PHASE;
    b->heard |= 1u << (from - 1);
    return TAKEN;
}

static u32 deliver(struct site *s, u32 a, u32 c) {
    struct link *link = link_of(s, a, c);
    if (s->epoch % 2 || !link->count) return 3;
    const struct mail *m = &link->mails[link->first];
    struct camera *b = at(s, c);
    u32 answer;
    switch (m->kind) {
    case COLLECT: answer = on_collect(s, a, c, b, m); break;
    case LAST: answer = on_last(s, a, c, b, m); break;
    case BEGIN: answer = on_begin(s, a, c, b, m); break;
    case ACCEPT: answer = on_accept(a, b, m); break;
    case COMMIT: answer = on_commit(b, m); break;
    case LEASE: answer = on_lease(s, a, c, b, m); break;
    default: answer = on_lease_ack(a, b); break;
    }
    if (answer >= TAKEN) drop_head(s, link);
    return answer;
}

u32 step(struct site *s, u32 call, u32 c, u32 x, u32 y) {
    if (c < 1 || c > s->n) return 2;
    struct camera *b = at(s, c);
    switch (call) {
    case ELECT: return elect(s, c);
    case STOP: return presence(s, c, 1);
    case RETURN: return presence(s, c, 0);
    case TIMEOUT: return timeout(s, c);
    case LOSE:
        if (x < 1 || x > s->n || x == c) return 2;
        if (!link_of(s, c, x)->count) return 3;
        drop_head(s, link_of(s, c, x));
        return DONE;
    case REPEAT:
        if (x < 1 || x > s->n || x == c) return 2;
        return repeat(s, link_of(s, c, x));
    case DELIVER:
        if (x < 1 || x > s->n || x == c) return 2;
        return deliver(s, c, x);
    case TRIM: return trim(s, c, b, x);
    case OFFER:
        if (!x || !y) return 10;
    }
    if (s->epoch % 2 || !b->leads) return 3;
    switch (call) {
    case RECOVER: return recover(s, c, b);
    case COLLECT_CALL: return collect(s, c, b);
    case READY: return ready(s, c, b);
    case OFFER: return offer(b, x, y);
    case PROPOSE: return propose(s, c, b);
    case AGREE: return agree(s, c, b);
    case FINISH: return finish(s, c, b);
    default: return heard(s, b);
    }
}

u32 holds(const struct site *s, u32 c, u32 k, u32 left, u32 right) {
    if (c < 1 || c > s->n) return 2;
    const struct camera *b = &s->boxes[c - 1];
    u64 r = (u64)left << 32 | right;
    return k >= b->first && k <= b->last && b->records[k - b->first] == r ? DONE : 14;
}

/* The head of the first link with mail, by sender and then receiver, or else the leader's own step
   that is not refused 3; 3 where there is none. */
static u32 turn(struct site *s) {
    static const u32 CALLS[] = {RECOVER, COLLECT_CALL, READY, AGREE, FINISH, HEARD};
    for (u32 a = 1; a <= s->n; a++)
        for (u32 b = 1; b <= s->n; b++)
            if (a != b && link_of(s, a, b)->count) return deliver(s, a, b);
    for (u32 c = 1; c <= s->n; c++) {
        if (!at(s, c)->leads) continue;
        for (u32 i = 0; i < sizeof CALLS / sizeof *CALLS; i++) {
            u32 answer = step(s, CALLS[i], c, 0, 0);
            if (answer != 3) return answer;
        }
        return 3;
    }
    return 3;
}

u32 run(struct site *s, u32 steps, u32 *used) {
    if (s->epoch % 2) return 3;
    for (*used = 0; *used < steps; ++*used) {
        u32 answer = turn(s);
        if (answer == 3) return DONE;
        if (answer != DONE && answer < TAKEN) return STOPPED + answer;
    }
    return DONE;
}
