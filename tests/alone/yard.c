/* Five boxes by themselves (box.c) and their carrier, at random: mail is handed over, lost and
   repeated; boxes stop, also between a row that is stored and its letter, and return; epochs end,
   and leaders are elected; links are short, books are trimmed. Demand 3 is looked at after each
   event, by what the boxes answer, and so is who has heard a lease. With a lapse one duty of
   docs/RUNNING-A-BOX.md is not kept, and only agreement and the lease are looked at.

   yard [lapse=NAME] [lease=1] [seed=1] [runs=200] [events=2000] [show=0]: runs with the seeds from
   `seed` on. It ends with 0 where all of them are sound, and with 1 at the first that is not; then
   show=1 gives the fewest events that are enough. With lease=0 leases are not looked at. */
#include "words.h"
#include "box.c"
#include <stdio.h>
#include <string.h>

typedef uint32_t u32;
typedef uint64_t u64;

enum { MAJORITY = N / 2 + 1, EVERYONE = (1 << N) - 1, MOST_EPOCH = 1000000, MOST_EVENTS = 1000000 };
enum { ACTIVE = 1, BEGIN = 4, COMMIT = 5, LEASE = 6 }; /* a state, two phases, a kind of mail */

/* The names that crates/alone/must-fail has are the same lapse there. */
enum lapse {
    NONE,
    WITHOUT_MAJORITY, /* an election by fewer than a majority */
    LEFT_OUT,         /* a box that stops is left out of the present set, and the epoch goes on */
    ROLLED_BACK,      /* a box comes back with the row before the one that it stored last */
    STARTED_ANEW,     /* a box that was here comes back with a fresh row */
    CHANGED,          /* the rest is done to letters and boxes at any time */
    ANOTHER_SENDER = CHANGED, /* a copy of a letter is handed over as another box's */
    ANOTHER_LETTER,           /* a letter has another frame than was sent */
    SWAPPED,                  /* the first two letters of a link change places */
    OUTLIVED,                 /* letters from before an election are handed over after it */
    NOT_TOLD,                 /* a box goes on as if there had been no election */
    TOLD_AGAIN,               /* a box is told of an election a second time */
    OVERRUN,                  /* a letter that has no room is lost, and its row is stored */
    LAPSES
};
static const char *const LAPSE[LAPSES] = {"none",
                                          "election_without_majority",
                                          "left_out",
                                          "row_rolled_back",
                                          "started_anew",
                                          "another_sender",
                                          "another_letter",
                                          "letters_swapped",
                                          "letters_outlive_an_election",
                                          "not_told",
                                          "told_again",
                                          "full_link_overrun"};
static enum lapse lapse;

enum kind { STEP, OFFER, TRIM, MAIL, LOSE, REPEAT, STOP, RETURN, TIMEOUT, ELECT, CHANGE };
static const char *const EVENT[] = {"step", "offer",  "trim",    "mail",  "lose",  "repeat",
                                    "stop", "return", "timeout", "elect", "change"};

/* k is an offer's left frame, a trim's load, the sender that a letter is mistaken for; of a step
   and a mail whether power fails, of a stop and a return whether the row is lost. */
struct event {
    enum kind kind;
    u32 a, b, k;
};

static struct {
    u64 events, lapses, elections, loads, lost, repeated, full, stops, cuts, trims, whole, heard;
} told;
static u32 is_shown;

static u32 only(u32 c) { return 1u << (c - 1); }

static u32 lapsed(void) { return told.lapses++, 1; }

/* ---- the boards: what each box has stored, and what before that */

static struct box boxes[N + 1];
static u64 stored[N + 1][ROW], before[N + 1][ROW];
static u32 ever, looked, fails;

int board_load(u32 me, u64 *row) {
    if (has(ever, me)) memcpy(row, stored[me], sizeof stored[me]);
    return (int)has(ever, me);
}

void board_store(u32 me, const u64 *row) {
    memcpy(before[me], has(ever, me) ? stored[me] : row, sizeof before[me]);
    memcpy(stored[me], row, sizeof stored[me]);
    ever |= only(me), looked &= ~only(me);
}

/* ---- the carrier: what it keeps, and its links */

static u32 epoch, present, leader, took_lease;
static struct link {
    u32 count;
    u64 letter[L][PLACE];
} links[N + 1][N + 1];

int board_room(u32 me, u32 to) {
    for (u32 k = 1; k <= N; k++)
        if (has(to, k) && links[me][k].count == L) return told.full++, lapse == OVERRUN && lapsed();
    return 1;
}

static void put(u64 *to, const u64 *letter) { memcpy(to, letter, PLACE * sizeof *to); }

void board_send(u32 me, u32 to, const u64 *letter) {
    static const char *const KIND[] = {"",       "Collect", "Last",  "Begin",
                                       "Accept", "Commit",  "Lease", "LeaseAck"};
    if (letter[0] == LEASE) took_lease = 0;
    if (is_shown) printf(": %s%s", KIND[letter[0]], fails ? ", which is lost" : "");
    for (u32 k = 1; k <= N && !fails; k++) {
        struct link *link = &links[me][k];
        if (has(to, k) && link->count < L) put(link->letter[link->count++], letter);
    }
}

static void drop_head(struct link *link) {
    link->count--;
    for (u32 k = 0; k < link->count; k++) put(link->letter[k], link->letter[k + 1]);
}

static void repeat_head(struct link *link) {
    for (u32 k = link->count++; k > 0; k--) put(link->letter[k], link->letter[k - 1]);
}

static void swap_heads(struct link *link) {
    u64 head[PLACE];
    put(head, link->letter[0]), put(link->letter[0], link->letter[1]), put(link->letter[1], head);
}

static void end_epoch(void) {
    epoch += epoch % 2 == 0;
    for (u32 c = 1; c <= N && lapse != NOT_TOLD; c++)
        if (has(present, c)) box_over(&boxes[c], epoch);
}

/* What an election makes of a box whose program does not ask for a majority. */
static void elect_anyhow(struct box *b) {
    b->epoch = epoch, b->present = present;
    be_elected(b->row, present, b->me, leader);
    board_store(b->me, b->row);
}

/* Before box c does anything in an epoch it is told of the election. */
static u32 is_due(u32 c) {
    struct box *b = &boxes[c];
    if (epoch % 2 == 1 || !has(present, c)) return 0;
    if (b->epoch == epoch) return 1;
    if (lapse == NOT_TOLD && b->epoch % 2 == 0 && (epoch / 2 + c) % 3 == 0) return lapsed();
    if (lapse == WITHOUT_MAJORITY) return elect_anyhow(b), 1;
    return box_elected(b, epoch, present, leader) == JOURNAL_DONE;
}

static void stop(u32 c, u32 is_lost) {
    present &= ~only(c), told.stops++;
    memset(&boxes[c], 0, sizeof boxes[c]);
    if (is_lost) memcpy(stored[c], before[c], sizeof stored[c]), looked &= ~only(c), lapsed();
    if (lapse != LEFT_OUT || epoch % 2 == 1) return end_epoch();
    lapsed();
    for (u32 k = 1; k <= N; k++)
        if (boxes[k].epoch == epoch) boxes[k].present = present;
}

static void come_back(u32 c, u32 is_lost) {
    if (is_lost) ever &= ~only(c), lapsed();
    box_start(&boxes[c], c);
    present |= only(c), end_epoch();
}

static void elect(u32 c) {
    if (lapse != OUTLIVED || !lapsed()) memset(links, 0, sizeof links);
    if (members(present) < MAJORITY) lapsed();
    epoch++, leader = c, told.elections++;
}

/* The head of a link is handed over; a copy of it, where it is mistaken for another's. */
static void deliver(u32 a, u32 b, u32 sender) {
    u64 letter[PLACE], last = boxes[b].row[LAST];
    put(letter, links[a][b].letter[0]);
    u32 answer = box_mail(&boxes[b], sender, letter);
    if (answer >= JOURNAL_TAKEN && sender == a) drop_head(&links[a][b]);
    if (answer == JOURNAL_TAKEN && letter[0] == LEASE) took_lease |= only(b);
    told.whole += boxes[b].row[FIRST] > last + 1;
    if (is_shown) printf(" (%u)", answer);
}

/* What no carrier may do to a letter or a box. */
static u32 change(u32 a, u32 b, u32 sender) {
    struct link *link = &links[a][b];
    u64 *head = link->letter[0];
    if (lapse == SWAPPED && link->count > 1) return swap_heads(link), lapsed();
    if (lapse == ANOTHER_SENDER && link->count > 0 && sender != b && is_due(b))
        return deliver(a, b, sender), lapsed();
    if (lapse == TOLD_AGAIN && is_due(b))
        return journal_own_elected(boxes[b].row, ROW, SITE(boxes[b]), leader), lapsed();
    if (lapse == ANOTHER_LETTER && link->count > 0 && head[5] > 0)
        return head[5 + head[5]] ^= 64, lapsed();
    return 0;
}

static u32 offers[MOST_EVENTS + 1]; /* who took the offer with this left frame */

static u32 take_offer(u32 c, u32 left) {
    if (box_offer(&boxes[c], left, c) != JOURNAL_DONE) return 0;
    return offers[left] = c;
}

/* Does the event happen? */
static u32 happens(struct event e) {
    u32 a = e.a, is_odd = epoch % 2 == 1, counts = epoch < MOST_EPOCH;
    struct link *link = &links[a][e.b];
    switch (e.kind) {
    case STEP: return is_due(a) && box_step(&boxes[a]) == JOURNAL_DONE;
    case OFFER: return is_due(a) && take_offer(a, e.k);
    case TRIM: return is_due(a) && box_trim(&boxes[a], e.k) == JOURNAL_DONE && ++told.trims;
    case MAIL: return link->count > 0 && is_due(e.b) && (deliver(a, e.b, a), 1);
    case LOSE: return link->count > 0 && (drop_head(link), ++told.lost);
    case REPEAT:
        return link->count > 0 && link->count < L && (repeat_head(link), ++told.repeated);
    case STOP: return has(present, a) && counts && (stop(a, e.k), 1);
    case RETURN: return !has(present, a) && counts && (come_back(a, e.k), 1);
    case TIMEOUT: return !is_odd && counts && (end_epoch(), 1);
    case ELECT:
        if (members(present) < MAJORITY && lapse != WITHOUT_MAJORITY) return 0;
        return is_odd && has(present, a) && (elect(a), 1);
    default: return change(a, e.b, e.k);
    }
}

/* Power may fail when a row is stored: its letter is lost, and the box has stopped. */
static u32 did(struct event e) {
    fails = e.k && (e.kind == STEP || e.kind == MAIL);
    u32 c = e.kind == MAIL ? e.b : e.a, is_done = happens(e);
    if (is_done && fails && epoch < MOST_EPOCH) stop(c, 0), told.cuts++;
    fails = 0, told.events += is_done;
    return is_done;
}

/* ---- demand 3, and who has heard a lease */

static u64 agreed[MOST_EVENTS + 1]; /* what was ever filed as a load */
static u32 filled[MOST_EVENTS + 1]; /* the load that an offer fills */
static u32 known, firsts[N + 1], lasts[N + 1];
static u64 is_lease_seen = 1;
static char wrong[200];

#define WRONG(...) (snprintf(wrong, sizeof wrong, __VA_ARGS__), 0)

static u32 look_at_new(u32 c, u32 k, u32 left, u32 right) {
    if (k != known + 1)
        return WRONG("box %u files load %u, and none has filed %u", c, k, known + 1);
    if (left > MOST_EVENTS || offers[left] != right)
        return WRONG("box %u files %u %u as load %u, and it was not offered", c, left, right, k);
    if (filled[left]) return WRONG("the offer %u %u fills %u and %u", left, right, filled[left], k);
    filled[left] = k;
    return 1;
}

static u32 look_at_load(const struct box *b, u32 k, u64 record) {
    u32 left = (u32)(record >> 32), right = (u32)record;
    if (k > known && lapse == NONE && !look_at_new(b->me, k, left, right)) return 0;
    if (k > known) agreed[known = k] = record, told.loads++;
    if (agreed[k] != record)
        return WRONG("box %u files %u %u as load %u, which was filed as %u %u", b->me, left, right,
                     k, (u32)(agreed[k] >> 32), (u32)agreed[k]);
    if (box_holds(b, k, left, right) == JOURNAL_DONE &&
        box_holds(b, k, left, right + 1) == JOURNAL_UNTRUE)
        return 1;
    return WRONG("box %u does not hold load %u as its row has it", b->me, k);
}

/* What box c has stored: agreement, also over time; no hole; never falls; from one offer each. */
static u32 look_at(u32 c) {
    struct box b = {.me = c, .epoch = 1, .present = EVERYONE};
    memcpy(b.row, stored[c], sizeof b.row);
    u32 first = (u32)b.row[FIRST], last = (u32)b.row[LAST];
    if (lapse == NONE && (first < firsts[c] || last < lasts[c]))
        return WRONG("box %u kept %u to %u, and falls to %u to %u", c, firsts[c], lasts[c], first,
                     last);
    if (first < 1 || (first > 1 && first > last) || b.row[COUNT] + first < last + 1)
        return WRONG("box %u does not keep %u to %u", c, first, last);
    firsts[c] = first, lasts[c] = last, looked |= only(c);
    for (u32 k = first; k <= last; k++)
        if (!look_at_load(&b, k, b.row[RECORDS + k - first])) return 0;
    return 1;
}

/* Whoever is said to have heard the leader's lease has taken one since it began. */
static u32 look_at_lease(void) {
    const struct box *b = &boxes[leader];
    u32 silent = 0;
    if (epoch % 2 == 1 || b->epoch != epoch) return 1;
    if (journal_own_unheard(b->row, ROW, &silent, SITE(*b)) != JOURNAL_DONE) return 1;
    u32 heard = b->present & ~silent & ~only(leader);
    told.heard += heard != 0;
    for (u32 k = 1; k <= N; k++)
        if (has(heard & ~took_lease, k))
            return WRONG("box %u is said to have heard a lease, and has taken none", k);
    return 1;
}

static u32 look(void) {
    for (u32 c = 1; c <= N; c++)
        if (!has(looked, c) && !look_at(c)) return 0;
    return !is_lease_seen || look_at_lease();
}

/* ---- random events, mostly such as can happen */

static u64 state; /* splitmix64 */

static u32 below(u32 n) {
    u64 z = state += 0x9e3779b97f4a7c15;
    z = (z ^ z >> 30) * 0xbf58476d1ce4e5b9, z = (z ^ z >> 27) * 0x94d049bb133111eb;
    return (u32)((z ^ z >> 31) % n);
}

static u32 percent(u32 chance) { return below(100) < chance; }

static u32 some_of(u32 set) {
    u32 c = 1 + below(N);
    while (set && !has(set, c)) c = 1 + below(N);
    return c;
}

/* How much a run is disturbed: some are quiet, others have elections at awkward moments. */
static struct {
    u32 disturb, awkward, lose, blink, few, repeat, slow, trim, lapses;
} style;
static u32 goal; /* who is to be there at the next election */

#define PICK(...) ((u32[]){__VA_ARGS__})[below(sizeof(u32[]){__VA_ARGS__} / sizeof(u32))]

static void pick_style(void) {
    style.disturb = PICK(1, 5, 20, 60), style.awkward = PICK(0, 20, 80, 200);
    style.lose = PICK(0, 30, 70), style.blink = PICK(0, 10, 40), style.few = PICK(0, 60, 90);
    style.repeat = PICK(0, 5, 20), style.slow = below(2 * N), style.trim = PICK(0, 2, 8);
    style.lapses = PICK(5, 20, 50), goal = 0;
}

static u32 is_lapse(enum lapse which) { return lapse == which && percent(style.lapses); }

static struct event presence(u32 c) {
    if (has(present, c)) return (struct event){STOP, c, 0, is_lapse(ROLLED_BACK)};
    return (struct event){RETURN, c, 0, is_lapse(STARTED_ANEW)};
}

/* Often no more than a majority: then two that follow each other may meet in one box. */
static void pick_goal(void) {
    u32 size = percent(style.few) ? MAJORITY : MAJORITY + below(N - MAJORITY + 1);
    if (is_lapse(WITHOUT_MAJORITY)) size = 1 + below(MAJORITY - 1);
    while (members(goal) < size) goal |= 1u << below(N);
}

static struct event between(void) {
    if (!goal) pick_goal();
    if (present && percent(style.blink)) return presence(some_of(present));
    if (present != goal) return presence(some_of(present ^ goal));
    goal = 0;
    return (struct event){ELECT, some_of(present), 0, 0};
}

/* A link with mail, seldom of the slow box: what `kind` does to its head. */
static struct event some_mail(enum kind kind) {
    struct event e = {kind, 0, 0, 0};
    u32 of = 0, slow = percent(5) ? 0 : style.slow;
    for (u32 a = 1; a <= N; a++)
        for (u32 b = 1; b <= N; b++)
            if (links[a][b].count && a != slow && b != slow && below(++of) == 0) e.a = a, e.b = b;
    return e;
}

static u32 power_fails(void) { return below(4000) < style.disturb; }

static struct event leads(const u64 *row, u32 frame) {
    if (row[STATE] == ACTIVE && !row[WAITING] && percent(60))
        return (struct event){OFFER, leader, 0, frame};
    return (struct event){STEP, is_lapse(NOT_TOLD) ? some_of(present) : leader, 0, power_fails()};
}

static struct event likely(u32 frame) {
    const u64 *row = boxes[leader].row;
    u32 is_busy = row[PHASE] == BEGIN || row[PHASE] == COMMIT, is_full = row[COUNT] == J;
    if (epoch % 2 == 1) return between();
    if (below(1000) < style.disturb + (is_busy ? style.awkward : 0)) {
        if (percent(style.lose)) return some_mail(LOSE);
        return percent(40) ? (struct event){TIMEOUT, 0, 0, 0} : presence(some_of(EVERYONE));
    }
    u32 c = is_full && percent(50) ? leader : some_of(present);
    u32 first = (u32)boxes[c].row[FIRST], last = (u32)boxes[c].row[LAST];
    if (first < last && percent(is_full ? 40 : style.trim))
        return (struct event){TRIM, c, 0, first + 1 + below(last - first)};
    struct event mail = some_mail(lapse >= CHANGED && is_lapse(lapse) ? CHANGE : MAIL);
    if (percent(mail.a ? 40 : 97)) return leads(row, frame);
    if (!mail.a) return (struct event){TIMEOUT, 0, 0, 0};
    if (mail.kind == CHANGE) mail.k = some_of(present & ~only(mail.a) & ~only(mail.b));
    else if (percent(style.repeat)) mail.kind = REPEAT;
    else mail.k = power_fails();
    return mail;
}

/* ---- runs */

static u64 events = 2000; /* of a run */

static void begin(void) {
    for (u64 k = 0; k <= events; k++) offers[k] = filled[k] = 0;
    memset(links, 0, sizeof links), memset(firsts, 0, sizeof firsts);
    memset(lasts, 0, sizeof lasts);
    epoch = 1, present = EVERYONE, leader = 1, ever = looked = took_lease = known = 0;
    for (u32 c = 1; c <= N; c++) box_start(&boxes[c], c);
}

static struct event made[MOST_EVENTS], tried[MOST_EVENTS];

/* A run of its own seed: how many events it has where something is wrong, else 0. */
static u32 walk(u64 seed) {
    state = seed * 0x2545f4914f6cdd1d;
    pick_style(), begin();
    for (u32 k = 0; k < events; k++) {
        made[k] = likely(k + 1);
        if (did(made[k]) && !look()) return k + 1;
    }
    return 0;
}

static void show(struct event e) {
    printf("  %s", EVENT[e.kind]);
    if (e.a) printf(" %u", e.a);
    if (e.b) printf(" %u", e.b);
    if (e.kind == OFFER || e.kind == TRIM) printf(" %u", e.k);
    if (e.k && (e.kind == STEP || e.kind == MAIL)) printf(", and power fails");
    if (e.k && (e.kind == STOP || e.kind == RETURN)) printf(", and the last row is lost");
    if (e.kind == CHANGE && lapse == ANOTHER_SENDER) printf(" as from %u", e.k);
}

/* The events from the beginning: is something wrong? */
static u32 is_wrong(const struct event *events, u32 count) {
    begin();
    for (u32 k = 0; k < count; k++) {
        if (is_shown) show(events[k]);
        u32 is_done = did(events[k]);
        if (is_shown) puts(is_done ? "" : ": no");
        if (is_done && !look()) return 1;
    }
    return 0;
}

/* Leaves out ever smaller parts of what was made while something is still wrong. */
static u32 fewest(u32 count) {
    for (u32 part = (count + 1) / 2; part > 0; part /= 2)
        for (u32 at = 0; at < count;) {
            u32 end = at + part < count ? at + part : count, fewer = count - (end - at);
            memcpy(tried, made, at * sizeof *made);
            memcpy(tried + at, made + end, (count - end) * sizeof *made);
            if (is_wrong(tried, fewer)) memcpy(made, tried, (count = fewer) * sizeof *made);
            else at += part;
        }
    return count;
}

static int found(u64 seed, u32 at, u64 is_wanted) {
    printf("%s: seed %lu, event %u, %lu in all: %s\n", LAPSE[lapse], seed, at, told.events, wrong);
    if (!is_wanted) return 1;
    u32 few = fewest(at);
    printf("%u events are enough:\n", few);
    is_shown = 1, is_wrong(made, few);
    puts(wrong);
    return 1;
}

/* All runs are sound; they must have done something. */
static int sound(u64 seed, u64 runs) {
    printf("%s: sound, %lu runs from seed %lu, %lu events\n", LAPSE[lapse], runs, seed,
           told.events);
    if (lapse != NONE) printf("  the duty was not kept %lu times\n", told.lapses);
    printf("  %lu loads filed, %lu elections, %lu stops, %lu between a row and its letter,\n",
           told.loads, told.elections, told.stops, told.cuts);
    printf("  %lu letters lost, %lu repeated, %lu turns for which a link was full,\n", told.lost,
           told.repeated, told.full);
    printf("  %lu trims, %lu books taken whole, %lu times some box had heard a lease\n", told.trims,
           told.whole, told.heard);
    u32 mail = told.lost > runs && told.repeated > runs && told.full > runs && told.cuts > runs;
    u32 much = mail && told.loads > runs && told.trims > runs && told.whole > runs;
    if (much && told.lapses + told.heard > runs) return 0;
    return puts("too little has happened"), 3;
}

/* ---- the program */

/* What follows the name, or 0. */
static const char *after(const char *word, const char *name) {
    while (*name && *word == *name) word++, name++;
    return *name ? 0 : word;
}

static int numbered(const char *word, const char *name, u64 *number) {
    const char *digit = after(word, name);
    if (!digit || !*digit) return 0;
    for (*number = 0; *digit >= '0' && *digit <= '9'; digit++)
        *number = *number * 10 + (u64)(*digit - '0');
    return *digit == 0;
}

static int named(const char *name) {
    for (u32 k = 0; name && k < LAPSES; k++) {
        const char *rest = after(name, LAPSE[k]);
        if (rest && !*rest) return lapse = (enum lapse)k, 1;
    }
    return 0;
}

int main(int count, char **words) {
    u64 seed = 1, runs = 200, is_wanted = 0;
    for (int k = 1; k < count; k++) {
        const char *word = words[k];
        if (numbered(word, "seed=", &seed) || numbered(word, "runs=", &runs)) continue;
        if (numbered(word, "lease=", &is_lease_seen)) continue;
        if (numbered(word, "events=", &events) && events <= MOST_EVENTS) continue;
        if (numbered(word, "show=", &is_wanted) || named(after(word, "lapse="))) continue;
        return printf("yard: what is %s?\n", word), 2;
    }
    for (u64 k = 0; k < runs; k++) {
        u32 at = walk(seed + k);
        if (at) return found(seed + k, at, is_wanted);
    }
    return sound(seed, runs);
}
