/* One box by itself. board_.. is what its board does for it. */
#include "journal.h"

enum { N = 5, J = 6, L = 3, ROW = JOURNAL_ROW_WORDS(J), PLACE = JOURNAL_PLACE_WORDS(J) };

/* Its number, the epoch and the present boxes that it was told last, and its row. */
struct box {
    uint32_t me, epoch, present;
    uint64_t row[ROW];
};

int board_load(uint32_t me, uint64_t *row);         /* what was stored last; 0: nothing ever was */
void board_store(uint32_t me, const uint64_t *row); /* all or nothing; it returns once it is safe */
int board_room(uint32_t me, uint32_t to);           /* has the link to each box of the set room? */
void board_send(uint32_t me, uint32_t to, const uint64_t *letter);

/* A turn is done on a copy: the box after it, and the letter that goes to each box of a set. */
struct turn {
    struct box next;
    uint64_t out[PLACE];
    uint32_t to;
};

#define SITE(b) N, J, L, (b).epoch, (b).present, (b).me
#define TURN(t) (t).next.row, ROW, (t).out, PLACE, &(t).to, SITE((t).next)

/* It counts once its letter has room: the row is stored, and only then does the letter leave. */
static uint32_t settle(struct box *b, const struct turn *t, uint32_t answer) {
    if (answer != JOURNAL_DONE && answer != JOURNAL_TAKEN) return answer;
    if (!board_room(b->me, t->to)) return JOURNAL_LINK;
    board_store(b->me, t->next.row);
    *b = t->next;
    if (t->to != 0) board_send(b->me, t->to, t->out);
    return answer;
}

/* Is load k filed here with these frames? */
uint32_t box_holds(const struct box *b, uint32_t k, uint32_t left, uint32_t right) {
    return journal_own_holds(b->row, ROW, SITE(*b), k, left, right);
}

/* Power is on. Only a box that never stored a row gets a fresh one. */
uint32_t box_start(struct box *b, uint32_t me) {
    *b = (struct box){.me = me, .epoch = 1, .present = (1 << N) - 1};
    if (board_load(me, b->row))
        return box_holds(b, 0, 0, 0) == JOURNAL_UNTRUE ? JOURNAL_DONE : JOURNAL_FORM;
    uint32_t answer = journal_own_fresh(b->row, ROW, N, J, L);
    if (answer == JOURNAL_DONE) board_store(me, b->row);
    return answer;
}

/* The epoch is over, and this odd one has begun: every turn is refused (3) until an election. */
void box_over(struct box *b, uint32_t epoch) { b->epoch = epoch > b->epoch ? epoch : b->epoch; }

/* In this epoch box c leads, and these are present. A box is told once. */
uint32_t box_elected(struct box *b, uint32_t epoch, uint32_t present, uint32_t c) {
    struct turn t = {*b, {0}, 0};
    if (epoch <= b->epoch) return JOURNAL_CONDITION;
    t.next.epoch = epoch, t.next.present = present;
    return settle(b, &t, journal_own_elected(t.next.row, ROW, SITE(t.next), c));
}

/* A letter came. Where the answer is a refusal it stays at the head of its link. */
uint32_t box_mail(struct box *b, uint32_t sender, const uint64_t *letter) {
    struct turn t = {*b, {0}, 0};
    return settle(b, &t, journal_own_mail(t.next.row, ROW, letter, PLACE, t.out, PLACE, &t.to,
                                          SITE(*b), sender));
}

/* Two frames were taken. A leader with none waiting keeps them until it proposes them. */
uint32_t box_offer(struct box *b, uint32_t left, uint32_t right) {
    struct turn t = {*b, {0}, 0};
    return settle(b, &t, journal_own_offer(TURN(t), left, right));
}

/* The loads below k are no longer needed here: their room is used again. */
uint32_t box_trim(struct box *b, uint32_t k) {
    struct turn t = {*b, {0}, 0};
    return settle(b, &t, journal_own_trim(TURN(t), k));
}

typedef uint32_t step(uint64_t *, size_t, uint64_t *, size_t, uint32_t *, uint32_t, uint32_t,
                      uint32_t, uint32_t, uint32_t, uint32_t);

/* The first step that is not out of turn (3). For a box that does not lead all are. */
uint32_t box_step(struct box *b) {
    static step *const steps[] = {journal_own_recover, journal_own_collect, journal_own_ready,
                                  journal_own_agree,   journal_own_finish,  journal_own_heard,
                                  journal_own_propose};
    uint32_t answer = JOURNAL_CONDITION;
    for (size_t k = 0; answer == JOURNAL_CONDITION && k < sizeof steps / sizeof *steps; k++) {
        struct turn t = {*b, {0}, 0};
        answer = settle(b, &t, steps[k](TURN(t)));
    }
    return answer;
}
