/* Calls every exported function at its edges and at the largest sizes, and compares each answer
 * with the paper's. A refused call must leave every lent word, a discarded mail every word but the
 * two of its link that say where the head stands and how many there are, and no call may touch the
 * words behind what it was lent. Ends with 1 where anything differs. */
#include "journal.h"
#include <stdio.h>
#include <stdlib.h>
#include <string.h>

#include "index.h"

enum { GUARD = 8 }; /* words behind each array */
static const uint64_t GUARDED = 0x5ca1ab1e0ddba115u;

static int checks, failures;

/* One lent array: its words, how many are lent, and what they were before the call. */
typedef struct {
    uint64_t *words, *before;
    size_t size, lent;
} Array;

static void check(int line, const char *what, uint64_t got, uint64_t want) {
    checks++;
    if (got != want) {
        failures++;
        printf("line %d: %s is %lu and not %lu\n", line, what, got, want);
    }
}

static Array lend(size_t size) {
    Array a = {malloc((size + GUARD) * sizeof(uint64_t)), malloc((size + GUARD) * sizeof(uint64_t)),
               size, size};
    for (size_t i = 0; i < size; i++) a.words[i] = 0;
    for (size_t i = 0; i < GUARD; i++) a.words[size + i] = GUARDED;
    return a;
}

static void release(Array a) {
    free(a.words);
    free(a.before);
}

static void keep(Array a) { memcpy(a.before, a.words, (a.size + GUARD) * sizeof(uint64_t)); }

/* From word `from` on nothing has changed. */
static int stays(Array a, size_t from) {
    return memcmp(a.words + from, a.before + from, (a.size + GUARD - from) * sizeof(uint64_t)) == 0;
}

/* The site under test, and the row and the two trays of a box by itself. */
static Array site, links, row, letter, out;
static uint32_t to, to_before;

static int is_refusal(uint32_t answer) { return 1 <= answer && answer <= 14; }

static int is_discard(uint32_t answer) {
    return JOURNAL_DISCARDED_ROLE <= answer && answer <= JOURNAL_DISCARDED_PLACE;
}

/* What a discarded mail from a to b leaves: in the copy of the links the head is handed over. */
static void hand_over(uint32_t a, uint32_t b) {
    size_t n = site.before[0], j = site.before[1], l = site.before[2];
    size_t pair = (a - 1) * (n - 1) + (b < a ? b - 1 : b - 2);
    uint64_t *link = links.before + pair * (2 + l * JOURNAL_PLACE_WORDS(j));
    link[0] = (link[0] + 1) % l;
    link[1]--;
}

static void settle(int line, const char *what, uint32_t got, uint32_t want) {
    check(line, what, got, want);
    int all = is_refusal(want) || is_discard(want);
    check(line, "site stays", stays(site, all ? 0 : site.lent), 1);
    check(line, "links stay", stays(links, all ? 0 : links.lent), 1);
}

static void settle_own(int line, const char *what, uint32_t got, uint32_t want, uint32_t set) {
    check(line, what, got, want);
    int refused = is_refusal(want), all = refused || is_discard(want);
    check(line, "row stays", stays(row, all ? 0 : row.lent), 1);
    check(line, "letter stays", stays(letter, 0), 1);
    check(line, "out stays", stays(out, set == 0 || all ? 0 : out.lent), 1);
    check(line, "to", to, refused ? to_before : set);
}

#define ON site.words, site.lent, links.words, links.lent
#define SITE(want, call)                                                                           \
    do {                                                                                           \
        keep(site), keep(links);                                                                   \
        settle(__LINE__, #call, call, want);                                                       \
    } while (0)
#define DISCARD(want, a, b)                                                                        \
    do {                                                                                           \
        keep(site), keep(links), hand_over(a, b);                                                  \
        settle(__LINE__, "deliver " #a " " #b, journal_deliver(ON, a, b), want);                   \
    } while (0)
#define ROW row.words, row.lent, out.words, out.lent, &to
#define MAIL row.words, row.lent, letter.words, letter.lent, out.words, out.lent, &to
#define OWN(want, set, call)                                                                       \
    do {                                                                                           \
        keep(row), keep(letter), keep(out), to_before = to;                                        \
        settle_own(__LINE__, #call, call, want, set);                                              \
    } while (0)
/* Which boxes have not answered a lease: a question leaves every word, and where it is refused the
 * set too. */
#define SILENT(want, c, boxes)                                                                     \
    do {                                                                                           \
        uint32_t set = 77;                                                                         \
        keep(site), keep(links);                                                                   \
        check(__LINE__, "unheard " #c, journal_unheard(ON, c, &set), want);                        \
        check(__LINE__, "the silent boxes", set, boxes);                                           \
        check(__LINE__, "site stays", stays(site, 0) && stays(links, 0), 1);                       \
    } while (0)
/* Which load has a frame: a question leaves every word, and where it is refused the number too. */
#define FIND(want, c, left, load)                                                                  \
    do {                                                                                           \
        uint32_t number = 77;                                                                      \
        keep(site), keep(links);                                                                   \
        check(__LINE__, "find " #c " " #left, journal_find(ON, c, left, &number), want);           \
        check(__LINE__, "the load", number, load);                                                 \
        check(__LINE__, "site stays", stays(site, 0) && stays(links, 0), 1);                       \
    } while (0)
/* A run: where it is refused, and where no step is used, every word stays, and where it is refused
 * the number behind `used` too. */
#define RUN(want, steps, count)                                                                    \
    do {                                                                                           \
        uint32_t used = 77;                                                                        \
        keep(site), keep(links);                                                                   \
        uint32_t got = journal_run(ON, steps, &used);                                              \
        settle(__LINE__, "run " #steps, got, want);                                                \
        check(__LINE__, "the steps used", used, is_refusal(want) ? 77 : count);                    \
        if (count == 0) check(__LINE__, "site stays", stays(site, 0) && stays(links, 0), 1);       \
    } while (0)
#define WORD(array, at, want) check(__LINE__, #array " " #at, array.words[at], want)

static void lend_site(uint32_t n, uint32_t j, uint32_t l) {
    site = lend(journal_site_words(n, j, l));
    links = lend(journal_links_words(n, j, l));
}

static void release_site(void) {
    release(site);
    release(links);
}

static void word_counts(void) {
    static const uint32_t loads[] = {1, 4, 4096}, mails[] = {1, 2, 16};
    for (uint32_t n = 1; n <= 5; n++)
        for (int i = 0; i < 3; i++)
            for (int k = 0; k < 3; k++) {
                uint32_t j = loads[i], l = mails[k];
                check(__LINE__, "site words", journal_site_words(n, j, l), JOURNAL_SITE_WORDS(n, j));
                check(__LINE__, "links words", journal_links_words(n, j, l),
                      JOURNAL_LINKS_WORDS(n, j, l));
            }
    static const uint32_t bad[][3] = {{0, 4, 2}, {6, 4, 2}, {3, 0, 2}, {3, 4097, 2}, {3, 4, 0},
                                      {3, 4, 17}, {UINT32_MAX, 4, 2}, {3, UINT32_MAX, 2},
                                      {3, 4, UINT32_MAX}, {UINT32_MAX, UINT32_MAX, UINT32_MAX}};
    lend_site(3, 4, 2);
    for (int i = 0; i < 10; i++) {
        uint32_t n = bad[i][0], j = bad[i][1], l = bad[i][2];
        check(__LINE__, "site words", journal_site_words(n, j, l), 0);
        check(__LINE__, "links words", journal_links_words(n, j, l), 0);
        SITE(JOURNAL_SIZES, journal_fresh(ON, n, j, l));
    }
    release_site();
}

/* Too few words: 12 for a fresh site, 1 for every other call. */
static void short_arrays(void) {
    lend_site(3, 4, 2);
    SITE(JOURNAL_FORM, journal_elect(ON, 1)); /* words of 0 are no site */
    SITE(JOURNAL_DONE, journal_fresh(ON, 3, 4, 2));
    for (int i = 0; i < 4; i++) {
        site.lent = i == 2 ? 0 : JOURNAL_SITE_WORDS(3, 4) - (i == 0);
        links.lent = i == 1 ? 131 : i == 3 ? 0 : 132;
        SITE(JOURNAL_BUFFER, journal_fresh(ON, 3, 4, 2));
        SITE(JOURNAL_SIZES, journal_fresh(ON, 3, 4, 17));
        SITE(JOURNAL_FORM, journal_elect(ON, 9));
        SITE(JOURNAL_FORM, journal_deliver(ON, 1, 1));
        SITE(JOURNAL_FORM, journal_repeat(ON, 1, 1));
        SITE(JOURNAL_FORM, journal_trim(ON, 9, 0));
        SITE(JOURNAL_FORM, journal_heard(ON, 9));
        SILENT(JOURNAL_FORM, 9, 77);
        RUN(JOURNAL_FORM, 200, 77);
        SITE(JOURNAL_FORM, journal_holds(ON, 9, 0, 0, 0));
        FIND(JOURNAL_FORM, 9, 0, 77);
    }
    site.lent = JOURNAL_SITE_WORDS(3, 4), links.lent = JOURNAL_LINKS_WORDS(3, 4, 2);
    SITE(JOURNAL_DONE, journal_elect(ON, 1));
    release_site();
}

/* Box numbers outside 1 to n, in every call. */
static void box_numbers(void) {
    lend_site(3, 4, 2);
    SITE(JOURNAL_DONE, journal_fresh(ON, 3, 4, 2));
    static const uint32_t bad[] = {0, 4, UINT32_MAX};
    for (int i = 0; i < 3; i++) {
        uint32_t c = bad[i];
        SITE(JOURNAL_BOX, journal_elect(ON, c));
        SITE(JOURNAL_BOX, journal_recover(ON, c));
        SITE(JOURNAL_BOX, journal_collect(ON, c));
        SITE(JOURNAL_BOX, journal_ready(ON, c));
        SITE(JOURNAL_BOX, journal_offer(ON, c, 0, 0));
        SITE(JOURNAL_BOX, journal_propose(ON, c));
        SITE(JOURNAL_BOX, journal_agree(ON, c));
        SITE(JOURNAL_BOX, journal_finish(ON, c));
        SITE(JOURNAL_BOX, journal_heard(ON, c));
        SITE(JOURNAL_BOX, journal_trim(ON, c, 2));
        SITE(JOURNAL_BOX, journal_stop(ON, c));
        SITE(JOURNAL_BOX, journal_return(ON, c));
        SITE(JOURNAL_BOX, journal_timeout(ON, c));
        SITE(JOURNAL_BOX, journal_lose(ON, c, 1));
        SITE(JOURNAL_BOX, journal_lose(ON, 1, c));
        SITE(JOURNAL_BOX, journal_repeat(ON, c, 1));
        SITE(JOURNAL_BOX, journal_repeat(ON, 1, c));
        SITE(JOURNAL_BOX, journal_deliver(ON, c, 1));
        SITE(JOURNAL_BOX, journal_deliver(ON, 1, c));
        SITE(JOURNAL_BOX, journal_holds(ON, c, 1, 7, 8));
        SILENT(JOURNAL_BOX, c, 77);
    }
    SITE(JOURNAL_BOX, journal_lose(ON, 2, 2));
    SITE(JOURNAL_BOX, journal_repeat(ON, 1, 1));
    SITE(JOURNAL_BOX, journal_deliver(ON, 3, 3));
    SITE(JOURNAL_FRAME, journal_offer(ON, 1, 0, 7));
    SITE(JOURNAL_FRAME, journal_offer(ON, 1, 7, 0));
    SITE(JOURNAL_CONDITION, journal_offer(ON, 1, UINT32_MAX, 1));
    release_site();
}

/* Each call once where it is refused and once where it is done. */
static void each_call(void) {
    lend_site(2, 1, 2);
    SITE(JOURNAL_DONE, journal_fresh(ON, 2, 1, 2));
    SITE(JOURNAL_CONDITION, journal_recover(ON, 1));
    SITE(JOURNAL_DONE, journal_elect(ON, 1));
    WORD(site, 3, 2);
    SITE(JOURNAL_CONDITION, journal_elect(ON, 1));
    SITE(JOURNAL_CONDITION, journal_collect(ON, 1));
    SITE(JOURNAL_DONE, journal_recover(ON, 1));
    WORD(site, 5 + 3, 1);
    SITE(JOURNAL_DONE, journal_collect(ON, 1));
    SITE(JOURNAL_CONDITION, journal_ready(ON, 1));
    SITE(JOURNAL_TAKEN, journal_deliver(ON, 1, 2));
    SITE(JOURNAL_TAKEN, journal_deliver(ON, 2, 1));
    SITE(JOURNAL_DONE, journal_ready(ON, 1));
    SITE(JOURNAL_TAKEN, journal_deliver(ON, 1, 2));
    SITE(JOURNAL_CONDITION, journal_heard(ON, 1));
    SITE(JOURNAL_TAKEN, journal_deliver(ON, 2, 1));
    SITE(JOURNAL_DONE, journal_heard(ON, 1));
    SITE(JOURNAL_CONDITION, journal_propose(ON, 1));
    SITE(JOURNAL_DONE, journal_offer(ON, 1, 71, 72));
    SITE(JOURNAL_CONDITION, journal_offer(ON, 1, 71, 72));
    SITE(JOURNAL_DONE, journal_propose(ON, 1));
    SITE(JOURNAL_CONDITION, journal_agree(ON, 1));
    SITE(JOURNAL_TAKEN, journal_deliver(ON, 1, 2));
    SITE(JOURNAL_TAKEN, journal_deliver(ON, 2, 1));
    SITE(JOURNAL_CONDITION, journal_finish(ON, 1));
    SITE(JOURNAL_DONE, journal_agree(ON, 1));
    SITE(JOURNAL_DONE, journal_finish(ON, 1));
    SITE(JOURNAL_UNTRUE, journal_holds(ON, 2, 1, 71, 72));
    SITE(JOURNAL_TAKEN, journal_deliver(ON, 1, 2));
    SITE(JOURNAL_DONE, journal_holds(ON, 2, 1, 71, 72));
    SITE(JOURNAL_UNTRUE, journal_holds(ON, 2, 1, 72, 71));
    SITE(JOURNAL_UNTRUE, journal_holds(ON, 2, 0, 71, 72));
    SITE(JOURNAL_UNTRUE, journal_holds(ON, 2, 2, 71, 72));
    SITE(JOURNAL_UNTRUE, journal_holds(ON, 2, 1, 0, 72));
    SITE(JOURNAL_DONE, journal_lose(ON, 1, 2));
    SITE(JOURNAL_CONDITION, journal_lose(ON, 1, 2));
    SITE(JOURNAL_CONDITION, journal_deliver(ON, 1, 2));
    SITE(JOURNAL_DONE, journal_offer(ON, 1, 73, 74));
    SITE(JOURNAL_BOOK, journal_propose(ON, 1));
    SITE(JOURNAL_CONDITION, journal_trim(ON, 1, 2)); /* with J = 1 no book goes past number 1 */
    SITE(JOURNAL_CONDITION, journal_return(ON, 2));
    SITE(JOURNAL_DONE, journal_stop(ON, 2));
    SITE(JOURNAL_CONDITION, journal_stop(ON, 2));
    SITE(JOURNAL_MAJORITY, journal_elect(ON, 1));
    SITE(JOURNAL_DONE, journal_return(ON, 2));
    SITE(JOURNAL_CONDITION, journal_timeout(ON, 1));
    SITE(JOURNAL_DONE, journal_elect(ON, 2));
    SITE(JOURNAL_DONE, journal_timeout(ON, 1));
    WORD(site, 3, 5);
    site.words[3] = 1000000;
    SITE(JOURNAL_EPOCH, journal_timeout(ON, 1));
    SITE(JOURNAL_EPOCH, journal_stop(ON, 1));
    site.words[5 + JOURNAL_ROW_WORDS(1) + 3] = 999999902; /* the promise of box 2, who leads */
    SITE(JOURNAL_NEW_PN, journal_recover(ON, 2));
    site.words[5 + JOURNAL_ROW_WORDS(1) + 3] = 999999901;
    SITE(JOURNAL_DONE, journal_recover(ON, 2));
    WORD(site, 5 + JOURNAL_ROW_WORDS(1) + 3, 999999902);
    site.words[5 + JOURNAL_ROW_WORDS(1) + 1] = UINT64_MAX; /* its state */
    SITE(JOURNAL_FORM, journal_recover(ON, 2));
    release_site();
}

/* In an odd epoch a site is put at rest: the promise stays, and the mail is gone. */
static void rests(void) {
    lend_site(2, 1, 2);
    SITE(JOURNAL_FORM, journal_rest(ON)); /* words of 0 are no site */
    SITE(JOURNAL_DONE, journal_fresh(ON, 2, 1, 2));
    SITE(JOURNAL_DONE, journal_rest(ON));
    SITE(JOURNAL_DONE, journal_elect(ON, 1));
    SITE(JOURNAL_DONE, journal_recover(ON, 1));
    SITE(JOURNAL_DONE, journal_collect(ON, 1));
    SITE(JOURNAL_CONDITION, journal_rest(ON));
    SITE(JOURNAL_DONE, journal_timeout(ON, 1));
    WORD(site, 5, 1);
    WORD(links, 1, 1);
    SITE(JOURNAL_DONE, journal_rest(ON));
    WORD(site, 3, 3);
    WORD(site, 5, 0);
    WORD(site, 5 + 2, 0);
    WORD(site, 5 + 3, 1);
    WORD(site, 5 + 10, 0);
    WORD(links, 1, 0);
    SITE(JOURNAL_CONDITION, journal_lose(ON, 1, 2));
    SITE(JOURNAL_DONE, journal_elect(ON, 2));
    release_site();
}

/* Link 1 to 2, with room for two, holds one mail twice; the mail has no records. */
static void twice(int line) {
    const uint64_t *place = links.words + 2;
    check(line, "mails", links.words[1], 2);
    check(line, "a copy", memcmp(place, place + JOURNAL_PLACE_WORDS(1), sizeof(uint64_t[6])), 0);
}

/* A mail stands twice, in either parity; a box that is heard twice does not stand for two. */
static void repeats(void) {
    lend_site(3, 1, 2);
    SITE(JOURNAL_DONE, journal_fresh(ON, 3, 1, 2));
    SITE(JOURNAL_CONDITION, journal_repeat(ON, 1, 2));
    SITE(JOURNAL_DONE, journal_elect(ON, 1));
    SITE(JOURNAL_DONE, journal_recover(ON, 1));
    SITE(JOURNAL_DONE, journal_collect(ON, 1));
    WORD(site, 5 + 10, 1);
    SITE(JOURNAL_CONDITION, journal_repeat(ON, 2, 1));
    SITE(JOURNAL_DONE, journal_repeat(ON, 1, 2));
    twice(__LINE__);
    SITE(JOURNAL_LINK, journal_repeat(ON, 1, 2));
    SITE(JOURNAL_TAKEN, journal_deliver(ON, 1, 2));
    SITE(JOURNAL_TAKEN, journal_deliver(ON, 1, 2));
    SITE(JOURNAL_TAKEN, journal_deliver(ON, 2, 1));
    SITE(JOURNAL_TAKEN, journal_deliver(ON, 2, 1));
    WORD(site, 5 + 10, 3);
    SITE(JOURNAL_CONDITION, journal_ready(ON, 1));
    SITE(JOURNAL_TAKEN, journal_deliver(ON, 1, 3));
    SITE(JOURNAL_DONE, journal_repeat(ON, 3, 1));
    SITE(JOURNAL_TAKEN, journal_deliver(ON, 3, 1));
    WORD(site, 5 + 10, 7);
    SITE(JOURNAL_TAKEN, journal_deliver(ON, 3, 1)); /* all have answered: taken all the same */
    WORD(site, 5 + 10, 7);
    SITE(JOURNAL_DONE, journal_ready(ON, 1));
    SITE(JOURNAL_DONE, journal_timeout(ON, 1));
    SITE(JOURNAL_DONE, journal_repeat(ON, 1, 2));
    twice(__LINE__);
    site.words[5 + 10] = 8; /* box 4 has answered, and there are three */
    SITE(JOURNAL_FORM, journal_repeat(ON, 1, 3));
    site.words[5 + 10] = 0;
    SITE(JOURNAL_DONE, journal_repeat(ON, 1, 3));
    release_site();
}

/* Who has heard the lease of box 1 of three, and who is silent; a Lease is answered again and again,
 * until the link back is full. */
static void leases(void) {
    lend_site(3, 1, 2);
    SITE(JOURNAL_DONE, journal_fresh(ON, 3, 1, 2));
    SILENT(JOURNAL_CONDITION, 1, 77);
    SITE(JOURNAL_CONDITION, journal_heard(ON, 1));
    SITE(JOURNAL_DONE, journal_elect(ON, 1));
    SITE(JOURNAL_DONE, journal_recover(ON, 1));
    SITE(JOURNAL_DONE, journal_collect(ON, 1));
    for (uint32_t b = 2; b <= 3; b++) {
        SITE(JOURNAL_TAKEN, journal_deliver(ON, 1, b));
        SITE(JOURNAL_TAKEN, journal_deliver(ON, b, 1));
    }
    SILENT(JOURNAL_CONDITION, 1, 77);
    SITE(JOURNAL_DONE, journal_ready(ON, 1));
    WORD(site, 5 + 12, 1);
    SILENT(JOURNAL_DONE, 1, 6);
    SILENT(JOURNAL_CONDITION, 2, 77);
    SILENT(JOURNAL_BOX, 4, 77);
    SITE(JOURNAL_CONDITION, journal_heard(ON, 1));
    for (int i = 0; i < 2; i++) {
        SITE(JOURNAL_DONE, journal_repeat(ON, 1, 2));
        SITE(JOURNAL_TAKEN, journal_deliver(ON, 1, 2));
    }
    SITE(JOURNAL_LINK, journal_deliver(ON, 1, 2)); /* two answers fill the link back */
    SILENT(JOURNAL_DONE, 1, 6);
    SITE(JOURNAL_TAKEN, journal_deliver(ON, 2, 1));
    WORD(site, 5 + 12, 3);
    SILENT(JOURNAL_DONE, 1, 4);
    SITE(JOURNAL_TAKEN, journal_deliver(ON, 1, 2));
    SITE(JOURNAL_TAKEN, journal_deliver(ON, 2, 1)); /* box 2 again: it stands for one */
    WORD(site, 5 + 12, 3);
    SITE(JOURNAL_CONDITION, journal_heard(ON, 1));
    SITE(JOURNAL_TAKEN, journal_deliver(ON, 1, 3));
    SITE(JOURNAL_TAKEN, journal_deliver(ON, 3, 1));
    WORD(site, 5 + 12, 7), WORD(site, 5 + 2, 3);
    SILENT(JOURNAL_DONE, 1, 0);
    SITE(JOURNAL_CONDITION, journal_heard(ON, 2));
    site.words[5 + 12] = 8; /* box 4 has heard it, and there are three */
    SITE(JOURNAL_FORM, journal_heard(ON, 1));
    SILENT(JOURNAL_FORM, 1, 77);
    site.words[5 + 12] = 7;
    SITE(JOURNAL_DONE, journal_heard(ON, 1));
    WORD(site, 5 + 2, 6);
    SILENT(JOURNAL_DONE, 1, 0);
    SITE(JOURNAL_CONDITION, journal_heard(ON, 1));
    DISCARD(JOURNAL_DISCARDED_PHASE, 2, 1);
    site.words[5 + 2] = 7; /* no phase */
    SITE(JOURNAL_FORM, journal_heard(ON, 1));
    site.words[5 + 2] = 6;
    SITE(JOURNAL_DONE, journal_offer(ON, 1, 71, 72));
    SITE(JOURNAL_DONE, journal_propose(ON, 1));
    SILENT(JOURNAL_CONDITION, 1, 77);
    SITE(JOURNAL_DONE, journal_timeout(ON, 1));
    site.words[5 + 2] = 3;
    SITE(JOURNAL_CONDITION, journal_heard(ON, 1)); /* an odd epoch */
    SILENT(JOURNAL_CONDITION, 1, 77);
    release_site();
}

/* Box 1 of two leads, is active, and agrees on one load more; box 2 is told. */
static void load(uint32_t left, uint32_t right) {
    SITE(JOURNAL_DONE, journal_offer(ON, 1, left, right));
    SITE(JOURNAL_DONE, journal_propose(ON, 1));
    SITE(JOURNAL_TAKEN, journal_deliver(ON, 1, 2));
    SITE(JOURNAL_TAKEN, journal_deliver(ON, 2, 1));
    SITE(JOURNAL_DONE, journal_agree(ON, 1));
    SITE(JOURNAL_TAKEN, journal_deliver(ON, 1, 2));
    SITE(JOURNAL_DONE, journal_finish(ON, 1));
    SITE(JOURNAL_TAKEN, journal_deliver(ON, 1, 2));
    SITE(JOURNAL_TAKEN, journal_deliver(ON, 2, 1));
}

/* Box c keeps the loads first to last, and `more` behind them; J is 2. */
static void put_kept(uint32_t c, uint64_t first, uint64_t last, uint64_t more) {
    uint64_t *r = site.words + 5 + (c - 1) * JOURNAL_ROW_WORDS(2);
    r[4] = last, r[5] = first, r[21] = last + 1 - first + more;
    for (uint64_t i = 0; i < 2; i++) r[22 + i] = (first + i) << 32 | 7;
    put_index(r, 2);
}

/* What box c keeps: its last and first, how many records, and the frames of the first of them. */
static void kept(int line, uint32_t c, uint64_t last, uint64_t first, uint64_t count, uint64_t r) {
    const uint64_t *b = site.words + 5 + (c - 1) * JOURNAL_ROW_WORDS(2);
    check(line, "last", b[4], last);
    check(line, "first", b[5], first);
    check(line, "count", b[21], count);
    check(line, "the first record", b[22], r);
}

/* A mail with a first: the head of link 1 to 2, the only one there; J is 2 and L is 4. */
static void post_kept(uint64_t kind, uint64_t pn, uint64_t last, uint64_t first, uint64_t count) {
    uint64_t r = first << 32 | 7, next = (first + 1) << 32 | 7;
    uint64_t mail[] = {0, 1, kind, pn, last, first, 0, count, r, next};
    memcpy(links.words, mail, sizeof mail);
}

/* Old loads are dropped, and their room is used again. */
static void trims(void) {
    enum { TOP = 1000000000 };
    lend_site(2, 2, 4);
    SITE(JOURNAL_DONE, journal_fresh(ON, 2, 2, 4));
    WORD(site, 5 + 5, 1);
    SITE(JOURNAL_DONE, journal_elect(ON, 1));
    SITE(JOURNAL_DONE, journal_recover(ON, 1));
    SITE(JOURNAL_DONE, journal_collect(ON, 1));
    SITE(JOURNAL_TAKEN, journal_deliver(ON, 1, 2));
    SITE(JOURNAL_TAKEN, journal_deliver(ON, 2, 1));
    SITE(JOURNAL_DONE, journal_ready(ON, 1));
    SITE(JOURNAL_TAKEN, journal_deliver(ON, 1, 2));
    SITE(JOURNAL_TAKEN, journal_deliver(ON, 2, 1));
    SITE(JOURNAL_CONDITION, journal_trim(ON, 1, 1));
    load(71, 72), load(73, 74);
    SITE(JOURNAL_DONE, journal_offer(ON, 1, 75, 76));
    SITE(JOURNAL_BOOK, journal_propose(ON, 1));
    static const uint32_t bad[] = {0, 1, 3, UINT32_MAX};
    for (int i = 0; i < 4; i++) SITE(JOURNAL_CONDITION, journal_trim(ON, 2, bad[i]));
    SITE(JOURNAL_DONE, journal_trim(ON, 2, 2)); /* it need not lead */
    kept(__LINE__, 2, 2, 2, 1, 73ul << 32 | 74);
    SITE(JOURNAL_CONDITION, journal_trim(ON, 2, 2));
    SITE(JOURNAL_UNTRUE, journal_holds(ON, 2, 1, 71, 72));
    SITE(JOURNAL_DONE, journal_holds(ON, 2, 2, 73, 74));
    SITE(JOURNAL_DONE, journal_holds(ON, 1, 1, 71, 72));
    SITE(JOURNAL_BOOK, journal_propose(ON, 1)); /* the leader's own book is full still */
    SITE(JOURNAL_DONE, journal_trim(ON, 1, 2));
    SITE(JOURNAL_DONE, journal_propose(ON, 1));
    kept(__LINE__, 1, 2, 2, 2, 73ul << 32 | 74);
    SITE(JOURNAL_TAKEN, journal_deliver(ON, 1, 2));
    SITE(JOURNAL_TAKEN, journal_deliver(ON, 2, 1));
    SITE(JOURNAL_DONE, journal_agree(ON, 1));
    SITE(JOURNAL_TAKEN, journal_deliver(ON, 1, 2));
    SITE(JOURNAL_DONE, journal_finish(ON, 1));
    SITE(JOURNAL_TAKEN, journal_deliver(ON, 1, 2));
    SITE(JOURNAL_TAKEN, journal_deliver(ON, 2, 1));
    SITE(JOURNAL_DONE, journal_holds(ON, 2, 3, 75, 76));
    /* Box 2 keeps 2 and 3: there is room for a Begin only where its first raises that of box 2. */
    post_kept(3, 1, 3, 2, 1);
    SITE(JOURNAL_BOOK, journal_deliver(ON, 1, 2));
    post_kept(3, 1, 3, 3, 1);
    SITE(JOURNAL_TAKEN, journal_deliver(ON, 1, 2));
    kept(__LINE__, 2, 3, 3, 2, 75ul << 32 | 76);
    SITE(JOURNAL_DONE, journal_lose(ON, 2, 1));
    /* Commits: one that goes on from there, one whose first lies beyond last+1, one that raises
     * first alone, one behind. */
    post_kept(5, 1, 4, 3, 2);
    SITE(JOURNAL_TAKEN, journal_deliver(ON, 1, 2));
    kept(__LINE__, 2, 4, 3, 2, 75ul << 32 | 76);
    SITE(JOURNAL_DONE, journal_holds(ON, 2, 4, 4, 7));
    post_kept(5, 1, 9, 8, 2);
    SITE(JOURNAL_TAKEN, journal_deliver(ON, 1, 2));
    kept(__LINE__, 2, 9, 8, 2, 8ul << 32 | 7);
    post_kept(5, 1, 9, 9, 1);
    SITE(JOURNAL_TAKEN, journal_deliver(ON, 1, 2));
    kept(__LINE__, 2, 9, 9, 1, 9ul << 32 | 7);
    post_kept(5, 1, 6, 5, 2);
    SITE(JOURNAL_TAKEN, journal_deliver(ON, 1, 2));
    kept(__LINE__, 2, 9, 9, 1, 9ul << 32 | 7);
    /* first is by form 1 or at most last, in a box and in a mail; where none belongs it is 0. */
    post_kept(5, 1, 4, 5, 0);
    SITE(JOURNAL_FORM, journal_deliver(ON, 1, 2));
    post_kept(5, 1, 4, 0, 2);
    SITE(JOURNAL_FORM, journal_deliver(ON, 1, 2));
    post_kept(1, 1, 4, 1, 0);
    SITE(JOURNAL_FORM, journal_deliver(ON, 1, 2));
    links.words[1] = 0;
    /* The last number of all. */
    SITE(JOURNAL_DONE, journal_offer(ON, 1, 77, 78));
    put_kept(1, TOP, TOP, 0);
    SITE(JOURNAL_BOOK, journal_propose(ON, 1));
    put_kept(1, TOP, TOP, 1);
    SITE(JOURNAL_FORM, journal_propose(ON, 1));
    put_kept(1, TOP + 1, TOP + 1, 0);
    SITE(JOURNAL_FORM, journal_propose(ON, 1));
    put_kept(1, TOP, TOP - 1, 0);
    SITE(JOURNAL_FORM, journal_propose(ON, 1));
    put_kept(1, TOP - 1, TOP - 1, 0);
    SITE(JOURNAL_DONE, journal_propose(ON, 1));
    put_kept(1, TOP - 1, TOP, 0);
    SITE(JOURNAL_DONE, journal_trim(ON, 1, TOP));
    SITE(JOURNAL_DONE, journal_timeout(ON, 1));
    put_kept(1, 1, 2, 0);
    SITE(JOURNAL_CONDITION, journal_trim(ON, 1, 2)); /* an odd epoch */
    SITE(JOURNAL_DONE, journal_elect(ON, 1));
    SITE(JOURNAL_DONE, journal_trim(ON, 1, 2));
    site.words[4] = 1, put_kept(2, 1, 2, 0); /* box 2 is absent */
    SITE(JOURNAL_CONDITION, journal_trim(ON, 2, 2));
    release_site();
}

/* Mails of a foreign site: the four causes. Link 1 to 2 of a site of two boxes stands first. */
static void post(uint64_t kind, uint64_t pn, uint64_t last, uint64_t count) {
    uint64_t first = kind == 2 || kind == 3 || kind == 5;
    uint64_t mail[] = {0, 1, kind, pn, last, first, 0, count, 0x700000008u};
    memcpy(links.words, mail, sizeof mail);
}

static void mails(void) {
    lend_site(2, 1, 2);
    SITE(JOURNAL_DONE, journal_fresh(ON, 2, 1, 2));
    SITE(JOURNAL_DONE, journal_elect(ON, 2));
    post(1, 101, 0, 0);
    DISCARD(JOURNAL_DISCARDED_ROLE, 1, 2);
    WORD(links, 1, 0);
    post(2, 101, 0, 0);
    DISCARD(JOURNAL_DISCARDED_PHASE, 1, 2);
    site.words[5 + JOURNAL_ROW_WORDS(1) + 0] = 0; /* box 2 does not lead, and has promised 203 */
    site.words[5 + JOURNAL_ROW_WORDS(1) + 3] = 203;
    post(3, 202, 0, 1);
    DISCARD(JOURNAL_DISCARDED_NUMBER, 1, 2);
    post(6, 0, 1, 0);
    DISCARD(JOURNAL_DISCARDED_PLACE, 1, 2);
    post(3, 204, 0, 1); /* above the promise as below it */
    DISCARD(JOURNAL_DISCARDED_NUMBER, 1, 2);
    WORD(links, 1, 0);
    post(3, 203, 0, 1);
    SITE(JOURNAL_TAKEN, journal_deliver(ON, 1, 2));
    post(7, 0, 1, 0);
    DISCARD(JOURNAL_DISCARDED_ROLE, 1, 2);
    post(7, 1, 0, 0);
    SITE(JOURNAL_FORM, journal_deliver(ON, 1, 2));
    post(7, 0, 0, 1);
    SITE(JOURNAL_FORM, journal_deliver(ON, 1, 2));
    post(8, 0, 0, 0);
    SITE(JOURNAL_FORM, journal_deliver(ON, 1, 2));
    links.words[1] = 0;
    /* Link 2 to 1 is full, and its head stands in the last place: the next is the first. */
    uint64_t full[] = {1, 2, 6, 0, 1, 0, 0, 0, 0, 6, 0, 1, 0, 0, 0, 0};
    memcpy(links.words + 2 + 2 * JOURNAL_PLACE_WORDS(1), full, sizeof full);
    DISCARD(JOURNAL_DISCARDED_PLACE, 2, 1);
    WORD(links, 16, 0), WORD(links, 17, 1);
    DISCARD(JOURNAL_DISCARDED_PLACE, 2, 1);
    WORD(links, 16, 1), WORD(links, 17, 0);
    release_site();
}

/* The run after an election, at its edges: no step, one, all; and what stops it. Of two boxes that
 * have nothing it is recover, collect, Collect, Last, ready, Lease, LeaseAck, heard. */
static void runs(void) {
    lend_site(2, 1, 2);
    RUN(JOURNAL_FORM, 200, 77); /* words of 0 are no site */
    SITE(JOURNAL_DONE, journal_fresh(ON, 2, 1, 2));
    RUN(JOURNAL_CONDITION, 200, 77);
    RUN(JOURNAL_CONDITION, 0, 77);
    SITE(JOURNAL_DONE, journal_elect(ON, 1));
    RUN(JOURNAL_DONE, 0, 0);
    RUN(JOURNAL_DONE, 1, 1);
    WORD(site, 5 + 2, 1), WORD(site, 5 + 3, 1);
    RUN(JOURNAL_DONE, 2, 2);
    WORD(links, 1, 0), WORD(links, 16 + 1, 1); /* the Last is under way */
    RUN(JOURNAL_DONE, UINT32_MAX, 5);
    WORD(site, 5 + 1, 1), WORD(site, 5 + 2, 6), WORD(site, 5 + JOURNAL_ROW_WORDS(1) + 1, 1);
    RUN(JOURNAL_DONE, 200, 0);
    /* A load that waits is the crew's: the run does not propose it, and agrees one that is begun. */
    SITE(JOURNAL_DONE, journal_offer(ON, 1, 71, 72));
    RUN(JOURNAL_DONE, 200, 0);
    SITE(JOURNAL_DONE, journal_propose(ON, 1));
    RUN(JOURNAL_DONE, 200, 8); /* Begin, Accept, agree, Commit, finish, Lease, LeaseAck, heard */
    SITE(JOURNAL_DONE, journal_holds(ON, 2, 1, 71, 72));
    /* 8: two answers to a Lease fill the link back, and one is there already. */
    SITE(JOURNAL_DONE, journal_timeout(ON, 1));
    SITE(JOURNAL_DONE, journal_elect(ON, 1));
    RUN(JOURNAL_DONE, 5, 5);
    SITE(JOURNAL_DONE, journal_repeat(ON, 1, 2));
    SITE(JOURNAL_TAKEN, journal_deliver(ON, 1, 2));
    SITE(JOURNAL_DONE, journal_repeat(ON, 1, 2));
    RUN(JOURNAL_STOPPED + JOURNAL_LINK, 200, 1);
    WORD(links, 1, 1), WORD(links, 16 + 1, 2);
    RUN(JOURNAL_STOPPED + JOURNAL_LINK, 200, 0);
    RUN(JOURNAL_DONE, 0, 0); /* a step is not tried where none is left */
    SITE(JOURNAL_LINK, journal_deliver(ON, 1, 2));
    /* A discarded mail was handed over: an answer to no lease. */
    SITE(JOURNAL_TAKEN, journal_deliver(ON, 2, 1));
    RUN(JOURNAL_DONE, 200, 4); /* Lease, two LeaseAcks, heard */
    post(6, 0, 0, 0);
    RUN(JOURNAL_DONE, 1, 1);
    WORD(links, 1, 0);
    /* 7: a Begin that box 2 has no room for. */
    post(3, site.words[5 + JOURNAL_ROW_WORDS(1) + 3], 1, 1);
    RUN(JOURNAL_STOPPED + JOURNAL_BOOK, 200, 0);
    links.words[1] = 0;
    /* 6: no new number is left. */
    SITE(JOURNAL_DONE, journal_timeout(ON, 1));
    RUN(JOURNAL_CONDITION, 200, 77);
    SITE(JOURNAL_DONE, journal_elect(ON, 2));
    site.words[5 + JOURNAL_ROW_WORDS(1) + 3] = 999999902;
    RUN(JOURNAL_STOPPED + JOURNAL_NEW_PN, 200, 0);
    site.words[5 + JOURNAL_ROW_WORDS(1) + 3] = 999999901;
    RUN(JOURNAL_DONE, 200, 8);
    site.words[5 + JOURNAL_ROW_WORDS(1) + 1] = UINT64_MAX; /* its state */
    RUN(JOURNAL_FORM, 200, 77);
    release_site();
}

/* Two boxes by themselves, whose letters are carried by copying them. */
static void own_boxes(void) {
    enum { J = 4, EVEN = 2, ODD = 3, BOTH = 3 };
#define TOLD 2, J, 2, EVEN, BOTH
#define ALONE(want, me, boxes)                                                                     \
    do {                                                                                           \
        uint32_t set = 77;                                                                         \
        keep(row);                                                                                 \
        check(__LINE__, "own_unheard", journal_own_unheard(row.words, row.lent, &set, TOLD, me),   \
              want);                                                                               \
        check(__LINE__, "the silent boxes", set, boxes);                                           \
        check(__LINE__, "row stays", stays(row, 0), 1);                                            \
    } while (0)
    row = lend(JOURNAL_ROW_WORDS(J));
    letter = lend(JOURNAL_PLACE_WORDS(J));
    out = lend(JOURNAL_PLACE_WORDS(J));
    to = 77;
    uint64_t fresh_row[JOURNAL_ROW_WORDS(J)] = {0}, rows[2][JOURNAL_ROW_WORDS(J)];
    fresh_row[5] = 1;
    for (int i = 16; i < 21; i++) fresh_row[i] = UINT32_MAX;
    memcpy(rows[0], fresh_row, sizeof fresh_row);
    memcpy(rows[1], fresh_row, sizeof fresh_row);
    rows[0][0] = 1; /* box 1 is elected */
#define BOX(k) memcpy(row.words, rows[(k) - 1], sizeof rows[0])
#define PUT(k) memcpy(rows[(k) - 1], row.words, sizeof rows[0])
#define CARRY() memcpy(letter.words, out.words, sizeof(uint64_t[JOURNAL_PLACE_WORDS(J)]))
    BOX(1);
    OWN(JOURNAL_CONDITION, 0, journal_own_recover(ROW, 2, J, 2, ODD, BOTH, 1));
    OWN(JOURNAL_SIZES, 0, journal_own_recover(ROW, 6, J, 2, EVEN, BOTH, 1));
    OWN(JOURNAL_SIZES, 0, journal_own_recover(ROW, 2, 0, 2, EVEN, BOTH, 1));
    OWN(JOURNAL_SIZES, 0, journal_own_recover(ROW, 2, J, 17, EVEN, BOTH, 1));
    OWN(JOURNAL_FORM, 0, journal_own_recover(ROW, 2, J, 2, 0, BOTH, 1));
    OWN(JOURNAL_FORM, 0, journal_own_recover(ROW, 2, J, 2, 1000001, BOTH, 1));
    OWN(JOURNAL_FORM, 0, journal_own_recover(ROW, 2, J, 2, EVEN, 4, 1));
    OWN(JOURNAL_FORM, 0, journal_own_recover(ROW, 2, J + 1, 2, EVEN, BOTH, 1));
    OWN(JOURNAL_BOX, 0, journal_own_recover(ROW, TOLD, 0));
    OWN(JOURNAL_BOX, 0, journal_own_recover(ROW, TOLD, 3));
    row.lent--;
    OWN(JOURNAL_FORM, 0, journal_own_recover(ROW, TOLD, 1));
    row.lent = 0;
    OWN(JOURNAL_FORM, 0, journal_own_recover(ROW, TOLD, 1));
    row.lent = row.size;
    OWN(JOURNAL_DONE, 0, journal_own_recover(ROW, TOLD, 1));
    out.lent--;
    OWN(JOURNAL_BUFFER, 0, journal_own_collect(ROW, TOLD, 1));
    out.lent = 0;
    OWN(JOURNAL_BUFFER, 0, journal_own_collect(ROW, TOLD, 1));
    out.lent = out.size;
    OWN(JOURNAL_DONE, 2, journal_own_collect(ROW, TOLD, 1));
    WORD(out, 0, 1), WORD(out, 1, 1);
    PUT(1), CARRY(), BOX(2);
    OWN(JOURNAL_BOX, 0, journal_own_mail(MAIL, TOLD, 2, 2));
    OWN(JOURNAL_BOX, 0, journal_own_mail(MAIL, TOLD, 2, 0));
    OWN(JOURNAL_BOX, 0, journal_own_mail(MAIL, TOLD, 2, 3));
    letter.lent--;
    OWN(JOURNAL_FORM, 0, journal_own_mail(MAIL, TOLD, 2, 1));
    letter.lent = letter.size;
    OWN(JOURNAL_TAKEN, 1, journal_own_mail(MAIL, TOLD, 2, 1));
    WORD(out, 0, 2), WORD(row, 3, 1);
    PUT(2), CARRY(), BOX(1);
    OWN(JOURNAL_TAKEN, 0, journal_own_mail(MAIL, TOLD, 1, 2));
    OWN(JOURNAL_TAKEN, 0, journal_own_mail(MAIL, TOLD, 1, 2)); /* heard again: taken again */
    WORD(row, 10, BOTH);
    ALONE(JOURNAL_CONDITION, 1, 77);
    OWN(JOURNAL_DONE, 2, journal_own_ready(ROW, TOLD, 1));
    WORD(out, 0, 6), WORD(row, 12, 1);
    OWN(JOURNAL_CONDITION, 0, journal_own_heard(ROW, TOLD, 1));
    ALONE(JOURNAL_DONE, 1, 2);
    ALONE(JOURNAL_BOX, 3, 77);
    PUT(1), CARRY(), BOX(2);
    ALONE(JOURNAL_CONDITION, 2, 77);
    out.lent--;
    OWN(JOURNAL_BUFFER, 0, journal_own_mail(MAIL, TOLD, 2, 1));
    out.lent = out.size;
    OWN(JOURNAL_TAKEN, 1, journal_own_mail(MAIL, TOLD, 2, 1));
    WORD(out, 0, 7), WORD(out, 1, 0), WORD(out, 2, 0), WORD(row, 1, 1);
    PUT(2), CARRY(), BOX(1);
    OWN(JOURNAL_TAKEN, 0, journal_own_mail(MAIL, TOLD, 1, 2));
    WORD(row, 12, BOTH);
    ALONE(JOURNAL_DONE, 1, 0);
    OWN(JOURNAL_SIZES, 0, journal_own_heard(ROW, 6, J, 2, EVEN, BOTH, 1));
    OWN(JOURNAL_BOX, 0, journal_own_heard(ROW, TOLD, 3));
    OWN(JOURNAL_CONDITION, 0, journal_own_heard(ROW, 2, J, 2, ODD, BOTH, 1));
    row.lent--;
    OWN(JOURNAL_FORM, 0, journal_own_heard(ROW, TOLD, 1));
    ALONE(JOURNAL_FORM, 1, 77);
    row.lent = row.size;
    OWN(JOURNAL_DONE, 0, journal_own_heard(ROW, TOLD, 1));
    WORD(row, 2, 6);
    OWN(JOURNAL_DISCARDED_PHASE, 0, journal_own_mail(MAIL, TOLD, 1, 2));
    OWN(JOURNAL_FRAME, 0, journal_own_offer(ROW, TOLD, 1, 7, 0));
    OWN(JOURNAL_DONE, 0, journal_own_offer(ROW, TOLD, 1, 7, 8));
    OWN(JOURNAL_DONE, 2, journal_own_propose(ROW, TOLD, 1));
    WORD(out, 0, 3), WORD(out, 3, 1), WORD(out, 6, 0x700000008u);
    PUT(1), CARRY(), BOX(2);
    OWN(JOURNAL_TAKEN, 1, journal_own_mail(MAIL, TOLD, 2, 1));
    PUT(2), CARRY(), BOX(1);
    OWN(JOURNAL_CONDITION, 0, journal_own_agree(ROW, TOLD, 1));
    OWN(JOURNAL_TAKEN, 0, journal_own_mail(MAIL, TOLD, 1, 2));
    OWN(JOURNAL_DONE, 2, journal_own_agree(ROW, TOLD, 1));
    PUT(1), CARRY(), BOX(2);
    OWN(JOURNAL_TAKEN, 0, journal_own_mail(MAIL, TOLD, 2, 1));
    WORD(row, 4, 1), WORD(row, 22, 0x700000008u);
    BOX(1);
    uint64_t last[] = {2, 1, 0, 1, 0, 0}, above[] = {3, 2, 0, 1, 0, 1, 0x700000008u};
    uint64_t ahead[] = {3, 1, 1, 1, 0, 1, 0x700000008u};
#define POST(mail) memcpy(letter.words, mail, sizeof mail), to = 77
    to = 77;
    OWN(JOURNAL_DISCARDED_ROLE, 0, journal_own_mail(MAIL, TOLD, 1, 2));
    POST(last);
    OWN(JOURNAL_DISCARDED_PHASE, 0, journal_own_mail(MAIL, TOLD, 1, 2));
    BOX(2);
    POST(above);
    OWN(JOURNAL_DISCARDED_NUMBER, 0, journal_own_mail(MAIL, TOLD, 2, 1));
    POST(ahead);
    OWN(JOURNAL_DISCARDED_PLACE, 0, journal_own_mail(MAIL, TOLD, 2, 1));
    BOX(1);
    OWN(JOURNAL_DONE, 2, journal_own_finish(ROW, TOLD, 1));
    OWN(JOURNAL_CONDITION, 0, journal_own_finish(ROW, TOLD, 1));
    BOX(2);
    OWN(JOURNAL_CONDITION, 0, journal_own_trim(ROW, TOLD, 2, 1));
    row.words[4] = row.words[21] = 3; /* loads 1 to 3 */
    row.words[22] = 0x100000001u, row.words[23] = 0x200000002u, row.words[24] = 0x300000003u;
    OWN(JOURNAL_FORM, 0, journal_own_trim(ROW, TOLD, 2, 3)); /* not in the index */
    put_index(row.words, J);
    OWN(JOURNAL_SIZES, 0, journal_own_trim(ROW, 6, J, 2, EVEN, BOTH, 2, 3));
    OWN(JOURNAL_BOX, 0, journal_own_trim(ROW, TOLD, 3, 3));
    OWN(JOURNAL_CONDITION, 0, journal_own_trim(ROW, TOLD, 2, 1));
    OWN(JOURNAL_CONDITION, 0, journal_own_trim(ROW, TOLD, 2, 4));
    OWN(JOURNAL_CONDITION, 0, journal_own_trim(ROW, 2, J, 2, ODD, BOTH, 2, 3));
    OWN(JOURNAL_CONDITION, 0, journal_own_trim(ROW, 2, J, 2, EVEN, 1, 2, 3));
    OWN(JOURNAL_DONE, 0, journal_own_trim(ROW, TOLD, 2, 3));
    WORD(row, 4, 3), WORD(row, 5, 3), WORD(row, 21, 1), WORD(row, 22, 0x300000003u);
    row.words[5] = 4; /* above last */
    OWN(JOURNAL_FORM, 0, journal_own_trim(ROW, TOLD, 2, 3));
    release(row), release(letter), release(out);
}

/* A box by itself is started, told of an election, and asked. A refused call leaves every word, and
 * the others the words past the row's. */
static void told_boxes(void) {
    enum { J = 4, EVEN = 2, ODD = 3, ALL = 7 };
#define LENT row.words, row.lent
#define TELL(want, past, call)                                                                     \
    do {                                                                                           \
        keep(row);                                                                                 \
        check(__LINE__, #call, call, want);                                                        \
        check(__LINE__, "row stays", stays(row, want == JOURNAL_DONE ? past : 0), 1);              \
    } while (0)
#define FRESH(want, n, j, l) TELL(want, 22 + J + 128, journal_own_fresh(LENT, n, j, l))
#define ELECTED(want, epoch, present, me, c)                                                       \
    TELL(want, 16, journal_own_elected(LENT, 3, J, 2, epoch, present, me, c))
#define HELD(want, epoch, me, k, left, right)                                                      \
    TELL(want, 0, journal_own_holds(LENT, 3, J, 2, epoch, ALL, me, k, left, right))
    row = lend(JOURNAL_ROW_WORDS(J));
    for (size_t i = 0; i < row.size; i++) row.words[i] = 70 + i;
    ELECTED(JOURNAL_FORM, EVEN, ALL, 1, 1);
    HELD(JOURNAL_FORM, EVEN, 1, 1, 7, 8);
    FRESH(JOURNAL_SIZES, 0, J, 2);
    FRESH(JOURNAL_SIZES, 6, J, 2);
    FRESH(JOURNAL_SIZES, 3, 0, 2);
    FRESH(JOURNAL_SIZES, 3, 4097, 2);
    FRESH(JOURNAL_SIZES, 3, J, 0);
    FRESH(JOURNAL_SIZES, 3, J, 17);
    FRESH(JOURNAL_BUFFER, 3, J + 1, 2);
    row.lent--;
    FRESH(JOURNAL_SIZES, 6, J, 2);
    FRESH(JOURNAL_BUFFER, 3, J, 2);
    row.lent = 0;
    FRESH(JOURNAL_BUFFER, 3, J, 2);
    row.lent = row.size;
    FRESH(JOURNAL_DONE, 3, J, 2);
    for (size_t i = 0; i < 22; i++)
        WORD(row, i, 16 <= i && i <= 20 ? UINT32_MAX : i == 5);
    for (size_t i = 22 + J; i < 22 + J + 128; i++) WORD(row, i, 0);
    TELL(JOURNAL_SIZES, 0, journal_own_elected(LENT, 6, J, 2, EVEN, ALL, 1, 1));
    TELL(JOURNAL_SIZES, 0, journal_own_holds(LENT, 3, J, 17, EVEN, ALL, 1, 1, 7, 8));
    ELECTED(JOURNAL_FORM, 0, ALL, 1, 1);
    ELECTED(JOURNAL_FORM, 1000001, ALL, 1, 1);
    ELECTED(JOURNAL_FORM, EVEN, 8, 1, 1);
    row.lent--;
    ELECTED(JOURNAL_FORM, EVEN, ALL, 1, 1);
    HELD(JOURNAL_FORM, EVEN, 1, 1, 7, 8);
    row.lent = row.size;
    ELECTED(JOURNAL_BOX, EVEN, ALL, 0, 1);
    ELECTED(JOURNAL_BOX, EVEN, ALL, 4, 1);
    ELECTED(JOURNAL_BOX, EVEN, ALL, 1, 0);
    ELECTED(JOURNAL_BOX, ODD, ALL, 1, 4);
    ELECTED(JOURNAL_CONDITION, ODD, ALL, 1, 1);
    ELECTED(JOURNAL_CONDITION, EVEN, 3, 1, 3);
    ELECTED(JOURNAL_CONDITION, EVEN, 1, 1, 2); /* before 4 */
    ELECTED(JOURNAL_MAJORITY, EVEN, 1, 1, 1);
    ELECTED(JOURNAL_MAJORITY, EVEN, 4, 1, 3);
    ELECTED(JOURNAL_DONE, EVEN, 6, 1, 3); /* told although it is away */
    WORD(row, 0, 0);
    ELECTED(JOURNAL_DONE, EVEN, ALL, 1, 1);
    WORD(row, 0, 1), WORD(row, 1, 0), WORD(row, 2, 0);
    row.words[1] = 1, row.words[2] = 4, row.words[14] = row.words[15] = 0x700000008u;
    ELECTED(JOURNAL_DONE, 1000000, 3, 1, 2);
    WORD(row, 0, 0), WORD(row, 1, 0), WORD(row, 2, 0), WORD(row, 14, 0), WORD(row, 15, 0);
    TELL(JOURNAL_DONE, 16, journal_own_elected(LENT, 1, J, 2, EVEN, 1, 1, 1));
    WORD(row, 0, 1), WORD(row, 1, 1);
    HELD(JOURNAL_UNTRUE, EVEN, 1, 0, 0, 0);
    HELD(JOURNAL_UNTRUE, EVEN, 1, 1, 7, 8);
    row.words[4] = 3, row.words[5] = 2, row.words[21] = 3; /* loads 2 and 3, and 4 unagreed */
    row.words[22] = 0x200000012u, row.words[23] = 0x300000013u, row.words[24] = 0x400000014u;
    put_index(row.words, J);
    HELD(JOURNAL_BOX, EVEN, 0, 2, 2, 18);
    HELD(JOURNAL_BOX, EVEN, 4, 2, 2, 18);
    HELD(JOURNAL_FORM, 0, 1, 2, 2, 18);
    HELD(JOURNAL_DONE, EVEN, 1, 2, 2, 18);
    HELD(JOURNAL_DONE, ODD, 1, 3, 3, 19);
    HELD(JOURNAL_UNTRUE, EVEN, 1, 1, 2, 18);
    HELD(JOURNAL_UNTRUE, EVEN, 1, 2, 18, 2);
    HELD(JOURNAL_UNTRUE, EVEN, 1, 3, 2, 18);
    HELD(JOURNAL_UNTRUE, EVEN, 1, 4, 4, 20);
    HELD(JOURNAL_UNTRUE, EVEN, 1, UINT32_MAX, 2, 18);
    release(row);
}

/* Box c has agreed on k loads, number i with the frames i and i. */
static void put_book(uint32_t j, uint32_t c, uint64_t k) {
    uint64_t *r = site.words + 5 + (size_t)(c - 1) * JOURNAL_ROW_WORDS(j);
    r[4] = r[21] = k;
    for (uint64_t i = 1; i <= k; i++) r[21 + i] = i << 32 | i;
    put_index(r, j);
}

/* n = 5, J = 4,096, L = 16: four boxes have nothing, the leader has 4,095 loads. */
static void largest(void) {
    lend_site(5, 4096, 16);
    check(__LINE__, "site words", site.lent, 41715);
    check(__LINE__, "links words", links.lent, 1312680);
    SITE(JOURNAL_DONE, journal_fresh(ON, 5, 4096, 16));
    put_book(4096, 1, 4095);
    SITE(JOURNAL_DONE, journal_elect(ON, 1));
    SITE(JOURNAL_DONE, journal_recover(ON, 1));
    SITE(JOURNAL_DONE, journal_collect(ON, 1));
    for (uint32_t b = 2; b <= 5; b++) SITE(JOURNAL_TAKEN, journal_deliver(ON, 1, b));
    for (uint32_t b = 2; b <= 5; b++) SITE(JOURNAL_TAKEN, journal_deliver(ON, b, 1));
    SITE(JOURNAL_DONE, journal_ready(ON, 1));
    for (uint32_t b = 2; b <= 5; b++) /* Commits, one for each Last since its own, and a Lease */
        for (uint32_t i = b; i <= 6; i++) SITE(JOURNAL_TAKEN, journal_deliver(ON, 1, b));
    for (uint32_t b = 2; b <= 5; b++) SITE(JOURNAL_TAKEN, journal_deliver(ON, b, 1));
    SITE(JOURNAL_DONE, journal_heard(ON, 1));
    SITE(JOURNAL_DONE, journal_holds(ON, 5, 4095, 4095, 4095));
    SITE(JOURNAL_DONE, journal_offer(ON, 1, UINT32_MAX, UINT32_MAX));
    SITE(JOURNAL_DONE, journal_propose(ON, 1));
    for (uint32_t b = 2; b <= 5; b++) {
        SITE(JOURNAL_TAKEN, journal_deliver(ON, 1, b));
        SITE(JOURNAL_TAKEN, journal_deliver(ON, b, 1));
    }
    SITE(JOURNAL_DONE, journal_agree(ON, 1));
    for (uint32_t i = 1; i < 16; i++) SITE(JOURNAL_DONE, journal_repeat(ON, 1, 2));
    SITE(JOURNAL_LINK, journal_repeat(ON, 1, 2));
    for (uint32_t i = 1; i < 16; i++) SITE(JOURNAL_TAKEN, journal_deliver(ON, 1, 2));
    for (uint32_t b = 2; b <= 5; b++) SITE(JOURNAL_TAKEN, journal_deliver(ON, 1, b));
    for (uint32_t b = 1; b <= 5; b++)
        SITE(JOURNAL_DONE, journal_holds(ON, b, 4096, UINT32_MAX, UINT32_MAX));
    SITE(JOURNAL_UNTRUE, journal_holds(ON, 5, 4097, UINT32_MAX, UINT32_MAX));
    SITE(JOURNAL_DONE, journal_trim(ON, 4, 2));
    SITE(JOURNAL_DONE, journal_holds(ON, 4, 2, 2, 2));
    SITE(JOURNAL_DONE, journal_holds(ON, 4, 4096, UINT32_MAX, UINT32_MAX));
    SITE(JOURNAL_DONE, journal_trim(ON, 5, 4096));
    SITE(JOURNAL_UNTRUE, journal_holds(ON, 5, 4095, 4095, 4095));
    SITE(JOURNAL_DONE, journal_holds(ON, 5, 4096, UINT32_MAX, UINT32_MAX));
    /* Sixteen mails fill a link: a lease, then Lasts that each bring a Commit. */
    SITE(JOURNAL_DONE, journal_finish(ON, 1));
    SITE(JOURNAL_DONE, journal_offer(ON, 1, 1, 1));
    SITE(JOURNAL_BOOK, journal_propose(ON, 1));
    links.words[1] = 16;
    for (uint32_t i = 0; i < 16; i++) {
        uint64_t lease[] = {6, 0, 0, 0, 0, 0};
        memcpy(links.words + 2 + i * JOURNAL_PLACE_WORDS(4096), lease, sizeof lease);
    }
    site.words[5 + 2] = 5, site.words[5 + 1] = 4; /* phase Commit, state Refresh */
    SITE(JOURNAL_LINK, journal_finish(ON, 1));
    for (uint32_t i = 0; i < 16; i++) DISCARD(JOURNAL_DISCARDED_PLACE, 1, 2);
    SITE(JOURNAL_CONDITION, journal_deliver(ON, 1, 2));
    SITE(JOURNAL_DONE, journal_finish(ON, 1));
    links.words[1] = 17;
    SITE(JOURNAL_FORM, journal_finish(ON, 1));
    /* Box 5 leads four that have nothing: each Last brings a Commit to it and to those before it. */
    SITE(JOURNAL_DONE, journal_fresh(ON, 5, 4096, 16));
    put_book(4096, 5, 4095);
    SITE(JOURNAL_DONE, journal_elect(ON, 5));
    RUN(JOURNAL_DONE, UINT32_MAX, 30);
    for (uint32_t b = 1; b <= 5; b++) SITE(JOURNAL_DONE, journal_holds(ON, b, 4095, 4095, 4095));
    release_site();
}

/* A site of one box has no links at all. */
static void one_box(void) {
    uint64_t none[1] = {GUARDED};
    site = lend(JOURNAL_SITE_WORDS(1, 1));
    links = lend(0);
    check(__LINE__, "links words", journal_links_words(1, 1, 1), 0);
    SITE(JOURNAL_DONE, journal_fresh(ON, 1, 1, 1));
    SITE(JOURNAL_DONE, journal_elect(ON, 1));
    RUN(JOURNAL_DONE, 200, 0); /* it is active at once */
    SITE(JOURNAL_DONE, journal_offer(ON, 1, 1, UINT32_MAX));
    SITE(JOURNAL_DONE, journal_propose(ON, 1));
    SITE(JOURNAL_DONE, journal_agree(ON, 1));
    check(__LINE__, "holds", journal_holds(site.words, site.lent, none, 0, 1, 1, 1, UINT32_MAX), 0);
    check(__LINE__, "unlent word", none[0], GUARDED);
    release_site();
}

/* The image of the site under test, and what its buffer was before the call. */
static uint8_t *image, *image_before;
static size_t bytes;

static void settle_image(int line, const char *what, uint32_t got, uint32_t want, size_t room,
                         size_t written) {
    check(line, what, got, want);
    size_t from = want == JOURNAL_DONE ? written : 0;
    check(line, "image stays", memcmp(image + from, image_before + from, room - from), 0);
}

static void write_image(int line, uint32_t want, size_t lent, size_t room) {
    size_t length = 77;
    memcpy(image_before, image, room);
    keep(site), keep(links);
    uint32_t got = journal_write(ON, image, lent, &length);
    settle_image(line, "write", got, want, room, bytes);
    check(line, "length", length, want == JOURNAL_DONE ? bytes : 77);
    check(line, "site stays", stays(site, 0) && stays(links, 0), 1);
}

/* The image of the site is read into fresh memory; that is the same site, since its image is the
 * same. */
static void read_back(int line, uint32_t n, uint32_t j, uint32_t l) {
    Array s = site, m = links;
    lend_site(n, j, l);
    keep(site), keep(links);
    settle(line, "read", journal_read(image, bytes, ON), JOURNAL_DONE);
    write_image(line, JOURNAL_DONE, bytes, bytes);
    check(line, "the same image", memcmp(image, image_before, bytes), 0);
    site.lent--;
    SITE(JOURNAL_BUFFER, journal_read(image, bytes, ON));
    site.lent++;
    if (links.lent != 0) {
        links.lent--;
        SITE(JOURNAL_BUFFER, journal_read(image, bytes, ON));
        links.lent++;
    }
    release_site();
    site = s, links = m;
}

static void measure(int line, uint32_t want, size_t length) {
    bytes = 77;
    check(line, "image_length", journal_image_length(ON, &bytes), want);
    check(line, "length", bytes, length);
}

/* The bodies of the image of n boxes, by both functions, lie in order without gaps from its table to
 * its end; no other number has one, and a refused call leaves what is lent. */
static void walk_bodies(int line, uint32_t n) {
    size_t at = 4 + 8 * (n + 2), begin = 77, length = 78, again = 79, long_again = 80;
    for (uint32_t k = 1; k <= n + 2; k++) {
        check(line, "body", journal_body(image, bytes, &begin, &length, k), JOURNAL_DONE);
        check(line, "named", journal_named(image, bytes, &again, &long_again, k), JOURNAL_DONE);
        check(line, "begin", begin, at);
        check(line, "the same", begin == again && length == long_again, 1);
        at += length;
    }
    check(line, "end", at, bytes);
    begin = 77, length = 78;
    uint32_t none[] = {0, n + 3, n + 4, 8, 4294967295u};
    for (int i = 0; i < 5; i++) {
        check(line, "no body", journal_body(image, bytes, &begin, &length, none[i]),
              JOURNAL_CONDITION);
        check(line, "none named", journal_named(image, bytes, &begin, &length, none[i]),
              JOURNAL_CONDITION);
    }
    check(line, "no image", journal_body(image, bytes - 1, &begin, &length, 1), JOURNAL_FORM);
    check(line, "no bytes", journal_named(image, 0, &begin, &length, 1), JOURNAL_CONDITION);
    check(line, "both stay", begin == 77 && length == 78, 1);
}

static void images(void) {
    image = malloc(1024), image_before = malloc(1024);
    lend_site(1, 1, 1);
    measure(__LINE__, JOURNAL_FORM, 77);
    SITE(JOURNAL_DONE, journal_fresh(ON, 1, 1, 1));
    measure(__LINE__, JOURNAL_DONE, 132);
    write_image(__LINE__, JOURNAL_DONE, 1024, 1024);
    read_back(__LINE__, 1, 1, 1);
    walk_bodies(__LINE__, 1);
    release_site();
    lend_site(3, 4, 2);
    write_image(__LINE__, JOURNAL_FORM, 0, 1024);
    SITE(JOURNAL_DONE, journal_fresh(ON, 3, 4, 2));
    measure(__LINE__, JOURNAL_DONE, 364);
    write_image(__LINE__, JOURNAL_BUFFER, 363, 1024);
    write_image(__LINE__, JOURNAL_BUFFER, 0, 1024);
    write_image(__LINE__, JOURNAL_DONE, 364, 1024);
    read_back(__LINE__, 3, 4, 2);
    /* Every shorter or longer piece is no image, and a changed byte gives none or another site's. */
    for (size_t k = 0; k < 400; k++)
        if (k != 364) SITE(JOURNAL_FORM, journal_read(image, k, ON));
    SITE(JOURNAL_DONE, journal_elect(ON, 2));
    SITE(JOURNAL_DONE, journal_recover(ON, 2));
    SITE(JOURNAL_DONE, journal_collect(ON, 2));
    measure(__LINE__, JOURNAL_DONE, 364 + 2 * 20);
    write_image(__LINE__, JOURNAL_DONE, bytes, 1024);
    read_back(__LINE__, 3, 4, 2);
    walk_bodies(__LINE__, 3);
    int others = 0, larger = 0;
    for (size_t k = 0; k < bytes; k++)
        for (int bit = 0; bit < 8; bit++) {
            image[k] ^= 1 << bit;
            keep(site), keep(links);
            uint32_t got = journal_read(image, bytes, ON);
            if (got == JOURNAL_DONE) {
                others++;
                write_image(__LINE__, JOURNAL_DONE, bytes, bytes);
                check(__LINE__, "another image", memcmp(image, image_before, bytes), 0);
            } else {
                larger += got == JOURNAL_BUFFER;
                settle(__LINE__, "a changed byte", got,
                       got == JOURNAL_BUFFER ? JOURNAL_BUFFER : JOURNAL_FORM);
            }
            image[k] ^= 1 << bit;
        }
    check(__LINE__, "some changes give another site", 100 < others && others < 2000, 1);
    /* J = 4 becomes 5, 6, 12, 20 and so on to 2,052, and L = 2 becomes 3, 6, 10: too few words. */
    check(__LINE__, "some give a larger site", larger, 11 + 3);
    release_site();
    free(image), free(image_before);
}

/* The longest image: every book full, and on every link sixteen Commits of the whole book. */
static void longest_image(void) {
    bytes = JOURNAL_IMAGE_MOST(5, 4096, 16);
    image = malloc(bytes), image_before = malloc(bytes);
    lend_site(5, 4096, 16);
    SITE(JOURNAL_DONE, journal_fresh(ON, 5, 4096, 16));
    for (uint32_t c = 1; c <= 5; c++) put_book(4096, c, 4096);
    for (uint32_t k = 0; k < 20; k++) {
        uint64_t *link = links.words + (size_t)k * (2 + 16 * JOURNAL_PLACE_WORDS(4096));
        link[0] = k % 16, link[1] = 16;
        for (uint32_t i = 0; i < 16; i++) {
            uint64_t *place = link + 2 + i * JOURNAL_PLACE_WORDS(4096);
            uint64_t commit[] = {5, 100 * k + i, 4096, 1, 0, 4096};
            memcpy(place, commit, sizeof commit);
            memcpy(place + 6, site.words + 5 + 22, 4096 * sizeof(uint64_t));
        }
    }
    measure(__LINE__, JOURNAL_DONE, JOURNAL_IMAGE_MOST(5, 4096, 16));
    check(__LINE__, "longest image", bytes, 10657940);
    write_image(__LINE__, JOURNAL_BUFFER, bytes - 1, bytes);
    write_image(__LINE__, JOURNAL_DONE, bytes, bytes);
    read_back(__LINE__, 5, 4096, 16);
    image[bytes - 1] = image[bytes - 2] = image[bytes - 3] = image[bytes - 4] = 0; /* a left frame */
    SITE(JOURNAL_FORM, journal_read(image, bytes, ON));
    release_site();
    free(image), free(image_before);
}

/* Where the list of box c stands: its first number, its place, how many; the question leaves every
 * word, and where it is refused the three numbers too. */
static void list_of(int line, uint32_t want, uint32_t c, uint64_t first, size_t at, size_t count) {
    uint64_t f = 77;
    size_t p = 78, m = 79;
    keep(site), keep(links);
    check(line, "agreed", journal_agreed(ON, c, &f, &p, &m), want);
    check(line, "the first number", f, first);
    check(line, "the place", p, at);
    check(line, "how many", m, count);
    check(line, "site stays", stays(site, 0) && stays(links, 0), 1);
}

/* Two lists out of one array, by their places and lengths. */
static void longer_of(int line, uint32_t want, const uint64_t *a, size_t n, const uint64_t *b,
                      size_t m) {
    check(line, "longer", journal_longer(a, n, b, m), want);
}

/* The lists of a site's boxes, and the longer of two lists. */
static void lists(void) {
    const uint64_t long_one[] = {5, 6, 7, 8}, other[] = {5, 9, 7};
    longer_of(__LINE__, 1, long_one, 0, other, 0);
    longer_of(__LINE__, 1, long_one, 4, long_one, 4);
    longer_of(__LINE__, 1, long_one, 4, long_one, 0);
    longer_of(__LINE__, 1, long_one, 4, other, 1);
    longer_of(__LINE__, 2, other, 0, long_one, 1);
    longer_of(__LINE__, 2, long_one, 3, long_one, 4);
    longer_of(__LINE__, JOURNAL_DIFFERS, long_one, 4, other, 3);
    longer_of(__LINE__, JOURNAL_DIFFERS, other, 2, long_one, 4);
    longer_of(__LINE__, JOURNAL_DIFFERS, long_one, 1, long_one + 1, 1);

    lend_site(2, 2, 4);
    list_of(__LINE__, JOURNAL_FORM, 1, 77, 78, 79);
    journal_fresh(ON, 2, 2, 4);
    list_of(__LINE__, JOURNAL_BOX, 0, 77, 78, 79);
    list_of(__LINE__, JOURNAL_BOX, 3, 77, 78, 79);
    list_of(__LINE__, JOURNAL_DONE, 1, 1, 27, 0);
    put_kept(1, 1, 2, 0);
    put_kept(2, 2, 2, 1);
    list_of(__LINE__, JOURNAL_DONE, 1, 1, 27, 2);
    list_of(__LINE__, JOURNAL_DONE, 2, 2, 27 + JOURNAL_ROW_WORDS(2), 1);
    /* from number 2 on: one record of each */
    longer_of(__LINE__, 1, site.words + 28, 1, site.words + 27 + JOURNAL_ROW_WORDS(2), 1);
    release_site();
}

/* Which load has this frame: equal frames, frames of one remainder by 64, loads that are dropped,
 * taken whole and held at last+1; a false index. */
static void frames(void) {
    static const uint64_t lefts[] = {5, 69, 5, 133, 6, 5};
    uint64_t *r, *index;
    lend_site(3, 6, 4);
    FIND(JOURNAL_FORM, 1, 5, 77);
    SITE(JOURNAL_DONE, journal_fresh(ON, 3, 6, 4));
    FIND(JOURNAL_BOX, 0, 5, 77);
    FIND(JOURNAL_BOX, 4, 0, 77); /* before 10 */
    FIND(JOURNAL_FRAME, 1, 0, 77);
    FIND(JOURNAL_DONE, 1, 5, 0);
    r = site.words + 5, index = r + 22 + 6;
    r[4] = 12, r[5] = 8, r[21] = 6; /* loads 8 to 12, and 13 unagreed */
    for (uint64_t i = 0; i < 6; i++) r[22 + i] = lefts[i] << 32 | 7;
    FIND(JOURNAL_FORM, 1, 5, 77);
    FIND(JOURNAL_FORM, 0, 0, 77);
    put_index(r, 6);
    FIND(JOURNAL_DONE, 1, 5, 8);
    FIND(JOURNAL_DONE, 1, 69, 9);
    FIND(JOURNAL_DONE, 1, 133, 11);
    FIND(JOURNAL_DONE, 1, 6, 12);
    FIND(JOURNAL_DONE, 1, 197, 0); /* of the same remainder */
    FIND(JOURNAL_DONE, 1, 7, 0); /* a right frame */
    FIND(JOURNAL_DONE, 1, UINT32_MAX, 0);
    FIND(JOURNAL_DONE, 2, 5, 0);
    /* each word of the index that is read */
    for (size_t i = 0; i < 128 + 5; i++) {
        index[i]++;
        FIND(JOURNAL_FORM, 1, 5, 77);
        SITE(JOURNAL_FORM, journal_elect(ON, 1));
        index[i]--;
    }
    index[128 + 5] = 77; /* behind the agreed ones: it is not read */
    FIND(JOURNAL_DONE, 1, 5, 8);
    SITE(JOURNAL_DONE, journal_stop(ON, 3));
    SITE(JOURNAL_DONE, journal_elect(ON, 1));
    SITE(JOURNAL_DONE, journal_trim(ON, 1, 9));
    FIND(JOURNAL_DONE, 1, 5, 10);
    FIND(JOURNAL_DONE, 1, 69, 9);
    SITE(JOURNAL_DONE, journal_trim(ON, 1, 11));
    FIND(JOURNAL_DONE, 1, 5, 0); /* load 13 is not agreed */
    FIND(JOURNAL_DONE, 1, 69, 0);
    FIND(JOURNAL_DONE, 1, 133, 11);
    /* box 2 takes the book whole, then the load that was started again */
    RUN(JOURNAL_DONE, 200, 14);
    FIND(JOURNAL_DONE, 1, 5, 13);
    FIND(JOURNAL_DONE, 2, 5, 13);
    FIND(JOURNAL_DONE, 2, 133, 11);
    FIND(JOURNAL_DONE, 2, 69, 0);
    FIND(JOURNAL_DONE, 3, 133, 0); /* it is away */
    SITE(JOURNAL_DONE, journal_return(ON, 3));
    FIND(JOURNAL_DONE, 2, 6, 12); /* an election is due */
    release_site();
}

/* The pairing desk of the stereo gate, and the number for the right frame of a pair. */
static Array desk;
static uint32_t right, right_before;

/* mate is the right frame of a pair that leaves, else 0. An offer sends no mail. */
static void settle_desk(int line, const char *what, uint32_t got, uint32_t want, uint32_t mate) {
    check(line, what, got, want);
    check(line, "desk stays", stays(desk, want ? 0 : 64), 1);
    check(line, "site stays", stays(site, mate ? site.lent : 0), 1);
    check(line, "links stay", stays(links, 0), 1);
    check(line, "right", right, mate ? mate : right_before);
}

#define AT desk.words, desk.lent
#define DESK(want, mate, call)                                                                     \
    do {                                                                                           \
        keep(desk), keep(site), keep(links), right_before = right;                                 \
        settle_desk(__LINE__, #call, call, want, mate);                                            \
    } while (0)
#define PLACE(at, frame, tick) WORD(desk, at, (uint64_t)(frame) << 32 | (tick))

/* What each call at the desk answers for a frame, where all answer the same. */
static void at_desk(uint32_t want, uint32_t frame) {
    DESK(want, 0, journal_desk_left(AT, frame, 5));
    DESK(want, 0, journal_desk_right(AT, frame, 5));
    DESK(want, 0, journal_desk_withdraw_left(AT, frame));
    DESK(want, 0, journal_desk_withdraw_right(AT, frame));
    DESK(want, 0, journal_desk_pair(AT, ON, frame, &right));
}

/* Ticks that run past their end, a tie, and an offer that is refused until the leader is active. */
static void pairs(void) {
    uint32_t used;
    desk = lend(65); /* the last word is no place */
    lend_site(2, 1, 2);
    right = 77, desk.words[64] = 78;
    desk.lent = 63, at_desk(JOURNAL_BUFFER, 0), at_desk(JOURNAL_BUFFER, 7);
    desk.lent = 0, at_desk(JOURNAL_BUFFER, 7);
    desk.lent = 65, at_desk(JOURNAL_FRAME, 0);
    DESK(JOURNAL_AWAY, 0, journal_desk_pair(AT, ON, 7, &right));
    DESK(JOURNAL_DONE, 0, journal_desk_left(AT, 7, UINT32_MAX - 15));
    PLACE(0, 7, UINT32_MAX - 15);
    DESK(JOURNAL_WAITS, 0, journal_desk_left(AT, 7, 5));
    DESK(JOURNAL_AWAY, 0, journal_desk_withdraw_right(AT, 7));
    DESK(JOURNAL_FAR, 0, journal_desk_pair(AT, ON, 7, &right)); /* no right frame waits */
    DESK(JOURNAL_DONE, 0, journal_desk_right(AT, 7, 25));
    PLACE(32, 7, 25);
    DESK(JOURNAL_WAITS, 0, journal_desk_right(AT, 7, 25));
    DESK(JOURNAL_FAR, 0, journal_desk_pair(AT, ON, 7, &right)); /* 41 */
    DESK(JOURNAL_DONE, 0, journal_desk_withdraw_right(AT, 7));
    WORD(desk, 32, 0);
    PLACE(0, 7, UINT32_MAX - 15);
    DESK(JOURNAL_AWAY, 0, journal_desk_withdraw_right(AT, 7));
    DESK(JOURNAL_DONE, 0, journal_desk_right(AT, 9, 24));
    DESK(JOURNAL_DONE, 0, journal_desk_right(AT, 8, UINT32_MAX - 55)); /* both 40 */
    DESK(JOURNAL_FORM, 0, journal_desk_pair(AT, ON, 7, &right)); /* words of 0 are no site */
    SITE(JOURNAL_DONE, journal_fresh(ON, 2, 1, 2));
    DESK(JOURNAL_CONDITION, 0, journal_desk_pair(AT, ON, 7, &right)); /* none leads */
    SITE(JOURNAL_DONE, journal_elect(ON, 1));
    DESK(JOURNAL_CONDITION, 0, journal_desk_pair(AT, ON, 7, &right)); /* not yet active */
    SITE(JOURNAL_DONE, journal_run(ON, 200, &used));
    site.lent--;
    DESK(JOURNAL_FORM, 0, journal_desk_pair(AT, ON, 7, &right));
    site.lent++;
    PLACE(0, 7, UINT32_MAX - 15);
    DESK(JOURNAL_DONE, 8, journal_desk_pair(AT, ON, 7, &right));
    WORD(desk, 0, 0);
    PLACE(32, 9, 24);
    WORD(desk, 33, 0);
    DESK(JOURNAL_AWAY, 0, journal_desk_pair(AT, ON, 7, &right));
    DESK(JOURNAL_DONE, 0, journal_desk_left(AT, 7, 0));
    DESK(JOURNAL_CONDITION, 0, journal_desk_pair(AT, ON, 7, &right)); /* one waits: this stays */
    PLACE(0, 7, 0);
    PLACE(32, 9, 24);
    SITE(JOURNAL_DONE, journal_propose(ON, 1));
    SITE(JOURNAL_TAKEN, journal_deliver(ON, 1, 2));
    SITE(JOURNAL_TAKEN, journal_deliver(ON, 2, 1));
    SITE(JOURNAL_DONE, journal_agree(ON, 1));
    SITE(JOURNAL_DONE, journal_holds(ON, 1, 1, 7, 8));
    DESK(JOURNAL_DONE, 0, journal_desk_withdraw_left(AT, 7));
    DESK(JOURNAL_AWAY, 0, journal_desk_withdraw_left(AT, 7));
    WORD(desk, 0, 0);
    for (uint32_t i = 0; i < 32; i++) {
        DESK(JOURNAL_DONE, 0, journal_desk_left(AT, UINT32_MAX - i, i));
        if (i) DESK(JOURNAL_DONE, 0, journal_desk_right(AT, UINT32_MAX - i, i));
    }
    PLACE(31, UINT32_MAX - 31, 31);
    PLACE(63, UINT32_MAX - 31, 31);
    DESK(JOURNAL_FULL, 0, journal_desk_left(AT, 7, 5));
    DESK(JOURNAL_FULL, 0, journal_desk_right(AT, 7, 5));
    DESK(JOURNAL_WAITS, 0, journal_desk_left(AT, UINT32_MAX, 5));
    DESK(JOURNAL_WAITS, 0, journal_desk_right(AT, 9, 5));
    WORD(desk, 64, 78);
    release_site();
    release(desk);
}

int main(void) {
    word_counts();
    short_arrays();
    box_numbers();
    each_call();
    repeats();
    rests();
    leases();
    trims();
    mails();
    runs();
    own_boxes();
    told_boxes();
    largest();
    one_box();
    images();
    longest_image();
    lists();
    pairs();
    frames();
    printf("%d checks, %d failures\n", checks, failures);
    return failures != 0;
}
