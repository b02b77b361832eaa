/* The stack that each exported function needs, at three sizes of site: a line for each, its name
   and the most bytes that a call took at n = 1, J = 1, L = 1; at n = 2, J = 1, L = 1, the smallest that
   has mails; and at n = 5, J = 4,096, L = 16; parted by tabs.

   A call is made on a stack of its own whose words are marked; the lowest word that has lost its
   mark counts. So the call itself counts too, its arguments and the place to go back to, and what
   the library calls (memcpy). Sites go their way at random from several beginnings, every call is
   tried on the way, a run to its end too, and so is every box by itself on a copy of its row. The
   longest run that is known is measured before. An answer that the header
   lists and that was not met is a failure, as is a kind of mail that was not taken.

   With APART an image's writer has the fault that the test is for: it builds a body in a copy. */
#include "journal.h"
#include <stdio.h>
#include <string.h>

#include "../c/index.h"

typedef uint8_t u8;
typedef uint32_t u32;
typedef uint64_t u64;

void *mmap(void *at, size_t size, int may, int how, int file, long from);
int mprotect(void *at, size_t size, int may);
void exit(int status);

enum { MOST_N = 5, MOST_J = 4096, MOST_L = 16 };

static void stop_with(const char *why) {
    printf("stack: %s\n", why);
    exit(1);
}

/* ---- a stack of its own */

#define MARK 0x9e3779b97f4a7c15u
enum { ROOM = 1 << 16, NO_ROOM = 64 << 20 }; /* below the room nothing can be written */
static u64 *bottom;

/* Calls act with the stack pointer at top. */
void run_on(u64 *top, void (*act)(void));
__asm__(".text\n"
        "run_on:\n"
        "push %rbp\n"
        "mov %rsp, %rbp\n"
        "mov %rdi, %rsp\n"
        "call *%rsi\n"
        "mov %rbp, %rsp\n"
        "pop %rbp\n"
        "ret\n");

static void make_stack(void) {
    u8 *all = mmap(NULL, NO_ROOM + ROOM, 0, 0x22, -1, 0);
    if (all == (u8 *)-1 || mprotect(all + NO_ROOM, ROOM, 3)) stop_with("there is no memory");
    bottom = (u64 *)(all + NO_ROOM);
    for (u64 i = 0; i < ROOM / 8; i++) bottom[i] = MARK;
}

static u64 depth_of(void (*act)(void)) {
    u64 i = 0;
    run_on(bottom + ROOM / 8, act);
    while (i < ROOM / 8 && bottom[i] == MARK) i++;
    u64 depth = ROOM - 8 * i;
    for (; i < ROOM / 8; i++) bottom[i] = MARK;
    return depth;
}

/* ---- what is lent, and the arguments of the next call */

static u64 site[JOURNAL_SITE_WORDS(MOST_N, MOST_J)];
static u64 links[JOURNAL_LINKS_WORDS(MOST_N, MOST_J, MOST_L)];
static u64 row[JOURNAL_ROW_WORDS(MOST_J)], letter[JOURNAL_PLACE_WORDS(MOST_J)];
static u64 out[JOURNAL_PLACE_WORDS(MOST_J)], desk[64], desk_words;
static u8 image[JOURNAL_IMAGE_MOST(MOST_N, MOST_J, MOST_L)];
static u64 site_words, links_words, out_words, image_bytes, length, first, at, count, others;
static u32 n, j, l, me, x, y, z, w, answer, to, used;

#define LENT site, site_words, links, links_words
#define ROW row, JOURNAL_ROW_WORDS(j)
#define TOLD n, j, l, (u32)site[3], (u32)site[4], me
#define ALONE ROW, out, out_words, &to, TOLD

static void do_site_words(void) { answer = !journal_site_words(n, j, l); }
static void do_links_words(void) { answer = n > 1 && !journal_links_words(n, j, l); }
static void do_fresh(void) { answer = journal_fresh(LENT, n, j, l); }
static void do_elect(void) { answer = journal_elect(LENT, x); }
static void do_recover(void) { answer = journal_recover(LENT, x); }
static void do_collect(void) { answer = journal_collect(LENT, x); }
static void do_ready(void) { answer = journal_ready(LENT, x); }
static void do_offer(void) { answer = journal_offer(LENT, x, y, z); }
static void do_propose(void) { answer = journal_propose(LENT, x); }
static void do_agree(void) { answer = journal_agree(LENT, x); }
static void do_finish(void) { answer = journal_finish(LENT, x); }
static void do_heard(void) { answer = journal_heard(LENT, x); }
static void do_trim(void) { answer = journal_trim(LENT, x, y); }
static void do_stop(void) { answer = journal_stop(LENT, x); }
static void do_return(void) { answer = journal_return(LENT, x); }
static void do_timeout(void) { answer = journal_timeout(LENT, x); }
static void do_lose(void) { answer = journal_lose(LENT, x, y); }
static void do_repeat(void) { answer = journal_repeat(LENT, x, y); }
static void do_deliver(void) { answer = journal_deliver(LENT, x, y); }
static void do_holds(void) { answer = journal_holds(LENT, x, y, z, w); }
static void do_find(void) { answer = journal_find(LENT, x, z, &to); }
static void do_unheard(void) { answer = journal_unheard(LENT, x, &to); }
static void do_rest(void) { answer = journal_rest(LENT); }
static void do_run(void) { answer = journal_run(LENT, 1000, &used); }
static void do_agreed(void) { answer = journal_agreed(LENT, x, &first, &at, &count); }
static void do_longer(void) { answer = journal_longer(site + at, count, out, others); }
static void do_desk_left(void) { answer = journal_desk_left(desk, desk_words, x, y); }
static void do_desk_right(void) { answer = journal_desk_right(desk, desk_words, x, y); }
static void do_desk_withdraw_left(void) {
    answer = journal_desk_withdraw_left(desk, desk_words, x);
}
static void do_desk_withdraw_right(void) {
    answer = journal_desk_withdraw_right(desk, desk_words, x);
}
static void do_desk_pair(void) { answer = journal_desk_pair(desk, desk_words, LENT, x, &to); }
static void do_own_recover(void) { answer = journal_own_recover(ALONE); }
static void do_own_collect(void) { answer = journal_own_collect(ALONE); }
static void do_own_ready(void) { answer = journal_own_ready(ALONE); }
static void do_own_offer(void) { answer = journal_own_offer(ALONE, y, z); }
static void do_own_propose(void) { answer = journal_own_propose(ALONE); }
static void do_own_agree(void) { answer = journal_own_agree(ALONE); }
static void do_own_finish(void) { answer = journal_own_finish(ALONE); }
static void do_own_heard(void) { answer = journal_own_heard(ALONE); }
static void do_own_trim(void) { answer = journal_own_trim(ALONE, y); }
static void do_own_fresh(void) { answer = journal_own_fresh(row, out_words, n, j, l); }
static void do_own_elected(void) { answer = journal_own_elected(ROW, TOLD, x); }
static void do_own_holds(void) { answer = journal_own_holds(ROW, TOLD, y, z, w); }
static void do_own_unheard(void) { answer = journal_own_unheard(ROW, &to, TOLD); }
static void do_own_mail(void) {
    answer = journal_own_mail(ROW, letter, JOURNAL_PLACE_WORDS(j), out, out_words, &to, TOLD, x);
}
static void do_image_length(void) { answer = journal_image_length(LENT, &length); }
static void do_read(void) { answer = journal_read(image, image_bytes, LENT); }
static void do_body(void) { answer = journal_body(image, image_bytes, &at, &count, x); }
static void do_named(void) { answer = journal_named(image, image_bytes, &at, &count, x); }
#ifdef APART
static __attribute__((noinline)) void apart(u8 *body, u64 bytes) {
    u8 copy[JOURNAL_IMAGE_MOST(1, MOST_J, 1)];
    if (bytes > sizeof copy) bytes = sizeof copy;
    for (u64 i = 0; i < bytes; i++) *(volatile u8 *)(copy + i) = body[i];
    for (u64 i = 0; i < bytes; i++) body[i] = *(volatile u8 *)(copy + i);
}
static void do_write(void) {
    answer = journal_write(LENT, image, image_bytes, &length);
    if (!answer) apart(image, length);
}
#else
static void do_write(void) { answer = journal_write(LENT, image, image_bytes, &length); }
#endif

/* ---- what has been measured */

/* answers: those that must be met at the largest sizes; a mail's kind, else 0. */
enum { SIZES = 3, END = 255 };
static struct entry {
    const char *name;
    void (*act)(void);
    u32 kind;
    u8 answers[10];
    u64 bytes[SIZES], met[SIZES];
} entries[] = {
#define CALL(name, ...) {"journal_" #name, do_##name, 0, {__VA_ARGS__, END}, {0}, {0}}
#define MAIL(name, kind, words) {"journal_" #name ", " words, do_##name, kind, {100, END}, {0}, {0}}
#define MAILS(name)                                                                                \
    MAIL(name, 1, "a Collect"), MAIL(name, 2, "a Last"), MAIL(name, 3, "a Begin"),                 \
        MAIL(name, 4, "an Accept"), MAIL(name, 5, "a Commit"), MAIL(name, 6, "a Lease"),           \
        MAIL(name, 7, "a LeaseAck")
    CALL(site_words, 0, 1),
    CALL(links_words, 0, 1),
    CALL(fresh, 0, 12, 13),
    CALL(elect, 0, 1, 2, 3, 4),
    CALL(recover, 0, 1, 2, 3, 6),
    CALL(collect, 0, 1, 2, 3, 8),
    CALL(ready, 0, 1, 2, 3, 7, 8),
    CALL(offer, 0, 1, 2, 3, 10),
    CALL(propose, 0, 1, 2, 3, 7, 8),
    CALL(agree, 0, 1, 2, 3, 8),
    CALL(finish, 0, 1, 2, 3, 8),
    CALL(heard, 0, 1, 2, 3),
    CALL(trim, 0, 1, 2, 3),
    CALL(stop, 0, 1, 2, 3, 5),
    CALL(return, 0, 1, 2, 3, 5),
    CALL(timeout, 0, 1, 2, 3, 5),
    CALL(lose, 0, 1, 2, 3),
    CALL(repeat, 0, 1, 2, 3, 8),
    CALL(deliver, 1, 2, 3),
    MAILS(deliver),
    CALL(holds, 0, 1, 2, 14),
    CALL(find, 0, 1, 2, 10),
    CALL(unheard, 0, 1, 2, 3),
    CALL(rest, 0, 1, 3),
    CALL(run, 0, 1, 3, 206, 207, 208),
    CALL(agreed, 0, 1, 2),
    CALL(longer, 1, 2, 22),
    CALL(desk_left, 0, 10, 12, 19, 20),
    CALL(desk_right, 0, 10, 12, 19, 20),
    CALL(desk_withdraw_left, 0, 10, 12, 23),
    CALL(desk_withdraw_right, 0, 10, 12, 23),
    CALL(desk_pair, 0, 1, 3, 10, 12, 21, 23),
    CALL(own_recover, 0, 1, 2, 3, 6, 12, 13),
    CALL(own_collect, 0, 1, 2, 3, 12, 13),
    CALL(own_ready, 0, 1, 2, 3, 7, 12, 13),
    CALL(own_offer, 0, 1, 2, 3, 10, 12, 13),
    CALL(own_propose, 0, 1, 2, 3, 7, 12, 13),
    CALL(own_agree, 0, 1, 2, 3, 12, 13),
    CALL(own_finish, 0, 1, 2, 3, 12, 13),
    CALL(own_heard, 0, 1, 2, 3, 12, 13),
    CALL(own_trim, 0, 1, 2, 3, 12, 13),
    CALL(own_mail, 1, 2, 12, 13),
    MAILS(own_mail),
    CALL(own_fresh, 0, 12, 13),
    CALL(own_elected, 0, 1, 2, 3, 4, 13),
    CALL(own_holds, 0, 1, 2, 13, 14),
    CALL(own_unheard, 0, 1, 2, 3, 13),
    CALL(image_length, 0, 1),
    CALL(write, 0, 1, 12),
    CALL(read, 0, 1, 12),
    CALL(body, 0, 1, 3),
    CALL(named, 0, 3),
};
enum { ENTRIES = sizeof entries / sizeof *entries };
static u32 size; /* which of the three */

static u64 bit_of(u32 a) { return (u64)1 << (a < 64 ? a : a < 128 ? a - 64 : a - 160); }

static u32 of_kind(void (*act)(void), u32 kind) {
    struct entry *e = entries;
    while (e->act != act || e->kind != kind) e++;
    u64 depth = depth_of(act);
    if (depth > e->bytes[size]) e->bytes[size] = depth;
    e->met[size] |= bit_of(answer);
    return answer;
}

static u32 measured(void (*act)(void)) { return of_kind(act, 0); }

/* ---- sites on their way */

static u64 *row_of(u32 c) { return site + 5 + (u64)(c - 1) * JOURNAL_ROW_WORDS(j); }

static u64 *link_of(u32 a, u32 b) {
    u32 pair = (a - 1) * (n - 1) + (b < a ? b - 1 : b - 2);
    return links + (u64)pair * (2 + (u64)l * JOURNAL_PLACE_WORDS(j));
}

static u32 below(u32 k) {
    static u64 state = 88172645463325252u;
    state ^= state << 13, state ^= state >> 7, state ^= state << 17;
    return (u32)(state >> 33) % k;
}

/* How a site begins: fresh; every book full; each box a load behind the one before; near the last
   epoch and the last proposal number; and with words that no step gives, at random. */
enum { FRESH, FULL, BEHIND, LATE, FOREIGN, BEGINNINGS };
enum { EVENTS = 3000 };
static u32 beginning, jammed; /* jammed: little mail is handed over */

static u32 some_box(void) { return 1 + below(n); }

/* The box that leads, or any. */
static u32 leader(void) {
    for (u32 c = 1; c <= n; c++)
        if (row_of(c)[0] && below(8)) return c;
    return some_box();
}

static void be_alone(u32 c) {
    me = c, out_words = JOURNAL_PLACE_WORDS(j);
    memcpy(row, row_of(c), 8 * (u64)JOURNAL_ROW_WORDS(j));
}

/* Calls that are refused, on a site and on a box by itself that stay as they are. */
static void refused(void (*of_site)(void)) {
    if (below(8)) return;
    u32 box = x;
    u64 *flag = row_of(1), was = *flag;
    x = n + 1, measured(of_site), x = box;
    *flag = 2, measured(of_site), *flag = was;
}

static void refused_alone(void (*alone)(void)) {
    out_words = j, measured(alone), out_words = JOURNAL_PLACE_WORDS(j);
    if (below(8)) return;
    u32 box = me, boxes = n;
    u64 flag = row[0];
    me = n + 1, measured(alone), me = box;
    row[0] = 2, measured(alone), row[0] = flag;
    n = 6, measured(alone), n = boxes;
}

static u32 called(u32 c, void (*of_site)(void), void (*alone)(void)) {
    if (alone) {
        be_alone(c);
        refused_alone(alone);
        measured(alone);
    }
    x = c;
    refused(of_site);
    return measured(of_site);
}

static void mailed(u32 a, u32 b) {
    const u64 *link = link_of(a, b), *head = link + 2 + link[0] * JOURNAL_PLACE_WORDS(j);
    x = a, y = b;
    if (!link[1]) {
        refused(do_deliver);
        measured(do_deliver);
        return;
    }
    u32 kind = (u32)head[0];
    be_alone(b);
    memcpy(letter, head, 8 * (u64)JOURNAL_PLACE_WORDS(j));
    refused_alone(do_own_mail);
    letter[0] = 9, measured(do_own_mail), letter[0] = kind;
    of_kind(do_own_mail, kind);
    of_kind(do_deliver, kind);
}

/* A box has no link to itself. */
static void no_mail(u32 c) {
    x = y = c;
    measured(do_deliver);
    be_alone(c);
    memset(letter, 0, sizeof letter);
    letter[0] = 1; /* Collect(0, 0) */
    measured(do_own_mail);
}

static void elected(u32 c) {
    u64 present = site[4];
    be_alone(some_box());
    x = c, refused_alone(do_own_elected);
    site[4] = (u64)1 << (c - 1), site[3] ^= 1;
    measured(do_own_elected);
    site[4] = present, site[3] ^= 1;
    x = c, refused(do_elect);
    if (measured(do_elect) == 0) measured(do_own_elected);
}

static void asked(u32 c) {
    const u64 *r = row_of(c);
    u64 record = r[4] >= r[5] ? r[22] : 0;
    y = (u32)r[5], z = (u32)(record >> 32), w = (u32)record;
    called(c, do_holds, do_own_holds);
    y = (u32)r[4] + 1;
    called(c, do_holds, do_own_holds);
    called(c, do_find, NULL);
    z = 0, called(c, do_find, NULL);
    called(c, do_unheard, do_own_unheard);
}

/* A box's agreed loads beside the same, beside one more, and beside another. */
static void compared(u32 c) {
    called(c, do_agreed, NULL);
    memcpy(out, site + at, 8 * count), others = count;
    measured(do_longer);
    if (!count) return;
    count--, measured(do_longer), count++;
    out[count - 1]++, measured(do_longer);
}

/* A run to its end; the site stays as it is. */
static void runs(void) {
    static u64 kept[sizeof site / 8], mails[sizeof links / 8];
    memcpy(kept, site, 8 * site_words), memcpy(mails, links, 8 * links_words);
    site[5] = 2, measured(do_run), site[5] = kept[5];
    measured(do_run);
    memcpy(site, kept, 8 * site_words), memcpy(links, mails, 8 * links_words);
}

/* Put at rest, in either parity; the site stays as it is. */
static void rests(void) {
    static u64 kept[sizeof site / 8], mails[sizeof links / 8];
    memcpy(kept, site, 8 * site_words), memcpy(mails, links, 8 * links_words);
    site[5] = 2, measured(do_rest), site[5] = kept[5];
    site[3] = 2, measured(do_rest), site[3] = 3, measured(do_rest);
    memcpy(site, kept, 8 * site_words), memcpy(links, mails, 8 * links_words);
}

static void at_desk(u32 frame) {
    x = frame;
    measured(do_desk_left), measured(do_desk_right);
    measured(do_desk_withdraw_left), measured(do_desk_withdraw_right), measured(do_desk_pair);
}

/* Both sides fill; left 32 is far from every right frame. The site stays as it is. */
static void pairs(void) {
    static u64 kept[sizeof site / 8];
    memcpy(kept, site, 8 * site_words);
    memset(desk, 0, sizeof desk);
    desk_words = 63, at_desk(1), desk_words = 64, at_desk(0);
    for (x = 1; x <= 32; x++) {
        y = x < 32 ? 100 * x : 1u << 31, measured(do_desk_left);
        y = 100 * x + 40, measured(do_desk_right);
    }
    at_desk(33);
    x = 1, measured(do_desk_left), measured(do_desk_right);
    x = 32, measured(do_desk_pair);
    site[5] = 2, x = 31, measured(do_desk_pair), site[5] = kept[5];
    measured(do_desk_pair);
    x = 32, measured(do_desk_withdraw_left), measured(do_desk_withdraw_right);
    memcpy(site, kept, 8 * site_words);
}

static void images(void) {
    x = 1;
    refused(do_image_length);
    measured(do_image_length);
    image_bytes = length;
    refused(do_write);
    image_bytes--, measured(do_write), image_bytes++;
    measured(do_write);
    image_bytes--, measured(do_read), image_bytes++;
    site_words--, measured(do_read), site_words++;
    measured(do_read);
    image_bytes--, measured(do_body), image_bytes++;
    for (x = 0; x <= n + 3; x++) measured(do_body), measured(do_named);
}

/* A link that holds a mail, where one is found. */
static void choose_link(u32 *a, u32 *b) {
    for (u32 tries = 0; tries < 80; tries++) {
        *a = some_box(), *b = some_box();
        if (*a != *b && link_of(*a, *b)[1]) return;
    }
}

/* A leader's step, or one that it cannot take yet. */
static void step(u32 c) {
    static void (*const steps[][2])(void) = {
        {do_recover, do_own_recover}, {do_collect, do_own_collect}, {do_ready, do_own_ready},
        {do_propose, do_own_propose}, {do_agree, do_own_agree},     {do_finish, do_own_finish},
        {do_heard, do_own_heard},
    };
    u32 k = below(7);
    called(c, steps[k][0], steps[k][1]);
}

/* The box keeps the agreed loads 1 to last, and so many more. */
static void keep(u64 *r, u64 last, u64 more) {
    r[4] = last, r[5] = 1, r[21] = last + more;
    for (u64 i = 0; i < last + more; i++) r[22 + i] = (u64)7 << 32 | (i + 1);
    put_index(r, j);
}

/* Words of a box that are by form, whatever was agreed; a state often has one of its phases. */
static void be_foreign(u64 *r) {
    static const u8 phases[] = {2, 3, 4, 4, 5};
    u32 last = j - below(2);
    for (u32 c = 1; c <= n; c++) row_of(c)[0] = 0; /* no more than one leads */
    keep(r, last, last < j && below(2));
    r[0] = 1, r[1] = below(5), r[2] = below(2) ? phases[r[1]] : below(7);
    r[3] = 100 + below(3), r[10] = r[11] = r[12] = below(2) ? site[4] : 1;
    r[8] = below(2) ? r[3] : 0, r[9] = r[4] + 1, r[13] = (u64)7 << 32 | 9;
}

/* One of many things, the likelier that goes on with agreeing loads. */
static void event(void) {
    u32 what = below(1000), c = leader(), a = some_box(), b = some_box();
    choose_link(&a, &b);
    if (beginning == FOREIGN && !below(4)) be_foreign(row_of(some_box()));
    if (what < 500 && jammed && below(5)) what = 500 + below(320);
    if (what < 500) {
        if (a != b) mailed(a, b);
        else no_mail(a);
    } else if (what < 820) {
        step(c);
    } else if (what < 860) {
        pairs();
        y = below(9), z = 5;
        called(c, do_offer, do_own_offer);
    } else if (what < 910) {
        if (!jammed) elected(some_box());
    } else if (what < 925) {
        if (beginning == FULL) return;
        y = (u32)(row_of(a)[5] + below((u32)(row_of(a)[4] + 3 - row_of(a)[5])));
        called(a, do_trim, do_own_trim);
    } else if (what < 950 && jammed) {
        step(c);
    } else if (what < 930) {
        called(a, do_timeout, NULL);
    } else if (what < 935) {
        called(a, do_stop, NULL);
    } else if (what < 950) {
        called(a, do_return, NULL);
    } else if (what < 965) {
        y = b;
        called(a, what < 955 ? do_lose : do_repeat, NULL);
    } else if (what < 985) {
        asked(c);
    } else if (what < 988) {
        compared(a);
    } else if (what < 992) {
        runs();
        rests();
    } else {
        images();
    }
}

/* On each link a Begin or a Collect that no leader of the site could have sent. */
static void begin_foreign(void) {
    const u64 mails[2][7] = {{3, 102, j, 1, 0, 1, (u64)7 << 32 | 9}, {1, 102, j, 0, 0, 0}};
    site[3] += site[3] % 2;
    for (u32 a = 1; a <= n; a++)
        for (u32 b = 1; b <= n; b++) {
            if (a == b) continue;
            u64 *link = link_of(a, b);
            memcpy(link + 2, mails[below(2)], sizeof *mails), link[0] = 0, link[1] = 1;
        }
}

/* Every link that has a mail becomes full, and little mail is handed over. */
static void jam(void) {
    if (beginning == FOREIGN) begin_foreign();
    for (x = 1; x <= n; x++)
        for (y = 1; y <= n; y++)
            while (x != y && measured(do_repeat) == 0) continue;
    jammed = 1;
}

static void begin(void) {
    u32 how = beginning;
    site_words = journal_site_words(n, j, l), links_words = journal_links_words(n, j, l);
    u32 boxes = n;
    measured(do_site_words), measured(do_links_words);
    n = 6, measured(do_site_words), measured(do_links_words), measured(do_fresh), n = boxes;
    site_words--, measured(do_fresh), site_words++;
    measured(do_fresh);
    be_alone(1);
    n = 6, measured(do_own_fresh), n = boxes;
    out_words = j, measured(do_own_fresh);
    out_words = JOURNAL_ROW_WORDS(j), measured(do_own_fresh);
    for (u32 c = 1; c <= n; c++) {
        u64 *r = row_of(c);
        if (how != FRESH) r[3] = 100 + c;
        if (how == FULL || how == FOREIGN) keep(r, j, 0);
        if (how == BEHIND) keep(r, j > n ? j - c : 0, 0);
        if (how == LATE) r[3] = 999999700 + 60 * (c - 1) + c;
    }
    if (how == LATE) site[3] = 999981;
    if (how == FOREIGN) begin_foreign();
    jammed = 0;
    images();
}

/* The longest run that is known: each of the others has promised more than the one before, so that
   the last box asks again and again, and one holds a record that is not agreed. */
static void longest(void) {
    u64 *r = row_of(1);
    begin();
    x = n, measured(do_elect);
    for (u32 c = 1; c < n; c++) row_of(c)[3] = 1000 * c;
    if (n > 1) keep(r, 0, 1), r[6] = r[7] = 1;
    if (measured(do_run) || (n == MOST_N && used != 70)) stop_with("the longest run is another");
}

/* ---- what came of it */

static u64 all_met(void (*act)(void), u32 which) {
    u64 met = 0;
    for (u32 i = 0; i < ENTRIES; i++)
        if (entries[i].act == act) met |= entries[i].met[which];
    return met;
}

static u32 not_met;

static void must(u64 met, u32 number, const char *name, u32 which) {
    if (met & bit_of(number)) return;
    printf("%s did not answer %u at size %u\n", name, number, which);
    not_met = 1;
}

/* What one box with room for one record can never do. */
static u32 needs_more(void (*act)(void)) {
    return act == do_recover || act == do_own_recover || act == do_trim || act == do_own_trim ||
           act == do_lose || act == do_repeat;
}

static void look(void) {
    static const u8 mails[] = {6, 7, 8, 101, 102, 103, 104}; /* 8 is the site's alone */
    for (u32 i = 0; i < ENTRIES; i++) {
        const struct entry *e = entries + i;
        for (u32 k = 0; e->answers[k] != END; k++) must(e->met[2], e->answers[k], e->name, 2);
        if (e->kind) must(e->met[1], 100, e->name, 1);
        if (e->answers[0] == 0 && !needs_more(e->act)) must(e->met[0], 0, e->name, 0);
    }
    for (u32 k = 0; k < sizeof mails; k++) {
        must(all_met(do_deliver, 2), mails[k], "journal_deliver", 2);
        if (mails[k] != 8) must(all_met(do_own_mail, 2), mails[k], "journal_own_mail", 2);
    }
    if (not_met) exit(1);
}

int main(void) {
    static const u32 sizes[SIZES][3] = {{1, 1, 1}, {2, 1, 1}, {MOST_N, MOST_J, MOST_L}};
    make_stack();
    for (size = 0; size < SIZES; size++) {
        n = sizes[size][0], j = sizes[size][1], l = sizes[size][2];
        beginning = FRESH, longest();
        for (u32 how = 0; how < 4 * BEGINNINGS; how++) {
            beginning = how % BEGINNINGS, begin();
            for (u32 i = 0; i < EVENTS; i++) {
                if (i == EVENTS / 3 * 2) jam();
                event();
            }
        }
    }
    look();
    for (u32 i = 0; i < ENTRIES; i++)
        printf("%s\t%lu\t%lu\t%lu\n", entries[i].name, entries[i].bytes[0], entries[i].bytes[1],
               entries[i].bytes[2]);
    return 0;
}
