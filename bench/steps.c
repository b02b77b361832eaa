/* Times steps, image writes and image reads of the plain C engine and of the journal library: one
   line each, 'NAME<tab>plain<tab>journal' in nanoseconds, the medians of rounds in turn.

   steps plain|formed|journal write|read|length|form n J L TIMES: an image's part so many times and
   nothing else, for a tool that counts instructions. */
#include "plain.h"
#include "engines.h"

struct timespec {
    long seconds, nanoseconds;
};
int clock_gettime(int clock, struct timespec *now);
int printf(const char *format, ...);
void *malloc(u64 size);
void exit(int status);

#define ROUNDS 9
#define ROUND_NANOSECONDS 5000000 /* short: an epoch ends at 1,000,000 */

/* The processor's time for this program: what else runs does not count. */
static double now(void) {
    struct timespec t;
    clock_gettime(2, &t);
    return (double)t.seconds * 1e9 + (double)t.nanoseconds;
}

static void must(u32 fine, const char *what) {
    if (fine) return;
    printf("steps: %s\n", what);
    exit(1);
}

static void calls(const struct engine *e, u32 call, u32 a, u32 b, u32 c) {
    u32 answer = e->step(call, a, b, c);
    must(answer == DONE || answer == TAKEN, "a call was not done");
}

static u32 n;

static void hand_out(const struct engine *e) {
    for (u32 k = 2; k <= n; k++) calls(e, DELIVER, 1, k, 0);
}

static void round_trip(const struct engine *e) {
    for (u32 k = 2; k <= n; k++) calls(e, DELIVER, 1, k, 0), calls(e, DELIVER, k, 1, 0);
}

/* The lease that is out is answered and heard: 2n - 1 steps. */
static void lease(const struct engine *e) {
    round_trip(e);
    calls(e, HEARD, 1, 0, 0);
}

/* From an odd epoch until all have heard the lease: 4n + 1 steps. */
static void election(const struct engine *e) {
    calls(e, ELECT, 1, 0, 0), calls(e, RECOVER, 1, 0, 0), calls(e, COLLECT_CALL, 1, 0, 0);
    round_trip(e);
    calls(e, READY, 1, 0, 0);
    lease(e);
}

/* 5n steps. */
static void load(const struct engine *e, u32 k) {
    calls(e, OFFER, 1, k, k), calls(e, PROPOSE, 1, 0, 0);
    round_trip(e);
    calls(e, AGREE, 1, 0, 0);
    hand_out(e);
    calls(e, FINISH, 1, 0, 0);
    lease(e);
}

static u8 *image;
static u64 length;

/* A small site from its first step to its full book: 13 steps and 4 loads of 15. */
static void do_life(const struct engine *e) {
    must(e->fresh(3, 4, 2) == DONE, "a fresh site");
    election(e);
    for (u32 k = 1; k <= 4; k++) load(e, k);
}
/* Each engine's first kept load, in a book of 64 that holds 32: 32 loads more, and the oldest 32
   are dropped. */
static u32 firsts[2];
static void do_block(const struct engine *e) {
    u32 *first = &firsts[e == &JOURNAL];
    for (u32 k = 1; k <= 32; k++) load(e, k);
    calls(e, TRIM, 1, *first += 32, 0);
}
static void do_election(const struct engine *e) {
    calls(e, TIMEOUT, 1, 0, 0);
    election(e);
}
/* An election and the run after it: 4n steps. A small site begins anew before its last epoch. */
static u32 elections[2];
static void do_run(const struct engine *e) {
    u32 *k = &elections[e == &JOURNAL], used = 0;
    if (++*k == 400000) *k = 0, do_life(e);
    calls(e, TIMEOUT, 1, 0, 0), calls(e, ELECT, 1, 0, 0);
    must(e->run(200, &used) == DONE && used == 4 * n, "a run");
}
/* The frame of the last load of the last box: a full reading goes through the whole book. */
static u32 sought;
static void do_find(const struct engine *e) {
    u32 number = 0;
    must(e->find(n, sought, &number) == DONE && number == sought, "a find");
}
static void do_read(const struct engine *e) { must(e->read(image, length) == DONE, "a read"); }
static void do_write(const struct engine *e) { must(e->write(image, length) == DONE, "a write"); }
static void do_copy(const struct engine *e) {
    static u8 *other;
    if (!other) other = malloc(length);
    (void)e;
    __builtin_memcpy(other, image, length);
    __asm__ volatile("" : : "r"(other) : "memory");
}

/* Nanoseconds for one doing, over as many as fill a round. */
static double round_of(const struct engine *e, void (*act)(const struct engine *)) {
    for (u64 count = 1;; count *= 2) {
        double began = now();
        for (u64 i = 0; i < count; i++) act(e);
        double taken = now() - began;
        if (taken > ROUND_NANOSECONDS) return taken / (double)count;
    }
}

static double median(double *of) {
    for (u32 i = 1; i < ROUNDS; i++)
        for (u32 k = i; k && of[k] < of[k - 1]; k--) {
            double t = of[k];
            of[k] = of[k - 1], of[k - 1] = t;
        }
    return of[ROUNDS / 2];
}

static void measure(const char *name, const struct engine *beside,
                    void (*act)(const struct engine *), double per) {
    double plain[ROUNDS], other[ROUNDS];
    for (u32 i = 0; i < ROUNDS; i++) {
        plain[i] = round_of(beside, act) / per;
        other[i] = round_of(&JOURNAL, act) / per;
    }
    printf("%s\t%.0f\t%.0f\n", name, median(plain), median(other));
}

static void measure_copy(const char *name) {
    double taken[ROUNDS];
    for (u32 i = 0; i < ROUNDS; i++) taken[i] = round_of(&PLAIN, do_copy);
    printf("%s\t%.0f\t\n", name, median(taken));
}

static void begin(u32 boxes, u32 j, u32 l, u32 loads) {
    const struct engine *both[] = {&PLAIN, &JOURNAL};
    n = boxes;
    for (u32 i = 0; i < 2; i++) {
        must(both[i]->fresh(n, j, l) == DONE, "a fresh site");
        election(both[i]);
        for (u32 k = 1; k <= loads; k++) load(both[i], k);
    }
}

/* Every link full of Commits with the whole book: as large as an image can be. */
static void fill_links(void) {
    for (u32 a = 0; a < site.n; a++)
        for (u32 b = 0; b < site.n; b++) {
            struct link *link = &site.links[a][b];
            link->first = 0, link->count = a == b ? 0 : site.l;
            for (u32 i = 0; i < link->count; i++) {
                struct mail *m = &link->mails[i];
                m->kind = COMMIT, m->pn = 1, m->last = m->count = site.j, m->unagreed_pn = 0;
                m->first = 1;
                for (u32 k = 0; k < site.j; k++) m->records[k] = site.boxes[a].records[k];
            }
        }
}

static void take_image(void) {
    length = image_length(&site);
    image = malloc(length);
    image_write(&site, image);
    must(JOURNAL.read(image, length) == DONE, "the library does not read the plain image");
    u8 *again = malloc(length);
    must(JOURNAL.write(again, length) == DONE, "the library's image has another length");
    must(__builtin_memcmp(image, again, length) == 0, "the library's image has other bytes");
}

/* How an election's steps grow: with the boxes, with what they hold, and not with the room. */
static void measure_growth(void) {
    static const struct {
        const char *name;
        u32 n, j, l, loads;
    } sites[] = {
        {"step, 2 boxes, 64 loads", 2, 64, 4, 64},
        {"step, 3 boxes, 64 loads", 3, 64, 4, 64},
        {"step, 4 boxes, 64 loads", 4, 64, 4, 64},
        {"step, 5 boxes, 64 loads", 5, 64, 4, 64},
        {"step, 3 boxes, 16 loads in room for 16, 1 mail a link", 3, 16, 1, 16},
        {"the same in room for 4,096, 1 mail a link", 3, 4096, 1, 16},
        {"the same in room for 16, 16 mails a link", 3, 16, 16, 16},
        {"step, 3 boxes, 1,024 loads", 3, 4096, 16, 1024},
        {"step, 3 boxes, 4,096 loads", 3, 4096, 16, 4096},
    };
    for (u32 i = 0; i < sizeof sites / sizeof *sites; i++) {
        begin(sites[i].n, sites[i].j, sites[i].l, sites[i].loads);
        measure(sites[i].name, &FORMED, do_election, 4 * n + 2);
    }
    begin(3, 64, 4, 32);
    firsts[0] = firsts[1] = 1;
    measure("a load, 3 boxes, a book of 64 trimmed by 32", &FORMED, do_block, 32);
    while (firsts[0] < 1000000) do_block(&FORMED);
    while (firsts[1] < 1000000) do_block(&JOURNAL);
    measure("the same after a million loads", &FORMED, do_block, 32);
    static const u32 mails[] = {1, 4, 16};
    static const char *writes[] = {"image write, 3 boxes, 64 loads, 1 mail a link held",
                                   "image write, 4 mails a link", "image write, 16 mails a link"};
    for (u32 i = 0; i < 3; i++) {
        begin(3, 64, mails[i], 64);
        fill_links();
        take_image();
        measure(writes[i], &FORMED, do_write, 1);
        measure("image read of the same", &PLAIN, do_read, 1);
    }
}

static u32 number(const char *text) {
    u32 x = 0;
    while (*text) x = 10 * x + (u32)(*text++ - '0');
    return x;
}

static void do_length(const struct engine *e) { must(e->length() == length, "a length"); }
/* What comes before a write too, and little else. */
static void do_form(const struct engine *e) { must(e->step(LOSE, 1, 1, 0) == 2, "a call"); }

/* Boxes whose books are full, as are the links. */
static void repeat(char **word) {
    const struct engine *e = *word[1] == 'p' ? &PLAIN : *word[1] == 'f' ? &FORMED : &JOURNAL;
    void (*act)(const struct engine *) = *word[2] == 'w'   ? do_write
                                         : *word[2] == 'r' ? do_read
                                         : *word[2] == 'l' ? do_length
                                                           : do_form;
    u32 j = number(word[4]), l = number(word[5]);
    n = number(word[3]);
    must(PLAIN.fresh(n, j, l) == DONE && JOURNAL.fresh(n, j, l) == DONE, "a fresh site");
    for (u32 c = 0; c < n; c++) {
        struct camera *b = &site.boxes[c];
        b->last = b->held = j;
        for (u32 k = 0; k < j; k++) b->records[k] = (u64)1 << 32 | (k + 1);
    }
    fill_links();
    take_image();
    for (u32 i = number(word[6]); i; i--) act(e);
}

int main(int arguments, char **argument) {
    if (arguments == 7) return repeat(argument), 0;
    if (arguments > 1) return measure_growth(), 0;
    begin(3, 4, 2, 4);
    measure("step, 3 boxes, 4 loads", &PLAIN, do_life, 73);
    measure("the same, form looked at in C too", &FORMED, do_life, 73);
    measure("election and run of 12 steps, 3 boxes, 4 loads", &PLAIN, do_run, 1);
    measure("the same, form looked at in C too", &FORMED, do_run, 1);
    begin(3, 4, 2, 4);
    take_image();
    measure("image write, 3 boxes, 4 loads", &PLAIN, do_write, 1);
    measure("the same, form looked at in C too", &FORMED, do_write, 1);
    measure("image read, 3 boxes, 4 loads", &PLAIN, do_read, 1);
    begin(3, 64, 4, 64);
    sought = 64;
    measure("find the last of 64 loads, 3 boxes", &PLAIN, do_find, 1);
    measure("the same, form looked at in C too", &FORMED, do_find, 1);
    measure("of these to look at form", &FORMED, do_form, 1);
    begin(5, 4096, 16, 4096);
    sought = 4096;
    measure("find the last of 4,096 loads, 5 boxes", &PLAIN, do_find, 1);
    measure("the same, form looked at in C too", &FORMED, do_find, 1);
    measure("of these to look at form", &FORMED, do_form, 1);
    measure("step, 5 boxes, 4,096 loads", &PLAIN, do_election, 22);
    measure("the same, form looked at in C too", &FORMED, do_election, 22);
    begin(5, 4096, 16, 4096);
    measure("election and run of 20 steps, 5 boxes, 4,096 loads", &PLAIN, do_run, 1);
    measure("the same, form looked at in C too", &FORMED, do_run, 1);
    fill_links();
    take_image();
    measure("image write, largest", &PLAIN, do_write, 1);
    measure("the same, form looked at in C too", &FORMED, do_write, 1);
    measure("image read, largest", &PLAIN, do_read, 1);
    measure_copy("memcpy of the largest image");
    return 0;
}
