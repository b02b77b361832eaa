/* `apply` on the C library, twice: with every box by itself, this program carrying the mails, and
   by the library's own calls on a site; a run at once, and step by step. Both must give the same, and
   it what `apply` prints. */
#include "apply.h"
#include "engines.h"
#include "journal.h"

static u64 words[JOURNAL_SITE_WORDS(5, 4096)], links[JOURNAL_LINKS_WORDS(5, 4096, 16)];
static u64 row[JOURNAL_ROW_WORDS(4096)], letter[JOURNAL_PLACE_WORDS(4096)];
static u8 other[LONGEST_AFTER];

/* No refusal of the paper's: the two ways differ, or a refused call changed the site. */
#define DIFFERS 99

static u32 n, j, l;
static const u8 *given;
static u64 given_length;

#define LENT words, sizeof words / 8, links, sizeof links / 8
#define ALONE                                                                                      \
    row, JOURNAL_ROW_WORDS(j), letter, JOURNAL_PLACE_WORDS(j), &to, n, j, l, (u32)words[3],       \
        (u32)words[4]

static u64 *row_of(u32 c) { return words + 5 + (u64)(c - 1) * JOURNAL_ROW_WORDS(j); }

/* The link from a to b: the place of its head, its count, L places. */
static u64 *link_of(u32 a, u32 b) {
    u32 pair = (a - 1) * (n - 1) + (b < a ? b - 1 : b - 2);
    return links + (u64)pair * (2 + (u64)l * JOURNAL_PLACE_WORDS(j));
}

static u64 *place_of(u64 *link, u64 i) {
    return link + 2 + (link[0] + i) % l * JOURNAL_PLACE_WORDS(j);
}

/* A letter's bytes: its head, which ends with the count, and its records. */
static u64 bytes_of(const u64 *mail) { return 8 * (6 + mail[5]); }

static u64 row_bytes(void) { return 8 * (u64)JOURNAL_ROW_WORDS(j); }

static u32 is_box(u32 c) { return c >= 1 && c <= n; }

/* A box's part is done on a copy of its row: it counts once every mail has room. */
static u32 settle(u32 c, u32 answer, u32 to) {
    if (is_refusal(answer)) return answer;
    for (u32 k = 1; k <= n; k++)
        if (to >> (k - 1) & 1 && link_of(c, k)[1] == l) return JOURNAL_LINK;
    for (u32 k = 1; k <= n; k++) {
        if (!(to >> (k - 1) & 1)) continue;
        u64 *link = link_of(c, k);
        __builtin_memcpy(place_of(link, link[1]++), letter, bytes_of(letter));
    }
    __builtin_memcpy(row_of(c), row, row_bytes());
    return answer;
}

static u32 deliver(u32 a, u32 c) {
    u32 to = 0;
    if (!is_box(a) || !is_box(c) || a == c) return JOURNAL_BOX;
    u64 *link = link_of(a, c);
    if (!link[1]) return JOURNAL_CONDITION;
    __builtin_memcpy(row, row_of(c), row_bytes());
    u32 answer = journal_own_mail(row, JOURNAL_ROW_WORDS(j), place_of(link, 0),
                                  JOURNAL_PLACE_WORDS(j), letter, JOURNAL_PLACE_WORDS(j), &to,
                                  n, j, l, (u32)words[3], (u32)words[4], c, a);
    answer = settle(c, answer, to);
    if (!is_refusal(answer)) link[0] = (link[0] + 1) % l, link[1]--;
    return answer;
}

/* What a bridge does to a letter that is carried: its copy stands right behind it. */
static u32 repeat(u32 a, u32 c) {
    if (!is_box(a) || !is_box(c) || a == c) return JOURNAL_BOX;
    u64 *link = link_of(a, c);
    if (!link[1]) return JOURNAL_CONDITION;
    if (link[1] == l) return JOURNAL_LINK;
    link[0] = (link[0] + l - 1) % l, link[1]++;
    u64 *head = place_of(link, 1);
    __builtin_memcpy(place_of(link, 0), head, bytes_of(head));
    return JOURNAL_DONE;
}

/* A step of a leader, or a trim. */
static u32 act(const struct line *line) {
    u32 c = line->a, to = 0, answer;
    __builtin_memcpy(row, row_of(is_box(c) ? c : 1), row_bytes());
    switch (line->call) {
    case RECOVER: answer = journal_own_recover(ALONE, c); break;
    case COLLECT_CALL: answer = journal_own_collect(ALONE, c); break;
    case READY: answer = journal_own_ready(ALONE, c); break;
    case OFFER: answer = journal_own_offer(ALONE, c, line->b, line->c); break;
    case PROPOSE: answer = journal_own_propose(ALONE, c); break;
    case AGREE: answer = journal_own_agree(ALONE, c); break;
    case TRIM: answer = journal_own_trim(ALONE, c, line->b); break;
    case HEARD: answer = journal_own_heard(ALONE, c); break;
    default: answer = journal_own_finish(ALONE, c); break;
    }
    return settle(c, answer, to);
}

static u32 by_boxes(const struct line *line) {
    switch (line->call) {
    case ELECT: return journal_elect(LENT, line->a);
    case STOP: return journal_stop(LENT, line->a);
    case RETURN: return journal_return(LENT, line->a);
    case TIMEOUT: return journal_timeout(LENT, line->a);
    case LOSE: return journal_lose(LENT, line->a, line->b);
    case REPEAT: return repeat(line->a, line->b);
    case HOLDS: return journal_holds(LENT, line->a, line->b, line->c, line->d);
    case DELIVER: return deliver(line->a, line->b);
    default: return act(line);
    }
}

u32 take_image(const u8 *image, u64 length) {
    static u32 begun;
    if (!begun++) JOURNAL.fresh(5, 4096, 16);
    u32 answer = journal_read(image, length, LENT);
    if (answer != JOURNAL.read(image, length)) return DIFFERS;
    given = image, given_length = length;
    n = (u32)words[0], j = (u32)words[1], l = (u32)words[2];
    return answer;
}

/* The image that was given is still that of both. */
static u32 kept(void) {
    u64 length = 0;
    if (journal_write(LENT, other, LONGEST_AFTER, &length) || length != given_length) return 0;
    if (__builtin_memcmp(given, other, length)) return 0;
    return !JOURNAL.write(other, length) && !__builtin_memcmp(given, other, length);
}

/* Which boxes are silent: of a box of the site and of the same box by itself, as its words say it. */
static u32 silent(u32 c) {
    const u64 *r = row_of(c);
    u32 epoch = (u32)words[3], present = (u32)words[4], of_site = DIFFERS, by_itself = DIFFERS;
    u32 is_out = epoch % 2 == 0 && r[0] && (r[2] == LEASE_PHASE || r[2] == LEASE_DONE);
    u32 answer = is_out ? JOURNAL_DONE : JOURNAL_CONDITION;
    u32 set = is_out ? present & ~(u32)r[12] : DIFFERS;
    if (journal_unheard(LENT, c, &of_site) != answer || of_site != set) return 0;
    return journal_own_unheard(r, JOURNAL_ROW_WORDS(j), &by_itself, n, j, l, epoch, present, c) ==
               answer && by_itself == set;
}

/* Which load of box c has this left frame: the index says what a full reading says. */
static u32 is_found(u32 c, u32 left) {
    const u64 *r = row_of(c);
    u32 number = DIFFERS, read = 0;
    for (u64 k = r[4]; k >= r[5]; k--)
        if (r[22 + k - r[5]] >> 32 == left) read = (u32)k;
    if (!left) return journal_find(LENT, c, left, &number) == JOURNAL_FRAME && number == DIFFERS;
    return journal_find(LENT, c, left, &number) == JOURNAL_DONE && number == read;
}

/* .. of the first and the last record that it holds, of one of the same remainder, and of frame 0. */
static u32 finds(u32 c) {
    const u64 *r = row_of(c);
    u32 first = r[21] ? (u32)(r[22] >> 32) : 5, last = r[21] ? (u32)(r[21 + r[21]] >> 32) : 69;
    return is_found(c, first) && is_found(c, last) && is_found(c, (last ^ 64) | 1) && is_found(c, 0);
}

u32 take_call(const struct line *line) {
    for (u32 c = 1; c <= n; c++)
        if (!silent(c) || !finds(c)) return DIFFERS;
    u32 answer = by_boxes(line), again = answer;
    if (line->call != HOLDS) again = JOURNAL.step(line->call, line->a, line->b, line->c);
    if (answer != again || (is_refusal(answer) && !kept())) return DIFFERS;
    return answer;
}

/* The run of the library, and the same step by step: the site's words are one run's, the engine's
   those of many. */
u32 take_run(u32 steps, u32 *used) {
    u32 answer = journal_run(LENT, steps, used), again = JOURNAL_DONE, one, sum = 0;
    if (is_refusal(answer)) {
        again = JOURNAL.run(steps, &sum);
        return again == answer && sum == 0 && kept() ? answer : DIFFERS;
    }
    while (again == JOURNAL_DONE && sum < steps) {
        again = JOURNAL.run(1, &one);
        if (one == 0) break;
        sum++;
    }
    return again == answer && sum == *used ? answer : DIFFERS;
}

u64 give_image(u8 *image) {
    u64 length = 0;
    if (journal_write(LENT, image, LONGEST_AFTER, &length)) return 0;
    if (JOURNAL.write(other, length)) return 0;
    return __builtin_memcmp(image, other, length) == 0 ? length : 0;
}
