/* The load journal: its engine for C, in libjournal.a (x86-64 Linux; lib/build makes it).
 *
 * Every function is proved to give what the paper's rules give, for every input, to touch no word
 * but those lent to it, and to end. Nothing is allocated, nothing is kept between calls, and there
 * is no global state: two threads may work on two sites at once, and not on one.
 *
 * MEMORY. A site stands in two arrays of 64-bit words that the caller lends: `site`, its sizes,
 * epoch and boxes, and `links`, its mails. How many words each needs follows from the sizes: n
 * boxes (1 to 5), J records in a box (1 to 4,096), L mails on a link (1 to 16). An array is passed
 * as a pointer and its length in words; a longer one is allowed, and the words past those needed
 * are never read or written. What C must see to, since no test can: a pointer is not null, not even
 * with the length 0; words are aligned to 8 bytes; the length is no more than is there; two arrays of
 * one call do not overlap (nor do the numbers behind `to`, `set`, `used`, `length`, `first`, `at` and
 * `count`). What the words hold is tested by every call: words that are not by form are refused with
 * 1.
 *
 * STACK. No function but journal_run needs more than JOURNAL_STACK bytes of it, the call itself and
 * its arguments among them, whatever n, J and L are: nothing is copied there that grows with them. A
 * run needs up to JOURNAL_RUN_STACK: its mail and its leader's turns call each other, some 400 bytes
 * for each turn of the leader and 150 each time that mail is handed over after one; J and L do not
 * matter. This is measured and not proved, at the smallest and the largest sizes, with every call,
 * every kind of mail, every answer and the longest run that is known, as the kit's compiler makes
 * libjournal.a. A memcpy that the loader binds at its first call takes some 3,000 bytes more in that
 * one; linking with -z now avoids it.
 *
 * ANSWERS. Every function but the two that count words answers one of these numbers. A refused call
 * (1 to 14, and 22) leaves every word as it was. A mail that is discarded (101 to 104) has left its
 * link, and nothing else has changed. A run that was stopped (above 200) has done the steps before. */
#ifndef JOURNAL_H
#define JOURNAL_H

#include <stddef.h>
#include <stdint.h>

#ifdef __cplusplus
extern "C" {
#endif

enum {
    JOURNAL_DONE = 0,
    /* The paper's refusals. Where several apply the first in this order is given. */
    JOURNAL_SIZES = 13,    /* sizes outside their ranges */
    JOURNAL_FORM = 1,      /* the words are not a site (or a box, a letter, an image) by form */
    JOURNAL_BOX = 2,       /* a box number outside 1..n, or a link from a box to itself */
    JOURNAL_FRAME = 10,    /* an offered frame number is 0 */
    JOURNAL_CONDITION = 3, /* the step's condition fails */
    JOURNAL_MAJORITY = 4,  /* elect with fewer present than a majority */
    JOURNAL_EPOCH = 5,     /* stop, return or timeout at epoch 1,000,000 */
    JOURNAL_NEW_PN = 6,    /* the new proposal number would exceed 999,999,999; not within the first
                            * 9,999,999 elections of a fresh site, and its epochs allow 500,000 */
    JOURNAL_BOOK = 7,      /* the next load would need a record beyond J, or pass 1,000,000,000 */
    JOURNAL_LINK = 8,      /* a mail would go onto a full link */
    JOURNAL_BUFFER = 12,   /* too few words or bytes are lent */
    JOURNAL_UNTRUE = 14,   /* a holds line that is untrue, or of a load no longer kept */
    JOURNAL_WAITS = 19,    /* journal_desk_..: that side already waits with this number */
    JOURNAL_FULL = 20,     /* journal_desk_..: that side is full */
    JOURNAL_AWAY = 23,     /* journal_desk_..: the named frame does not wait */
    JOURNAL_FAR = 21,      /* journal_desk_pair: no waiting right frame is near enough */
    JOURNAL_DIFFERS = 22,  /* journal_longer: a number that both lists hold differs */
    /* 9 is no longer given and stays unused: a number given back is not given anew. */
    /* A mail that was handed over. */
    JOURNAL_TAKEN = 100,
    JOURNAL_DISCARDED_ROLE = 101,
    JOURNAL_DISCARDED_PHASE = 102,
    JOURNAL_DISCARDED_NUMBER = 103,
    JOURNAL_DISCARDED_PLACE = 104,
    /* A run that a refused step has stopped answers this and the step's number. */
    JOURNAL_STOPPED = 200
};

#define JOURNAL_STACK 2048
#define JOURNAL_RUN_STACK 8192

/* The words of an array, as constants: for sizes within their ranges the same as the two functions
 * below. A row is one box: its 22 fields, room for J records, and the index of the agreed ones by
 * their left frame, 128 words and one for each record. A place is one letter. */
#define JOURNAL_INDEX_WORDS(J) (128 + (J))
#define JOURNAL_ROW_WORDS(J) (22 + (J) + JOURNAL_INDEX_WORDS(J))
#define JOURNAL_PLACE_WORDS(J) (6 + (J))
#define JOURNAL_SITE_WORDS(n, J) (5 + (n) * JOURNAL_ROW_WORDS(J))
#define JOURNAL_LINKS_WORDS(n, J, L) ((n) * ((n) - 1) * (2 + (L) * JOURNAL_PLACE_WORDS(J)))

/* How many words `site` and `links` need; 0 for sizes outside their ranges. (`links` needs 0 words
 * where n is 1.) */
size_t journal_site_words(uint32_t n, uint32_t j, uint32_t l);
size_t journal_links_words(uint32_t n, uint32_t j, uint32_t l);

/* A fresh site, whatever the words held: epoch 1, all boxes present, nothing agreed, no mail.
 * Answers 0, 13, 12. */
uint32_t journal_fresh(uint64_t *site, size_t site_words, uint64_t *links, size_t links_words,
                       uint32_t n, uint32_t j, uint32_t l);

/* The sixteen calls. Each can answer 1, 2 and 3 beside what stands with it, and 0 where it is
 * done. c is a box.
 *
 * elect: c alone leads; needs an odd epoch, c present, and a majority present.            4
 * recover: leader c takes the next proposal number whose last two digits are c.           6
 * collect: leader c asks the others for what they hold.                                   8
 * ready: all present have answered; c starts an unagreed record again, or leases.       7 8
 * offer: the frames left and right wait at leader c.                                      10
 * propose: leader c starts the waiting pair under the next load number.                   7 8
 * agree: all present have accepted; the number is agreed, and the others are told.        8
 * finish: leader c is active again, and leases.                                           8
 * heard: all present have answered the lease of leader c; propose does not wait for it.
 *        (3: no lease is out, or one has not answered: journal_unheard says which)
 * trim: box c, which need not lead, drops its agreed loads below k; the room is used
 *       again. (3: c absent, an odd epoch, k not above the first load that it keeps or
 *       above its last agreed one)
 * stop, return: box c is switched off, comes back. Nothing stored is lost.                5
 * timeout: box c misses its leader; an election is due.                                   5
 * lose: the head of the link from a to b is dropped, in any epoch.
 * repeat: the head of the link from a to b stands twice, the copy right behind it, in any
 *         epoch: what a radio bridge does that hands a mail over again. (3: no mail)      8
 * deliver: the head of the link from a to b is handed to b.       6 7 8 100 101 102 103 104
 *          (not 0) A refused mail stays at the head. */
uint32_t journal_elect(uint64_t *site, size_t site_words, uint64_t *links, size_t links_words,
                       uint32_t c);
uint32_t journal_recover(uint64_t *site, size_t site_words, uint64_t *links, size_t links_words,
                         uint32_t c);
uint32_t journal_collect(uint64_t *site, size_t site_words, uint64_t *links, size_t links_words,
                         uint32_t c);
uint32_t journal_ready(uint64_t *site, size_t site_words, uint64_t *links, size_t links_words,
                       uint32_t c);
uint32_t journal_offer(uint64_t *site, size_t site_words, uint64_t *links, size_t links_words,
                       uint32_t c, uint32_t left, uint32_t right);
uint32_t journal_propose(uint64_t *site, size_t site_words, uint64_t *links, size_t links_words,
                         uint32_t c);
uint32_t journal_agree(uint64_t *site, size_t site_words, uint64_t *links, size_t links_words,
                       uint32_t c);
uint32_t journal_finish(uint64_t *site, size_t site_words, uint64_t *links, size_t links_words,
                        uint32_t c);
uint32_t journal_heard(uint64_t *site, size_t site_words, uint64_t *links, size_t links_words,
                       uint32_t c);
uint32_t journal_trim(uint64_t *site, size_t site_words, uint64_t *links, size_t links_words,
                      uint32_t c, uint32_t k);
uint32_t journal_stop(uint64_t *site, size_t site_words, uint64_t *links, size_t links_words,
                      uint32_t c);
uint32_t journal_return(uint64_t *site, size_t site_words, uint64_t *links, size_t links_words,
                        uint32_t c);
uint32_t journal_timeout(uint64_t *site, size_t site_words, uint64_t *links, size_t links_words,
                         uint32_t c);
uint32_t journal_lose(uint64_t *site, size_t site_words, uint64_t *links, size_t links_words,
                      uint32_t a, uint32_t b);
uint32_t journal_repeat(uint64_t *site, size_t site_words, uint64_t *links, size_t links_words,
                        uint32_t a, uint32_t b);
uint32_t journal_deliver(uint64_t *site, size_t site_words, uint64_t *links, size_t links_words,
                         uint32_t a, uint32_t b);

/* Is load k agreed at box c with these frames? 0 where it is; 14 where it is not, a k that is below
 * the first kept number or above the last agreed one and a frame of 0 among it; 1, 2. */
uint32_t journal_holds(const uint64_t *site, size_t site_words, const uint64_t *links,
                       size_t links_words, uint32_t c, uint32_t k, uint32_t left, uint32_t right);

/* Which load has this frame? 0 where box c, a left frame and the words are in order: then *number is
 * the smallest number that is agreed at box c, is kept there and has this left frame, or 0 where none
 * has. The box may be absent and the epoch odd; the record at last + 1 is not agreed. 1, 2; 10 for
 * frame 0; a refused call leaves *number. It reads the index that stands beside the box's records
 * and not the whole book; words whose index is not that of their records are not by form (1).
 *
 *     uint32_t number;
 *     if (journal_find(site, s, links, l, 1, 71, &number) == JOURNAL_DONE && number)
 *         printf("frame 71 is load %u\n", number); */
uint32_t journal_find(const uint64_t *site, size_t site_words, const uint64_t *links,
                      size_t links_words, uint32_t c, uint32_t left, uint32_t *number);

/* Which boxes are silent? 0 where a lease of leader c is out: since ready or finish, and until it
 * proposes or the epoch becomes odd. Then *set has the present boxes that have not answered it, box
 * k as the value 2^(k-1): 0 where all have. 3 where none is out; 1, 2; a refused call leaves *set.
 *
 *     uint32_t set;
 *     if (journal_unheard(site, s, links, l, 1, &set) == JOURNAL_DONE)
 *         for (uint32_t k = 1; k <= 5; k++)
 *             if (set >> (k - 1) & 1) printf("box %u is silent\n", k); */
uint32_t journal_unheard(const uint64_t *site, size_t site_words, const uint64_t *links,
                         size_t links_words, uint32_t c, uint32_t *set);

/* AT REST: in an odd epoch every box becomes as a fresh one, but for what outlives a stop, and all
 * mail under way is gone. Epoch, present boxes, promises, loads and records stay. It is proved that
 * no later call and no question gets another answer for it, but a lose or a repeat before the next
 * elect. Answers 0; 1, and 3 in an even epoch. */
uint32_t journal_rest(uint64_t *site, size_t site_words, uint64_t *links, size_t links_words);

/* THE RUN after an election: how soon is the scale usable? While any link holds mail its head is
 * handed over, of the first such link by sender and then receiver; otherwise the leader takes its
 * own recover, collect, ready, agree, finish or heard. It ends where neither is possible, after a
 * step that is refused, or after so many steps; a discarded mail was handed over, and counts.
 *
 * Answers 0 where it ran, and *used has the steps used. Where a step was refused it answers
 * JOURNAL_STOPPED and that step's number (206, 207, 208), *used has the steps before it, and the
 * words are as that step found them. 1, and 3 in an odd epoch, are refused calls as everywhere: they
 * leave the words and *used.
 *
 * Just after elect, with room for 8 mails on a link or more and no promise above 999,999,800, it
 * is proved to leave the scale usable within 0, 18, 42, 84 or 150 steps, with 1 to 5 boxes present:
 * the leader active, no mail under way, every present box active at the leader's last load. With
 * `steps` 1 it is done step by step; *used is 0 where there is nothing left to do. It takes more
 * stack than the other functions: JOURNAL_RUN_STACK.
 *
 *     uint32_t used, answer = journal_run(site, s, links, l, 200, &used);
 *     if (answer == JOURNAL_DONE) printf("usable after %u steps\n", used);
 *     else if (answer > JOURNAL_STOPPED) printf("stopped by %u\n", answer - JOURNAL_STOPPED); */
uint32_t journal_run(uint64_t *site, size_t site_words, uint64_t *links, size_t links_words,
                     uint32_t steps, uint32_t *used);

/* LOAD LISTS, for the weigh house. A list is words, a record each: left * 2^32 + right, the loads one
 * after another from a first number on.
 *
 * agreed: where the agreed records of box c stand in the words of its site. Answers 0: *first is the
 * first number that the box keeps, site[*at] its record, and *count how many are agreed from it on.
 * 1, 2; a refused call leaves the three. Nothing is copied: the list is good until the words change.
 *
 * longer: of two lists from the same first number, which is the longer. Answers 1, the first, also
 * on equal length, or 2, the second; the shorter is its beginning then. 22 where a number that both
 * hold differs: print from neither. The lists are read once, up to the end of the shorter, and may
 * overlap. Lists of two boxes of one site, from the larger of their first numbers on, never differ,
 * also where one is older than the other: that is proved.
 *
 *     uint64_t f1, f2, f;
 *     size_t at1, at2, n1, n2, skip1, skip2;
 *     journal_agreed(site, s, links, l, 1, &f1, &at1, &n1);
 *     journal_agreed(site, s, links, l, 2, &f2, &at2, &n2);
 *     f = f1 < f2 ? f2 : f1;
 *     skip1 = f - f1 < n1 ? f - f1 : n1, skip2 = f - f2 < n2 ? f - f2 : n2;
 *     journal_longer(site + at1 + skip1, n1 - skip1, site + at2 + skip2, n2 - skip2); */
uint32_t journal_agreed(const uint64_t *site, size_t site_words, const uint64_t *links,
                        size_t links_words, uint32_t c, uint64_t *first, size_t *at,
                        size_t *count);
uint32_t journal_longer(const uint64_t *first, size_t first_words, const uint64_t *second,
                        size_t second_words);

/* THE PAIRING DESK, for the stereo gate. `desk` is 64 words, 32 for the left and 32 for the right
 * frames that wait, each frame * 2^32 + tick; a word with frame 0 is a free place. Any 64 words are a
 * desk: 64 zeros are an empty one. Fewer are refused with 12, before all else; words past them stay.
 *
 * left, right: gives in a frame of that side with its shutter tick. 12, 10, 19, 20. Left 7 and right 7
 * are different frames.
 *
 * withdraw: takes a waiting frame from the desk. 12, 10, 23.
 *
 * pair: names a waiting left frame. The waiting right frame of smallest difference, at most 40 ticks
 * round the wrap, the lower frame number on a tie, is offered with it to the leader of the site. 0:
 * the offer was accepted, the pair has left the desk, and *right is the right frame. 12, 10, 23, 21,
 * then the engine's: 1, and 3 where no box leads or the leader cannot take the offer. A refused call
 * leaves desk, site, links and *right. */
uint32_t journal_desk_left(uint64_t *desk, size_t desk_words, uint32_t frame, uint32_t tick);
uint32_t journal_desk_right(uint64_t *desk, size_t desk_words, uint32_t frame, uint32_t tick);
uint32_t journal_desk_withdraw_left(uint64_t *desk, size_t desk_words, uint32_t frame);
uint32_t journal_desk_withdraw_right(uint64_t *desk, size_t desk_words, uint32_t frame);
uint32_t journal_desk_pair(uint64_t *desk, size_t desk_words, uint64_t *site, size_t site_words,
                           uint64_t *links, size_t links_words, uint32_t left, uint32_t *right);

/* A BOX BY ITSELF, for a program that runs one box and carries its mails by other means. These may
 * lose mail and hand it over more than once, but none after the next election; they neither alter
 * it nor change its order. docs/RUNNING-A-BOX.md has these duties, with what goes wrong without
 * each.
 *
 * `row` is the box (JOURNAL_ROW_WORDS(j) words), `letter` a mail that came in, `out` a place for the
 * mail that goes out (JOURNAL_PLACE_WORDS(j) words each). n, j, l, epoch and present (box k as the
 * value 2^(k-1)) are the site's, me is the box's own number. Where the call is done or the mail is
 * taken, *to is the set of boxes that the letter in `out` is for, or 0, and then `out` is as it was;
 * where the mail is discarded *to is 0; where the call is refused *to stays too.
 *
 * A box begins with journal_own_fresh. Who is present, the links and the elections are the caller's
 * part: when box c is elected, each box is told of it by journal_own_elected.
 *
 * Answers 0, 13, 1, 2, 10, 3, 6, 7, 12; mail 100 to 104, 13, 1, 2, 3, 6, 7, 12. */
uint32_t journal_own_recover(uint64_t *row, size_t row_words, uint64_t *out, size_t out_words,
                             uint32_t *to, uint32_t n, uint32_t j, uint32_t l, uint32_t epoch,
                             uint32_t present, uint32_t me);
uint32_t journal_own_collect(uint64_t *row, size_t row_words, uint64_t *out, size_t out_words,
                             uint32_t *to, uint32_t n, uint32_t j, uint32_t l, uint32_t epoch,
                             uint32_t present, uint32_t me);
uint32_t journal_own_ready(uint64_t *row, size_t row_words, uint64_t *out, size_t out_words,
                           uint32_t *to, uint32_t n, uint32_t j, uint32_t l, uint32_t epoch,
                           uint32_t present, uint32_t me);
uint32_t journal_own_offer(uint64_t *row, size_t row_words, uint64_t *out, size_t out_words,
                           uint32_t *to, uint32_t n, uint32_t j, uint32_t l, uint32_t epoch,
                           uint32_t present, uint32_t me, uint32_t left, uint32_t right);
uint32_t journal_own_propose(uint64_t *row, size_t row_words, uint64_t *out, size_t out_words,
                             uint32_t *to, uint32_t n, uint32_t j, uint32_t l, uint32_t epoch,
                             uint32_t present, uint32_t me);
uint32_t journal_own_agree(uint64_t *row, size_t row_words, uint64_t *out, size_t out_words,
                           uint32_t *to, uint32_t n, uint32_t j, uint32_t l, uint32_t epoch,
                           uint32_t present, uint32_t me);
uint32_t journal_own_finish(uint64_t *row, size_t row_words, uint64_t *out, size_t out_words,
                            uint32_t *to, uint32_t n, uint32_t j, uint32_t l, uint32_t epoch,
                            uint32_t present, uint32_t me);
uint32_t journal_own_heard(uint64_t *row, size_t row_words, uint64_t *out, size_t out_words,
                           uint32_t *to, uint32_t n, uint32_t j, uint32_t l, uint32_t epoch,
                           uint32_t present, uint32_t me);
uint32_t journal_own_trim(uint64_t *row, size_t row_words, uint64_t *out, size_t out_words,
                          uint32_t *to, uint32_t n, uint32_t j, uint32_t l, uint32_t epoch,
                          uint32_t present, uint32_t me, uint32_t k);
uint32_t journal_own_mail(uint64_t *row, size_t row_words, const uint64_t *letter,
                          size_t letter_words, uint64_t *out, size_t out_words, uint32_t *to,
                          uint32_t n, uint32_t j, uint32_t l, uint32_t epoch, uint32_t present,
                          uint32_t me, uint32_t sender);

/* The row becomes a fresh box, whatever its words were. Answers 0, 13, 12 (it is too short). */
uint32_t journal_own_fresh(uint64_t *row, size_t row_words, uint32_t n, uint32_t j, uint32_t l);

/* Box c is elected: the row becomes what the election makes of the box. epoch and present are those
 * that there are after it, so the epoch is even. Answers 0, 13, 1, 2, 3 (the epoch is odd, or c is
 * not present), 4. */
uint32_t journal_own_elected(uint64_t *row, size_t row_words, uint32_t n, uint32_t j, uint32_t l,
                             uint32_t epoch, uint32_t present, uint32_t me, uint32_t c);

/* Is load k agreed at the box with these frames? As journal_holds. Answers 0, 13, 1, 2, 14. */
uint32_t journal_own_holds(const uint64_t *row, size_t row_words, uint32_t n, uint32_t j,
                           uint32_t l, uint32_t epoch, uint32_t present, uint32_t me, uint32_t k,
                           uint32_t left, uint32_t right);

/* Which boxes are silent, of a leader by itself: as journal_unheard. Answers 0, 13, 1, 2, 3. */
uint32_t journal_own_unheard(const uint64_t *row, size_t row_words, uint32_t *set, uint32_t n,
                             uint32_t j, uint32_t l, uint32_t epoch, uint32_t present,
                             uint32_t me);

/* THE IMAGE of a site, in bytes: one site has one image. image_length and write answer 0 and put the
 * image's length in bytes into *length; write fills that many bytes from the front of `image`, and
 * the rest of a longer buffer stays. Both answer 1; write also 12, where the buffer is too short.
 * read answers 0 where the image_bytes bytes are the image of a site, which the words then hold; 1
 * where they are no site's image; 12 where the words are too few for its site. A refused call leaves
 * *length, the buffer and the words.
 *
 * JOURNAL_IMAGE_MOST is the longest image of a site of these sizes, in bytes, as a constant: the
 * table of contents, the general body, n boxes, n (n - 1) links. That none is longer is proved, and
 * that some site has it: with so many bytes write never answers 12, and fewer do not do for all. */
#define JOURNAL_IMAGE_MOST(n, J, L)                                                                \
    (4 + 8 * ((n) + 2) + 20 + (n) * (80 + 4 * (n) + 8 * (J)) +                                     \
     (n) * ((n) - 1) * (4 + (L) * (24 + 8 * (J))))

uint32_t journal_image_length(const uint64_t *site, size_t site_words, const uint64_t *links,
                              size_t links_words, size_t *length);
uint32_t journal_write(const uint64_t *site, size_t site_words, const uint64_t *links,
                       size_t links_words, uint8_t *image, size_t image_bytes, size_t *length);
uint32_t journal_read(const uint8_t *image, size_t image_bytes, uint64_t *site, size_t site_words,
                      uint64_t *links, size_t links_words);

/* THE BODIES of an image, without copying: 1 is the general body, 2 to n + 1 are the boxes, n + 2 is
 * the mail. Where body k begins in the image, and its length, go into *begin and *length: exactly
 * the part that the image's table of contents names. Answers 0; 1 where the image_bytes bytes are no
 * site's image; 3 where k is no body's number. A refused call leaves *begin and *length.
 *
 * journal_body looks at the whole image each time. journal_named does not, and reads nothing outside
 * it: for the further bodies of an image that journal_body has taken. It answers 0 and 3; of bytes
 * that are no site's image, 0 where a part inside them is named, else 3.
 *
 *     size_t begin, length;
 *     uint32_t k = 1, r = journal_body(image, bytes, &begin, &length, k);
 *     for (; r == JOURNAL_DONE; r = journal_named(image, bytes, &begin, &length, ++k))
 *         fwrite(image + begin, 1, length, stdout); */
uint32_t journal_body(const uint8_t *image, size_t image_bytes, size_t *begin, size_t *length,
                      uint32_t k);
uint32_t journal_named(const uint8_t *image, size_t image_bytes, size_t *begin, size_t *length,
                       uint32_t k);

/* EXAMPLE. Two boxes agree on one load; tests/c/example.c is this as a whole program.
 *
 *     uint64_t site[JOURNAL_SITE_WORDS(2, 16)], links[JOURNAL_LINKS_WORDS(2, 16, 8)];
 *     size_t s = JOURNAL_SITE_WORDS(2, 16), l = JOURNAL_LINKS_WORDS(2, 16, 8);
 *     if (journal_fresh(site, s, links, l, 2, 16, 8) != JOURNAL_DONE) return 1;
 *     journal_elect(site, s, links, l, 1);
 *     ...
 *     if (journal_holds(site, s, links, l, 2, 1, 71, 72) == JOURNAL_DONE) puts("load 1: 71 72");
 */

#ifdef __cplusplus
}
#endif

#endif
