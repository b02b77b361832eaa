/* The two engines under one set of names: the plain one, and the library on words from malloc. */
#include "engines.h"
#include "journal.h"

void *malloc(u64 size);
void free(void *memory);

struct site site;

static u32 plain_fresh(u32 n, u32 j, u32 l) { return fresh(&site, n, j, l), DONE; }

static u32 plain_step(u32 call, u32 a, u32 b, u32 c) { return step(&site, call, a, b, c); }

static u32 plain_write(u8 *image, u64 length) {
    if (image_length(&site) != length) return 12;
    return image_write(&site, image), DONE;
}

static u32 plain_read(const u8 *image, u64 length) { return image_read(&site, image, length); }

static u32 plain_run(u32 steps, u32 *used) { return run(&site, steps, used); }

static u32 formed_step(u32 call, u32 a, u32 b, u32 c) {
    return by_form(&site) ? step(&site, call, a, b, c) : 1;
}

static u32 formed_write(u8 *image, u64 length) {
    return by_form(&site) ? plain_write(image, length) : 1;
}

static u32 formed_run(u32 steps, u32 *used) {
    return by_form(&site) ? plain_run(steps, used) : 1;
}

static u64 plain_length(void) { return image_length(&site); }

static u64 formed_length(void) { return by_form(&site) ? image_length(&site) : 0; }

/* A full reading of the agreed loads that box c keeps. */
static u32 plain_find(u32 c, u32 left, u32 *number) {
    if (c < 1 || c > site.n) return 2;
    if (!left) return 10;
    const struct camera *b = &site.boxes[c - 1];
    *number = 0;
    for (u32 k = b->first; k <= b->last; k++)
        if (b->records[k - b->first] >> 32 == left) return *number = k, DONE;
    return DONE;
}

static u32 formed_find(u32 c, u32 left, u32 *number) {
    return by_form(&site) ? plain_find(c, left, number) : 1;
}

const struct engine FORMED = {plain_fresh, formed_step,   formed_write, plain_read,
                              formed_run,  formed_length, formed_find};
const struct engine PLAIN = {plain_fresh, plain_step,   plain_write, plain_read,
                             plain_run,   plain_length, plain_find};

static u64 *boxes, *links, box_words, link_words;

static u32 journal_begin(u32 n, u32 j, u32 l) {
    u64 old = box_words + link_words;
    box_words = journal_site_words(n, j, l), link_words = journal_links_words(n, j, l);
    if (old != box_words + link_words) {
        free(boxes), free(links);
        boxes = malloc(8 * box_words), links = malloc(8 * link_words);
    }
    return journal_fresh(boxes, box_words, links, link_words, n, j, l);
}

#define LENT boxes, box_words, links, link_words

static u32 journal_call(u32 call, u32 a, u32 b, u32 c) {
    switch (call) {
    case ELECT: return journal_elect(LENT, a);
    case RECOVER: return journal_recover(LENT, a);
    case COLLECT_CALL: return journal_collect(LENT, a);
    case READY: return journal_ready(LENT, a);
    case PROPOSE: return journal_propose(LENT, a);
    case AGREE: return journal_agree(LENT, a);
    case FINISH: return journal_finish(LENT, a);
    case HEARD: return journal_heard(LENT, a);
    case STOP: return journal_stop(LENT, a);
    case RETURN: return journal_return(LENT, a);
    case TIMEOUT: return journal_timeout(LENT, a);
    case OFFER: return journal_offer(LENT, a, b, c);
    case TRIM: return journal_trim(LENT, a, b);
    case LOSE: return journal_lose(LENT, a, b);
    case REPEAT: return journal_repeat(LENT, a, b);
    default: return journal_deliver(LENT, a, b);
    }
}

static u32 journal_writes(u8 *image, u64 length) {
    u64 wrote = 0;
    u32 answer = journal_write(LENT, image, length, &wrote);
    return answer == DONE && wrote != length ? 12 : answer;
}

static u32 journal_reads(const u8 *image, u64 length) {
    return journal_read(image, length, LENT);
}

static u32 journal_runs(u32 steps, u32 *used) { return journal_run(LENT, steps, used); }

static u64 journal_length(void) {
    u64 length = 0;
    return journal_image_length(LENT, &length) == DONE ? length : 0;
}

static u32 journal_finds(u32 c, u32 left, u32 *number) {
    return journal_find(LENT, c, left, number);
}

const struct engine JOURNAL = {journal_begin, journal_call,   journal_writes, journal_reads,
                               journal_runs,  journal_length, journal_finds};
