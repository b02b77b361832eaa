/* The site image in plain C: its length, writer and reader; and what is by form. */
#include "plain.h"

static u64 link_length(const struct link *link, u32 l) {
    u64 length = 4;
    for (u32 i = 0, place = link->first; i < link->count; i++) {
        const struct mail *m = &link->mails[place];
        length += 20 + 4 * has_first(m->kind) + 8 * (u64)m->count;
        place = place + 1 == l ? 0 : place + 1;
    }
    return length;
}

static u64 box_length(const struct site *s, u32 c) {
    return 80 + 4 * s->n + 8 * (u64)s->boxes[c].held;
}

static u64 mail_length(const struct site *s) {
    u64 length = 0;
    for (u32 a = 0; a < s->n; a++)
        for (u32 b = 0; b < s->n; b++)
            if (a != b) length += link_length(&s->links[a][b], s->l);
    return length;
}

u64 image_length(const struct site *s) {
    u64 length = 4 + 8 * (s->n + 2) + 20 + mail_length(s);
    for (u32 c = 0; c < s->n; c++) length += box_length(s, c);
    return length;
}

static u8 *put(u8 *p, u32 word) {
    __builtin_memcpy(p, &word, 4);
    return p + 4;
}

static u8 *put_records(u8 *p, const u64 *records, u32 count) {
    __builtin_memcpy(p, records, 8 * (u64)count);
    return p + 8 * (u64)count;
}

static u8 *put_entry(u8 *p, u64 *offset, u64 length) {
    p = put(put(p, (u32)*offset), (u32)length);
    *offset += length;
    return p;
}

static u8 *put_box(u8 *p, const struct site *s, const struct camera *b) {
    u32 head[] = {b->leads, b->state, b->phase, b->pn, b->last, b->first, b->stored_pn,
                  b->stored_number, b->best_pn, b->best_number, b->answered, b->accepts, b->heard};
    for (u32 i = 0; i < 13; i++) p = put(p, head[i]);
    u64 three[] = {b->best, b->waiting, b->agreeing};
    p = put_records(p, three, 3);
    for (u32 k = 0; k < s->n; k++) p = put(p, b->peers[k]);
    return put_records(put(p, b->held), b->records, b->held);
}

static u8 *put_link(u8 *p, const struct link *link, u32 l) {
    p = put(p, link->count);
    for (u32 i = 0, place = link->first; i < link->count; i++) {
        const struct mail *m = &link->mails[place];
        p = put(put(put(p, m->kind), m->pn), m->last);
        if (has_first(m->kind)) p = put(p, m->first);
        p = put(put(p, m->unagreed_pn), m->count);
        p = put_records(p, m->records, m->count);
        place = place + 1 == l ? 0 : place + 1;
    }
    return p;
}

void image_write(const struct site *s, u8 *image) {
    u64 offset = 4 + 8 * (s->n + 2);
    u8 *p = put(image, s->n + 2);
    p = put_entry(p, &offset, 20);
    for (u32 c = 0; c < s->n; c++) p = put_entry(p, &offset, box_length(s, c));
    p = put_entry(p, &offset, mail_length(s));
    p = put(put(put(put(put(p, s->n), s->j), s->l), s->epoch), s->present);
    for (u32 c = 0; c < s->n; c++) p = put_box(p, s, &s->boxes[c]);
    for (u32 a = 0; a < s->n; a++)
        for (u32 b = 0; b < s->n; b++)
            if (a != b) p = put_link(p, &s->links[a][b], s->l);
}

struct rest {
    const u8 *p;
    u64 left;
    u32 bad;
};

static u32 get(struct rest *r) {
    u32 word = 0;
    if (r->left < 4) return r->bad = 1, 0;
    __builtin_memcpy(&word, r->p, 4);
    r->p += 4, r->left -= 4;
    return word;
}

/* A count that the room has to hold. */
static u32 get_count(struct rest *r, u32 most) {
    u32 count = get(r);
    if (count > most) r->bad = 1, count = 0;
    return count;
}

static void get_records(struct rest *r, u64 *records, u32 count) {
    if (r->left < 8 * (u64)count) {
        r->bad = 1;
        return;
    }
    __builtin_memcpy(records, r->p, 8 * (u64)count);
    r->p += 8 * (u64)count, r->left -= 8 * (u64)count;
}

static void get_box(struct rest *r, const struct site *s, struct camera *b) {
    b->leads = get(r), b->state = get(r), b->phase = get(r), b->pn = get(r), b->last = get(r);
    b->first = get(r);
    b->stored_pn = get(r), b->stored_number = get(r), b->best_pn = get(r), b->best_number = get(r);
    b->answered = get(r), b->accepts = get(r), b->heard = get(r);
    get_records(r, &b->best, 1), get_records(r, &b->waiting, 1), get_records(r, &b->agreeing, 1);
    for (u32 k = 0; k < s->n; k++) b->peers[k] = get(r);
    b->held = get_count(r, s->j);
    get_records(r, b->records, b->held);
}

static void get_mail(struct rest *r, const struct site *s, struct mail *m) {
    m->kind = get(r), m->pn = get(r), m->last = get(r);
    m->first = has_first(m->kind) ? get(r) : 0;
    m->unagreed_pn = get(r);
    m->count = get_count(r, s->j);
    get_records(r, m->records, m->count);
}

/* An entry of the table of contents against where its body began and ended. */
static void look_at_entry(struct rest *table, struct rest *r, const u8 *image, const u8 *body) {
    r->bad |= get(table) != (u64)(body - image);
    r->bad |= get(table) != (u64)(r->p - body);
}

u32 image_read(struct site *s, const u8 *image, u64 length) {
    struct rest r = {image, length, 0}, table;
    u32 bodies = get(&r);
    if (r.bad || bodies < 3 || bodies > 7 || length < 4 + 8 * (u64)bodies) return 1;
    table = r;
    r.p = image + 4 + 8 * (u64)bodies, r.left = length - 4 - 8 * (u64)bodies;
    const u8 *body = r.p;
    s->n = get(&r), s->j = get(&r), s->l = get(&r), s->epoch = get(&r), s->present = get(&r);
    look_at_entry(&table, &r, image, body);
    if (r.bad || s->n != bodies - 2 || s->j > J_MAX || s->l > L_MAX) return 1;
    for (u32 c = 0; c < s->n && !r.bad; c++) {
        body = r.p;
        get_box(&r, s, &s->boxes[c]);
        look_at_entry(&table, &r, image, body);
    }
    body = r.p;
    for (u32 a = 0; a < s->n; a++)
        for (u32 b = 0; b < s->n; b++) {
            struct link *link = &s->links[a][b];
            link->first = link->count = 0;
            if (a == b) continue;
            for (u32 count = get_count(&r, s->l); link->count < count && !r.bad; link->count++)
                get_mail(&r, s, &link->mails[link->count]);
        }
    look_at_entry(&table, &r, image, body);
    return r.bad || r.left || !by_form(s);
}

static u32 proper(u64 record) { return record >> 32 != 0 && (record & 4294967295u) != 0; }

static u32 all_proper(const u64 *records, u32 count) {
    u32 all = 1;
    for (u32 i = 0; i < count; i++) all &= proper(records[i]);
    return all;
}

/* What is kept from first on: the agreed records, and perhaps one more. */
static u32 kept_by_form(u32 first, u32 last, u32 count) {
    if (last > HIGHEST_NUMBER || first < 1 || (first > 1 && first > last)) return 0;
    return count == span(first, last) || (count == span(first, last) + 1 && last < HIGHEST_NUMBER);
}

static u32 box_by_form(const struct site *s, u32 c) {
    const struct camera *b = &s->boxes[c];
    u32 fine = b->leads <= 1 && b->state <= REFRESH && b->phase <= LEASE_DONE;
    fine &= b->pn <= HIGHEST_PN && b->stored_pn <= HIGHEST_PN && b->best_pn <= HIGHEST_PN;
    fine &= b->stored_number <= HIGHEST_NUMBER && b->best_number <= HIGHEST_NUMBER;
    fine &= b->held <= s->j && kept_by_form(b->first, b->last, b->held);
    fine &= !(b->answered >> s->n) && !(b->accepts >> s->n) && !(b->heard >> s->n);
    fine &= !b->best || proper(b->best);
    fine &= !b->waiting || proper(b->waiting);
    fine &= !b->agreeing || proper(b->agreeing);
    for (u32 k = 0; k < s->n; k++)
        fine &= b->peers[k] == UNKNOWN || (k != c && b->peers[k] <= HIGHEST_NUMBER);
    return fine && all_proper(b->records, b->held);
}

static u32 mail_by_form(const struct site *s, const struct mail *m) {
    if (m->pn > HIGHEST_PN || m->last > HIGHEST_NUMBER || m->unagreed_pn > HIGHEST_PN) return 0;
    if (m->count > s->j || !all_proper(m->records, m->count)) return 0;
    u32 all = span(m->first, m->last);
    if (m->unagreed_pn && (m->kind != LAST || m->count != all + 1)) return 0;
    switch (m->kind) {
    case LAST: return kept_by_form(m->first, m->last, m->count);
    case COMMIT: return m->count == all && kept_by_form(m->first, m->last, all);
    case BEGIN:
        return m->count == 1 && m->last < HIGHEST_NUMBER && kept_by_form(m->first, m->last, all);
    case LEASE:
    case LEASE_ACK: return m->count == 0 && m->first == 0 && m->pn == 0;
    case COLLECT:
    case ACCEPT: return m->count == 0 && m->first == 0;
    default: return 0;
    }
}

u32 by_form(const struct site *s) {
    u32 leaders = 0;
    if (s->n < 1 || s->n > 5 || s->j < 1 || s->j > 4096 || s->l < 1 || s->l > 16) return 0;
    if (s->epoch < 1 || s->epoch > LAST_EPOCH || s->present >> s->n) return 0;
    for (u32 c = 0; c < s->n; c++) {
        if (!box_by_form(s, c)) return 0;
        leaders += s->boxes[c].leads;
    }
    for (u32 a = 0; a < s->n; a++)
        for (u32 b = 0; b < s->n; b++) {
            const struct link *link = &s->links[a][b];
            if (a == b) continue;
            for (u32 i = 0, place = link->first; i < link->count; i++) {
                if (!mail_by_form(s, &link->mails[place])) return 0;
                place = place + 1 == s->l ? 0 : place + 1;
            }
        }
    return leaders <= 1;
}
