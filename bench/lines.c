/* Lines in, lines out: what the plain replayer and the plain `apply` share. */
#include "lines.h"

long read(int file, void *to, u64 most);
long write(int file, const void *from, u64 count);
void *memchr(const void *in, int byte, u64 count);
int memcmp(const void *a, const void *b, u64 count);

#define INPUT (2 * 65536 + LONGEST_LINE + 2)
#define OUTPUT (1 << 25)

static u8 in[INPUT], out[OUTPUT];
static u64 out_used;

void flush(void) {
    for (u64 from = 0; from < out_used;) {
        long wrote = write(1, out + from, out_used - from);
        if (wrote <= 0) break;
        from += (u64)wrote;
    }
    out_used = 0;
}

u8 *out_room(u64 room) {
    if (OUTPUT - out_used < room) flush();
    return out + out_used;
}

void out_end(u8 *end) { out_used = (u64)(end - out); }

u8 *put_text(u8 *p, const char *text) {
    while (*text) *p++ = (u8)*text++;
    return p;
}

u8 *put_number(u8 *p, u64 number) {
    u32 digits = 1;
    for (u64 rest = number; rest >= 10; rest /= 10) digits++;
    for (u32 i = digits; i--; number /= 10) p[i] = (u8)('0' + number % 10);
    return p + digits;
}

#define WORD(word, call, numbers) {word, sizeof word - 1, call, numbers}
static const struct {
    const char *word;
    u32 length, call, numbers;
} WORDS[] = {
    WORD("mail", DELIVER, 2),   WORD("holds", HOLDS, 4),     WORD("elect", ELECT, 1),
    WORD("recover", RECOVER, 1), WORD("collect", COLLECT_CALL, 1), WORD("ready", READY, 1),
    WORD("offer", OFFER, 3),    WORD("propose", PROPOSE, 1), WORD("agree", AGREE, 1),
    WORD("finish", FINISH, 1),  WORD("heard", HEARD, 1),     WORD("stop", STOP, 1),
    WORD("return", RETURN, 1),  WORD("timeout", TIMEOUT, 1), WORD("lose", LOSE, 2),
    WORD("repeat", REPEAT, 2),  WORD("trim", TRIM, 2),       WORD("site", SITE, 3),
};
#define WORD_COUNT (sizeof WORDS / sizeof *WORDS)

/* Behind the decimal of at most 32 bits that begins at p; 0 where there is none. */
static const u8 *read_number(u32 *number, const u8 *p, const u8 *end) {
    const u8 *first = p;
    u64 value = 0;
    for (; p < end && *p >= '0' && *p <= '9'; p++) {
        value = value * 10 + (*p - '0');
        if (value > 4294967295u) return 0;
    }
    if (p == first || (*first == '0' && p > first + 1)) return 0;
    *number = (u32)value;
    return p;
}

u32 read_run(u32 *steps, const u8 *p, u64 length) {
    if (!p || length > LONGEST_LINE || length < 5 || memcmp(p, "run ", 4) != 0) return 0;
    return read_number(steps, p + 4, p + length) == p + length;
}

u32 read_line(struct line *line, const u8 *p, u64 length) {
    u32 w, numbers[4] = {0, 0, 0, 0};
    if (!p || length > LONGEST_LINE) return 0;
    const u8 *end = p + length, *space = memchr(p, ' ', length);
    if (!space) return 0;
    u64 word = (u64)(space - p);
    for (w = 0; w < WORD_COUNT; w++)
        if (WORDS[w].length == word && memcmp(WORDS[w].word, p, word) == 0) break;
    if (w == WORD_COUNT) return 0;
    p = space;
    for (u32 k = 0; k < WORDS[w].numbers; k++) {
        if (p == end || *p++ != ' ') return 0;
        p = read_number(&numbers[k], p, end);
        if (!p) return 0;
    }
    line->call = WORDS[w].call;
    line->a = numbers[0], line->b = numbers[1], line->c = numbers[2], line->d = numbers[3];
    return p == end;
}

u32 answer_line(struct site *s, const struct line *line) {
    if (line->call == HOLDS) return holds(s, line->a, line->b, line->c, line->d);
    return step(s, line->call, line->a, line->b, line->c);
}

u32 is_refusal(u32 answer) { return answer != DONE && answer < TAKEN; }

void each_line(u32 (*answer)(const u8 *, u64, u64)) {
    u64 used = 0, number = 1, skipping = 0;
    for (long got; (got = read(0, in + used, INPUT - used)) > 0;) {
        u8 *from = in, *look = in + used, *end = look + got, *newline;
        while ((newline = memchr(look, '\n', (u64)(end - look)))) {
            if (!answer(skipping ? 0 : from, (u64)(newline - from), number++)) return;
            from = look = newline + 1, skipping = 0;
        }
        used = (u64)(end - from);
        __builtin_memmove(in, from, used);
        if (used == INPUT) used = 0, skipping = 1;
    }
    if (used || skipping) answer(0, 0, number);
}
