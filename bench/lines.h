/* Lines in, lines out: what the plain replayer and the plain `apply` share. */
#ifndef LINES_H
#define LINES_H
#include "plain.h"

#define LONGEST_LINE 64

struct line {
    u32 call, a, b, c, d;
};

/* Where up to `room` bytes of output may be put, and how far they went. */
u8 *out_room(u64 room);
void out_end(u8 *end);
void flush(void);

u8 *put_text(u8 *p, const char *text);
u8 *put_number(u8 *p, u64 number);

/* 1 where the bytes are a readable line; no bytes (0) stand for a line too long or unended. */
u32 read_line(struct line *line, const u8 *p, u64 length);
/* 1 where the bytes are `run STEPS`, which is no line of a trace. */
u32 read_run(u32 *steps, const u8 *p, u64 length);
u32 answer_line(struct site *s, const struct line *line);
u32 is_refusal(u32 answer);

/* Hands each line of standard input on without its newline, and its number, until one answers 0;
   a line too long or unended as no bytes (0). */
void each_line(u32 (*answer)(const u8 *p, u64 length, u64 number));

#endif
