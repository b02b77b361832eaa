/* The replayer in plain C. */
#include "lines.h"

static struct site site;

/* 1 while the replay goes on. */
static u32 replay_line(const u8 *p, u64 length, u64 number) {
    struct line line;
    u32 answer = 11;
    u32 readable = read_line(&line, p, length) && number <= 4294967295u;
    if (readable && (number == 1) == (line.call == SITE)) {
        if (line.call != SITE)
            answer = answer_line(&site, &line);
        else if (line.a < 1 || line.a > 5 || line.b < 1 || line.b > 32 || line.c < 1 || line.c > 8)
            answer = 13;
        else
            fresh(&site, line.a, line.b, line.c), answer = DONE;
    }
    u8 *to = put_number(out_room(128), number);
    if (is_refusal(answer)) {
        to = put_number(put_text(to, " refused "), answer);
    } else {
        *to++ = ' ';
        to = put_number(to, site.epoch);
        for (u32 c = 0; c < site.n; c++) *to++ = ' ', to = put_number(to, site.boxes[c].last);
    }
    *to++ = '\n';
    out_end(to);
    return !is_refusal(answer);
}

int main(void) {
    each_line(replay_line);
    flush();
    return 0;
}
