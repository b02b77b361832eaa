/* `apply` in C: one step on an image or a run of it, a line each; it ends with 1 where a line was
   refused. */
#include "apply.h"

static u8 image[LONGEST_AFTER];
static int refused;

static u32 refuse(u32 refusal) {
    u8 *to = put_number(put_text(out_room(32), "refused "), refusal);
    *to++ = '\n';
    out_end(to);
    refused = 1;
    return 1;
}

static int digit(u8 d) {
    if (d >= '0' && d <= '9') return d - '0';
    if (d >= 'A' && d <= 'F') return d - 'A' + 10;
    return d >= 'a' && d <= 'f' ? d - 'a' + 10 : -1;
}

static u32 apply_line(const u8 *p, u64 length, u64 number) {
    struct line line;
    u64 space = 0, bytes = 0;
    u32 steps, used = 0;
    (void)number;
    while (p && space < length && p[space] != ' ') space++;
    u32 readable = p && space && space < length, runs = 0;
    if (readable) {
        runs = read_run(&steps, p + space + 1, length - space - 1);
        readable = runs || read_line(&line, p + space + 1, length - space - 1);
    }
    if (readable && !runs && line.call == SITE) readable = 0;
    if (readable && !(space == 1 && p[0] == '-')) {
        if (space % 2 || space > 2 * LONGEST_IMAGE) readable = 0;
        for (; readable && bytes < space / 2; bytes++) {
            int high = digit(p[2 * bytes]), low = digit(p[2 * bytes + 1]);
            if (high < 0 || low < 0) readable = 0;
            image[bytes] = (u8)(high << 4 | low);
        }
    }
    if (!readable) return refuse(11);
    u32 answer = take_image(image, bytes);
    if (answer == DONE) answer = runs ? take_run(steps, &used) : take_call(&line);
    if (is_refusal(answer)) return refuse(answer);
    static const char *const WORD[] = {"taken ", "discarded role ", "discarded phase ",
                                       "discarded number ", "discarded place "};
    u64 after = give_image(image);
    u8 *to = out_room(64 + 2 * after);
    if (!runs)
        to = put_text(to, answer == DONE ? "done " : WORD[answer - TAKEN]);
    else if (answer == DONE)
        to = put_text(put_number(put_text(to, "ran "), used), " ");
    else {
        to = put_text(put_number(put_text(to, "stopped "), answer - STOPPED), " ");
        to = put_text(put_number(to, used), " ");
    }
    for (u64 i = 0; i < after; i++) {
        *to++ = (u8)"0123456789abcdef"[image[i] >> 4];
        *to++ = (u8)"0123456789abcdef"[image[i] & 15];
    }
    *to++ = '\n';
    out_end(to);
    return 1;
}

int main(void) {
    each_line(apply_line);
    flush();
    return refused;
}
