/* `apply` on the plain engine: that it keeps the paper's rules is seen before it is measured. */
#include "apply.h"

static struct site site;

u32 take_image(const u8 *image, u64 length) { return image_read(&site, image, length); }

u32 take_call(const struct line *line) { return answer_line(&site, line); }

u32 take_run(u32 steps, u32 *used) { return run(&site, steps, used); }

u64 give_image(u8 *image) {
    image_write(&site, image);
    return image_length(&site);
}
