/* What `apply` in C does a line's step with: the plain engine (bench/apply_plain.c), or the library
   with every box by itself (tests/boxes.c). */
#ifndef APPLY_H
#define APPLY_H
#include "lines.h"

#define LONGEST_IMAGE 65536
/* The longest image of any site: a run may fill many links. */
#define LONGEST_AFTER (4 + 8 * 7 + 20 + 5 * (100 + 8 * J_MAX) + 20 * (4 + L_MAX * (24 + 8 * J_MAX)))

/* 0, or a refusal. */
u32 take_image(const u8 *image, u64 length);
u32 take_call(const struct line *line);
/* The same, or STOPPED and a refusal; not where it is refused, the steps used. */
u32 take_run(u32 steps, u32 *used);
/* The image's length, at most LONGEST_AFTER. */
u64 give_image(u8 *image);

#endif
