/* The two engines under one set of names. */
#ifndef ENGINES_H
#define ENGINES_H
#include "plain.h"

struct engine {
    u32 (*fresh)(u32 n, u32 j, u32 l);
    u32 (*step)(u32 call, u32 a, u32 b, u32 c);
    u32 (*write)(u8 *image, u64 length);
    u32 (*read)(const u8 *image, u64 length);
    u32 (*run)(u32 steps, u32 *used);
    u64 (*length)(void); /* of the image; 0 where the site is not by form */
    u32 (*find)(u32 c, u32 left, u32 *number);
};

extern struct site site;
/* FORMED is the plain engine that looks at form before each step, write and run, as the library
   does. */
extern const struct engine PLAIN, FORMED, JOURNAL;

#endif
