/* What the host's programs share: a part file in memory, and the rays of a depth
 * image. Lengths are in steps of 1/64 mm. */
#ifndef HOST_H
#define HOST_H

#include <stddef.h>
#include <stdint.h>

struct part {
    uint8_t bytes[65537]; /* one more than a part file has, so a longer one is refused */
    size_t length;
};

/* Answers 1, or 0 where the file cannot be read, which is said in the program's
 * name. */
int read_part(const char *program, const char *path, struct part *part);

/* A depth image's pixels, and into how many pieces a ray of it can be cut at whole
 * steps. */
enum { WIDTH = 480, HEIGHT = 400, PIXELS = WIDTH * HEIGHT, PIECES = 18 };

/* The ray through the middle of a pixel, moved to the nearest whole steps, or its
 * pieces from one on and before another; from 0 on and before PIECES it is whole.
 * All rays are parallel: the part is seen from above and from one side. */
void set_ray(int pixel, int from, int before, int32_t a[3], int32_t b[3]);

#endif
