#include "host.h"

#include <stdio.h>

int read_part(const char *program, const char *path, struct part *part)
{
    FILE *file = fopen(path, "rb");
    int failed = 1;

    if (file != NULL) {
        part->length = fread(part->bytes, 1, sizeof part->bytes, file);
        failed = ferror(file);
        fclose(file);
    }
    if (failed)
        fprintf(stderr, "%s: cannot read %s\n", program, path);
    return !failed;
}

/* The picture's axes, AXIS long and at right angles to each other. A ray begins
 * half its pieces before the picture's plane and ends as far behind it; a piece is
 * as long as an axis. A pixel is PIXEL steps wide. */
enum { AXIS = 145, PIXEL = 5 };
static const int32_t right[3] = {116, 87, 0};
static const int32_t up[3] = {-60, 80, 105};
static const int32_t away[3] = {-63, 84, -100};

static int32_t round_quotient(int32_t number, int32_t divisor)
{
    return (number >= 0 ? number + divisor / 2 : number - divisor / 2) / divisor;
}

void set_ray(int pixel, int from, int before, int32_t a[3], int32_t b[3])
{
    int32_t rightwards = PIXEL * (2 * (pixel % WIDTH) + 1 - WIDTH); /* half steps */
    int32_t upwards = PIXEL * (HEIGHT - 1 - 2 * (pixel / WIDTH));
    int i;

    for (i = 0; i < 3; i++) {
        int32_t middle = round_quotient(rightwards * right[i] + upwards * up[i], 2 * AXIS);

        a[i] = middle + (from - PIECES / 2) * away[i];
        b[i] = middle + (before - PIECES / 2) * away[i];
    }
}
