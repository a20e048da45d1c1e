/* PNG pictures in grey or colour, without a library. */
#ifndef PNG_H
#define PNG_H

#include <stddef.h>
#include <stdint.h>

/* Colours by number: the red, the green and the blue of each. */
struct png_palette {
    const uint8_t *colours;
    size_t count;
};

/* Writes a picture of 1 or 8 bits a pixel, the number of its colour, or with no
 * palette its grey, 0 black. Its rows follow each other from the top,
 * (width * bits + 7) / 8 bytes each, the leftmost pixel in the highest bits.
 * Answers 1, or 0 where the file cannot be written. */
int png_write(const char *path, uint32_t width, uint32_t height, int bits,
              const struct png_palette *palette, const uint8_t *rows);

#endif
