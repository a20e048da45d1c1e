/* Filter Up, then one deflate block with the fixed codes: a run of equal bytes
 * is a literal and a match at distance 1. */
#include "png.h"

#include <stdio.h>
#include <string.h>

enum { MIN_MATCH = 3, MAX_MATCH = 257 }; /* 258 has a code of its own */
enum { END_OF_BLOCK = 256, FIRST_LENGTH = 257 };
enum { FILTER_UP = 2 };
enum { GREY = 0, BY_PALETTE = 3 };

struct png {
    FILE *file;
    uint8_t data[8192]; /* of the next IDAT chunk */
    size_t length;
    uint32_t bits; /* less than a byte of them, the first one lowest */
    int bit_count;
    uint32_t adler_a, adler_b;
    int last, repeats; /* the last literal, and how often it occurs again */
};

static uint32_t crc_byte(uint32_t crc, uint8_t byte)
{
    int i;

    crc ^= byte;
    for (i = 0; i < 8; i++)
        crc = crc & 1 ? crc >> 1 ^ 0xedb88320u : crc >> 1;
    return crc;
}

static uint32_t crc_bytes(uint32_t crc, const uint8_t *bytes, size_t length)
{
    size_t i;

    for (i = 0; i < length; i++)
        crc = crc_byte(crc, bytes[i]);
    return crc;
}

static void set32(uint8_t *bytes, uint32_t number)
{
    bytes[0] = (uint8_t)(number >> 24);
    bytes[1] = (uint8_t)(number >> 16);
    bytes[2] = (uint8_t)(number >> 8);
    bytes[3] = (uint8_t)number;
}

static void write_chunk(FILE *file, const char *type, const uint8_t *data, size_t length)
{
    uint8_t head[8], tail[4];

    set32(head, (uint32_t)length);
    memcpy(head + 4, type, 4);
    set32(tail, ~crc_bytes(crc_bytes(0xffffffffu, head + 4, 4), data, length));
    fwrite(head, 1, sizeof head, file);
    fwrite(data, 1, length, file);
    fwrite(tail, 1, sizeof tail, file);
}

static void put_byte(struct png *png, uint8_t byte)
{
    png->data[png->length++] = byte;
    if (png->length == sizeof png->data) {
        write_chunk(png->file, "IDAT", png->data, png->length);
        png->length = 0;
    }
}

static void put_bits(struct png *png, uint32_t bits, int count)
{
    png->bits |= bits << png->bit_count;
    png->bit_count += count;
    while (png->bit_count >= 8) {
        put_byte(png, (uint8_t)png->bits);
        png->bits >>= 8;
        png->bit_count -= 8;
    }
}

/* Huffman codes go highest bit first. */
static void put_code(struct png *png, uint32_t code, int count)
{
    while (count-- > 0)
        put_bits(png, code >> count & 1, 1);
}

static void put_symbol(struct png *png, uint32_t symbol)
{
    if (symbol < 144)
        put_code(png, 0x30 + symbol, 8);
    else if (symbol < 256)
        put_code(png, 0x190 + symbol - 144, 9);
    else if (symbol < 280)
        put_code(png, symbol - 256, 7);
    else
        put_code(png, 0xc0 + symbol - 280, 8);
}

/* The symbol of the length, its extra bits, and distance 1. */
static void put_match(struct png *png, int length)
{
    uint32_t above = (uint32_t)(length - MIN_MATCH);
    int extra = 0;

    while (above >> extra >= 8)
        extra++;
    put_symbol(png, FIRST_LENGTH + 4 * (uint32_t)extra + (above >> extra));
    put_bits(png, above & ((1u << extra) - 1), extra);
    put_code(png, 0, 5);
}

static void end_run(struct png *png)
{
    if (png->repeats >= MIN_MATCH) {
        put_match(png, png->repeats);
        png->repeats = 0;
    }
    for (; png->repeats > 0; png->repeats--)
        put_symbol(png, (uint32_t)png->last);
}

static void deflate_byte(struct png *png, uint8_t byte)
{
    png->adler_a = (png->adler_a + byte) % 65521;
    png->adler_b = (png->adler_b + png->adler_a) % 65521;
    if (byte == png->last && png->repeats < MAX_MATCH) {
        png->repeats++;
        return;
    }
    end_run(png);
    put_symbol(png, byte);
    png->last = byte;
}

static void deflate_row(struct png *png, const uint8_t *row, const uint8_t *above, size_t length)
{
    size_t i;

    deflate_byte(png, FILTER_UP);
    for (i = 0; i < length; i++)
        deflate_byte(png, (uint8_t)(row[i] - (above == NULL ? 0 : above[i])));
}

static void write_header(FILE *file, uint32_t width, uint32_t height, int bits,
                         const struct png_palette *palette)
{
    static const uint8_t signature[] = {0x89, 'P', 'N', 'G', '\r', '\n', 0x1a, '\n'};
    uint8_t header[13] = {0};

    set32(header, width);
    set32(header + 4, height);
    header[8] = (uint8_t)bits;
    header[9] = palette == NULL ? GREY : BY_PALETTE;
    fwrite(signature, 1, sizeof signature, file);
    write_chunk(file, "IHDR", header, sizeof header);
    if (palette != NULL)
        write_chunk(file, "PLTE", palette->colours, 3 * palette->count);
}

/* The zlib header, and the only block: its header, the rows, its end. */
static void deflate_rows(struct png *png, const uint8_t *rows, size_t length, uint32_t height)
{
    uint32_t i;

    put_bits(png, 0x0178, 16);
    put_bits(png, 3, 3);
    for (i = 0; i < height; i++)
        deflate_row(png, rows + i * length, i == 0 ? NULL : rows + (i - 1) * length, length);
    end_run(png);
    put_symbol(png, END_OF_BLOCK);
    put_bits(png, 0, (8 - png->bit_count) % 8);
}

static void write_end(struct png *png)
{
    uint8_t adler[4];
    int i;

    set32(adler, png->adler_b << 16 | png->adler_a);
    for (i = 0; i < 4; i++)
        put_byte(png, adler[i]);
    write_chunk(png->file, "IDAT", png->data, png->length);
    write_chunk(png->file, "IEND", png->data, 0);
}

int png_write(const char *path, uint32_t width, uint32_t height, int bits,
              const struct png_palette *palette, const uint8_t *rows)
{
    struct png png = {0};
    int failed;

    png.adler_a = 1;
    png.last = -1;
    png.file = fopen(path, "wb");
    if (png.file == NULL)
        return 0;
    write_header(png.file, width, height, bits, palette);
    deflate_rows(&png, rows, ((size_t)width * (size_t)bits + 7) / 8, height);
    write_end(&png);
    failed = ferror(png.file);
    return fclose(png.file) == 0 && !failed;
}
