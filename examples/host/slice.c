/* A host: slice PART PICTURE.png [AXIS PLACE [march | (ticks | places) TICK ROW]]
 * casts rays through the part file PART and writes a picture: a plane at right
 * angles to an axis, a depth image, where along a plane's rays a marching cast
 * takes fewer probes than a full cast and where more, or some of a plane's ticks
 * or of its places, large. All arithmetic is in whole numbers, so the pictures are
 * the same on every machine.
 * Lengths are in steps of 1/64 mm, coordinates -2,047 to 2,047. */
#include "fenalukki.h"
#include "host.h"
#include "png.h"

#include <stdio.h>
#include <stdlib.h>
#include <string.h>

/* An answer below this is a refusal number. */
enum { FIRST_ANSWER = 65536 };
enum { WHITE = 255, BLACK = 0 };

/* In grey, unless there is a palette. */
static int write_picture(const char *path, uint32_t width, uint32_t height, int bits,
                         const struct png_palette *palette, const uint8_t *rows)
{
    int written = png_write(path, width, height, bits, palette, rows);

    if (!written)
        fprintf(stderr, "slice: cannot write %s\n", path);
    return written;
}

static void print_refusal(const char *call, unsigned long number)
{
    fprintf(stderr, "slice: %s refused %lu\n", call, number);
}

/* The plane: the two other axes from -1,024 to 1,024. A row of pixels is a
 * column along one of them at the row's middle. A tick is two steps long and a
 * row two steps high. */

enum { PLANE_END = 1024, PLANE_ROWS = 1024, ROW_BYTES = 128 };

/* Axes are 0 to 2. Of the plane at right angles to each: the axes that go
 * rightwards and upwards in the picture. */
static const char axes[] = "xyz";
static const int along_rows[3] = {1, 0, 0};
static const int across_rows[3] = {2, 2, 1};

struct plane {
    int axis;
    int32_t place;
};

/* A column has its first tick in the lowest bit, a picture its first pixel in
 * the highest. Returns how many bits are 1. */
static unsigned long reverse_bits(uint8_t *byte)
{
    unsigned reversed = 0;
    unsigned long ones = 0;
    int i;

    for (i = 0; i < 8; i++) {
        unsigned bit = *byte >> i & 1u;

        reversed = reversed << 1 | bit;
        ones += bit;
    }
    *byte = (uint8_t)reversed;
    return ones;
}

static unsigned long reverse_row(uint8_t *row)
{
    unsigned long ones = 0;
    int i;

    for (i = 0; i < ROW_BYTES; i++)
        ones += reverse_bits(row + i);
    return ones;
}

/* The ends of a ray along the rows, at a height of the picture. */
static void set_ends(const struct plane *plane, int32_t height, int32_t a[3], int32_t b[3])
{
    a[plane->axis] = b[plane->axis] = plane->place;
    a[across_rows[plane->axis]] = b[across_rows[plane->axis]] = height;
    a[along_rows[plane->axis]] = -PLANE_END;
    b[along_rows[plane->axis]] = PLANE_END;
}

static uint32_t cast_column(const struct part *part, const int32_t a[3], const int32_t b[3],
                            uint8_t *bits)
{
    return fenalukki_column(part->bytes, part->length, a[0], a[1], a[2], b[0], b[1], b[2],
                            bits, ROW_BYTES);
}

/* The height of a row's middle. */
static int32_t height_of(int row)
{
    return PLANE_END - 1 - 2 * row;
}

/* Answers the number of the row's column. */
static uint32_t cast_row(const struct part *part, const struct plane *plane, int row,
                         uint8_t *bits)
{
    int32_t a[3], b[3];

    set_ends(plane, height_of(row), a, b);
    return cast_column(part, a, b, bits);
}

static int write_plane(const struct part *part, const struct plane *plane, const char *path)
{
    static uint8_t rows[PLANE_ROWS][ROW_BYTES];
    unsigned long probes = 0, solid = 0;
    int i;

    for (i = 0; i < PLANE_ROWS; i++) {
        uint32_t answer = cast_row(part, plane, i, rows[i]);

        if (answer < FIRST_ANSWER) {
            print_refusal("column", answer);
            return 0;
        }
        probes += answer % FIRST_ANSWER;
        solid += reverse_row(rows[i]);
    }
    if (!write_picture(path, 8 * ROW_BYTES, PLANE_ROWS, 1, NULL, rows[0]))
        return 0;
    printf("%s: plane %c %ld, %d columns, %lu probes, %lu ticks solid\n", path,
           axes[plane->axis], (long)plane->place, PLANE_ROWS, probes, solid);
    return 1;
}

/* A full and a marching cast side by side: on rays along the plane's rows, one for
 * each band of rows, the fewest probes with which each knows a tick's mark. Where
 * both take as many the tick is grey; it is the brighter the fewer the march
 * takes and the darker the fewer the full cast takes, by SHADES for a probe. */

enum { TICKS = FENALUKKI_TICKS, BAND = 4, BANDS = PLANE_ROWS / BAND };
enum { FULL, MARCHING, CASTS };
enum { GREY = 128, SHADES = 6 };

typedef uint32_t cast_entry(const uint8_t *file, size_t file_len, int32_t ax, int32_t ay,
                            int32_t az, int32_t bx, int32_t by, int32_t bz, uint32_t budget,
                            uint8_t *marks, size_t marks_len);

static cast_entry *const cast_entries[CASTS] = {fenalukki_full_cast, fenalukki_marching_cast};
static const char *const cast_names[CASTS] = {"full cast", "marching cast"};

/* Of a cast on one ray. */
struct known {
    uint8_t marks[TICKS];
    uint32_t probes[TICKS]; /* the fewest with which each mark is known */
    uint32_t all;           /* those of a complete cast */
};

/* Of a cast on all rays: its probes, and on how many rays and at how many ticks
 * it takes fewer than the other. */
struct sums {
    unsigned long probes, rays, ticks;
};

/* Notes the probes for the ticks from one on that are known now. Answers the tick
 * reached. */
static int note_probes(struct known *known, int tick)
{
    int reached = fenalukki_tick_reached(known->marks);

    for (; tick < reached; tick++)
        known->probes[tick] = known->all;
    return reached;
}

/* Casts with budgets from 1 on until the cast is complete. Answers its number, or
 * a refusal number. */
static uint32_t find_known(const struct part *part, cast_entry *cast, const int32_t a[3],
                           const int32_t b[3], struct known *known)
{
    uint32_t answer;
    int tick = 0;

    known->all = 0;
    do {
        known->all++;
        answer = cast(part->bytes, part->length, a[0], a[1], a[2], b[0], b[1], b[2], known->all,
                      known->marks, sizeof known->marks);
        if (answer >= FIRST_ANSWER)
            tick = note_probes(known, tick);
    } while (fenalukki_is_spent(answer));
    return answer;
}

static uint8_t shade_of(int fewer)
{
    int shade = GREY + SHADES * fewer;

    return (uint8_t)(shade < BLACK ? BLACK : shade > WHITE ? WHITE : shade);
}

/* Shades a row of ticks, and counts. */
static void shade_known(const struct known known[CASTS], uint8_t *row, struct sums sums[CASTS])
{
    int tick;

    for (tick = 0; tick < TICKS; tick++) {
        int fewer = (int)known[FULL].probes[tick] - (int)known[MARCHING].probes[tick];

        row[tick] = shade_of(fewer);
        sums[FULL].ticks += fewer < 0;
        sums[MARCHING].ticks += fewer > 0;
    }
    sums[FULL].rays += known[FULL].all < known[MARCHING].all;
    sums[MARCHING].rays += known[MARCHING].all < known[FULL].all;
}

/* Makes both casts on the ray in a band's middle; returns 1 unless one is refused or
 * their marks differ. */
static int cast_band(const struct part *part, const struct plane *plane, int band,
                     struct known known[CASTS], struct sums sums[CASTS])
{
    int32_t a[3], b[3];
    int i;

    set_ends(plane, PLANE_END - BAND * (2 * band + 1), a, b);
    for (i = 0; i < CASTS; i++) {
        uint32_t answer = find_known(part, cast_entries[i], a, b, known + i);

        if (answer < FIRST_ANSWER) {
            print_refusal(cast_names[i], answer);
            return 0;
        }
        sums[i].probes += known[i].all;
    }
    if (memcmp(known[FULL].marks, known[MARCHING].marks, TICKS) == 0)
        return 1;
    fprintf(stderr, "slice: the marks of the two casts differ\n");
    return 0;
}

static void print_sums(const struct sums sums[CASTS])
{
    int i;

    for (i = 0; i < CASTS; i++)
        printf("; %ss: %lu probes, fewer on %lu rays and to %lu ticks", cast_names[i],
               sums[i].probes, sums[i].rays, sums[i].ticks);
    printf("\n");
}

static int write_march(const struct part *part, const struct plane *plane, const char *path)
{
    static uint8_t rows[PLANE_ROWS][TICKS];
    static struct known known[CASTS];
    struct sums sums[CASTS] = {{0, 0, 0}, {0, 0, 0}};
    int i;

    for (i = 0; i < PLANE_ROWS; i++) {
        if (i % BAND != 0)
            memcpy(rows[i], rows[i - 1], TICKS);
        else if (cast_band(part, plane, i / BAND, known, sums))
            shade_known(known, rows[i], sums);
        else
            return 0;
    }
    if (!write_picture(path, TICKS, PLANE_ROWS, 8, NULL, rows[0]))
        return 0;
    printf("%s: plane %c %ld, %d rays", path, axes[plane->axis], (long)plane->place, BANDS);
    print_sums(sums);
    return 1;
}

/* Ticks of a plane's rows, large: a band of pixels for a row and a cell of it for a
 * tick, from one row and one tick on. An inside tick is white, an empty one dark, a
 * crossing one blue if its bit is 1 and orange if it is 0. It is light where the
 * ray is solid, by the column of the piece of the row that is shown: a pixel is
 * one of that ray's ticks. */

enum { CELLS = 32, CELL = TICKS / CELLS, WINDOW_ROWS = 20, WINDOW_HEIGHT = CELL * WINDOW_ROWS };
enum { IS_EMPTY, IS_LEFT_OUT, IS_KEPT, IS_INSIDE, KINDS };

struct window {
    int32_t tick, row; /* the first ones */
};

/* Of a row's ticks, and of those of its piece in the window. */
struct ticks {
    uint8_t marks[TICKS], bits[ROW_BYTES], piece[ROW_BYTES];
};

/* Two for each kind, the second where the piece's bit is 1; and that of lines. */
static const uint8_t colours[2 * KINDS + 1][3] = {
    {24, 26, 32}, {255, 255, 255},
    {214, 96, 20}, {250, 204, 60},
    {36, 104, 190}, {150, 200, 250},
    {24, 26, 32}, {255, 255, 255},
    {78, 84, 96},
};
static const struct png_palette palette = {colours[0], 2 * KINDS + 1};

static int kind_of(const struct ticks *ticks, int tick)
{
    if (ticks->marks[tick] != FENALUKKI_CROSSING)
        return ticks->marks[tick] == FENALUKKI_INSIDE ? IS_INSIDE : IS_EMPTY;
    return fenalukki_bit(ticks->bits, tick) ? IS_KEPT : IS_LEFT_OUT;
}

static int is_answered(const char *call, uint32_t answer)
{
    if (answer < FIRST_ANSWER)
        print_refusal(call, answer);
    return answer >= FIRST_ANSWER;
}

/* Answers 1 unless a call is refused. */
static int cast_window(const struct part *part, const struct plane *plane,
                       const struct window *window, int row, struct ticks *ticks)
{
    int along = along_rows[plane->axis];
    int32_t a[3], b[3];
    uint32_t marks;

    set_ends(plane, height_of(window->row + row), a, b);
    marks = fenalukki_full_cast(part->bytes, part->length, a[0], a[1], a[2], b[0], b[1], b[2],
                                FENALUKKI_ENOUGH, ticks->marks, sizeof ticks->marks);
    if (!is_answered("full cast", marks) ||
        !is_answered("column", cast_column(part, a, b, ticks->bits)))
        return 0;
    a[along] += 2 * window->tick;
    b[along] = a[along] + 2 * CELLS;
    return is_answered("column", cast_column(part, a, b, ticks->piece));
}

/* Colours a row of pixels: the first of a band is a line. */
static void colour_row(const struct ticks *ticks, int first, int is_line, uint8_t *pixels)
{
    int i;

    for (i = 0; i < TICKS; i++) {
        int colour = 2 * kind_of(ticks, first + i / CELL) + fenalukki_bit(ticks->piece, i);

        pixels[i] = (uint8_t)(is_line || i % CELL == 0 ? 2 * KINDS : colour);
    }
}

static void colour_band(const struct ticks *ticks, int first, uint8_t rows[CELL][TICKS])
{
    int i;

    for (i = 0; i < CELL; i++)
        colour_row(ticks, first, i == 0, rows[i]);
}

/* Counts the ticks of a row in the window by kind. */
static void count_kinds(const struct ticks *ticks, int first, unsigned long counts[KINDS])
{
    int i;

    for (i = 0; i < CELLS; i++)
        counts[kind_of(ticks, first + i)]++;
}

static int write_ticks(const struct part *part, const struct plane *plane,
                       const struct window *window, const char *path)
{
    static uint8_t rows[WINDOW_HEIGHT][TICKS];
    static struct ticks ticks;
    unsigned long counts[KINDS] = {0};
    int row;

    for (row = 0; row < WINDOW_ROWS; row++) {
        if (!cast_window(part, plane, window, row, &ticks))
            return 0;
        count_kinds(&ticks, window->tick, counts);
        colour_band(&ticks, window->tick, rows + CELL * row);
    }
    if (!write_picture(path, TICKS, WINDOW_HEIGHT, 8, &palette, rows[0]))
        return 0;
    printf("%s: plane %c %ld, %d ticks of %d rays; %lu inside, %lu crossing and solid, ", path,
           axes[plane->axis], (long)plane->place, CELLS, WINDOW_ROWS, counts[IS_INSIDE],
           counts[IS_KEPT]);
    printf("%lu crossing and not\n", counts[IS_LEFT_OUT]);
    return 1;
}

/* The whole-step places of such a window, each asked about by a ray whose ends
 * coincide there, as a viewer's cursor does: a cell for a place, an inside one
 * white, an empty one dark, a crossing one orange. */

enum { SIDE = CELL / 2, PLACES = TICKS / SIDE, PLACE_ROWS = WINDOW_HEIGHT / SIDE };

/* Of the place i steps on and `down` steps below the window's upper left one;
 * FENALUKKI_NOT_LOOKED_AT where the call is refused. */
static int ask_place(const struct part *part, const struct plane *plane,
                     const struct window *window, int i, int down)
{
    int32_t at[3];
    uint64_t answer;

    at[plane->axis] = plane->place;
    at[along_rows[plane->axis]] = -PLANE_END + 2 * window->tick + i;
    at[across_rows[plane->axis]] = PLANE_END - 1 - 2 * window->row - down;
    answer = fenalukki_first_hit(part->bytes, part->length, at[0], at[1], at[2], at[0], at[1],
                                 at[2], fenalukki_hit_budget(0));
    if (answer < FIRST_ANSWER) {
        print_refusal("first hit", (unsigned long)answer);
        return FENALUKKI_NOT_LOOKED_AT;
    }
    return fenalukki_mark(answer);
}

static void colour_place(int mark, int i, uint8_t rows[SIDE][TICKS])
{
    static const int colour[] = {2 * IS_EMPTY, 2 * IS_LEFT_OUT, 2 * IS_INSIDE + 1};
    int y, x;

    for (y = 0; y < SIDE; y++)
        for (x = 0; x < SIDE; x++)
            rows[y][SIDE * i + x] = (uint8_t)(x == 0 || y == 0 ? 2 * KINDS : colour[mark]);
}

static int write_places(const struct part *part, const struct plane *plane,
                        const struct window *window, const char *path)
{
    static uint8_t rows[WINDOW_HEIGHT][TICKS];
    unsigned long counts[FENALUKKI_NOT_LOOKED_AT + 1] = {0};
    int i;

    for (i = 0; i < PLACES * PLACE_ROWS; i++) {
        int mark = ask_place(part, plane, window, i % PLACES, i / PLACES);

        if (mark == FENALUKKI_NOT_LOOKED_AT)
            return 0;
        counts[mark]++;
        colour_place(mark, i % PLACES, rows + SIDE * (i / PLACES));
    }
    if (!write_picture(path, TICKS, WINDOW_HEIGHT, 8, &palette, rows[0]))
        return 0;
    printf("%s: plane %c %ld, %d places; %lu inside, %lu crossing\n", path, axes[plane->axis],
           (long)plane->place, PLACES * PLACE_ROWS, counts[FENALUKKI_INSIDE],
           counts[FENALUKKI_CROSSING]);
    return 1;
}

/* The depth image: the first hits of its rays. The nearest hit is white, the
 * farthest dark grey, clear black. */

enum { BUDGET = 2047, ANSWER_CLEAR = 3, NO_HIT = 1024, DARK = 40 };

struct depths {
    uint16_t ticks[PIXELS]; /* the hit's, or NO_HIT */
    uint16_t nearest, farthest;
    unsigned long probes, hits;
};

static void count_hit(struct depths *depths, uint16_t tick)
{
    depths->hits++;
    if (tick < depths->nearest)
        depths->nearest = tick;
    if (tick > depths->farthest)
        depths->farthest = tick;
}

/* An answer is k * 2^32 + tick * 65,536 + probes. The budget is always enough,
 * so none is spent. */
static int cast_depths(const struct part *part, struct depths *depths)
{
    int i;

    for (i = 0; i < PIXELS; i++) {
        int32_t a[3], b[3];
        uint64_t answer;

        set_ray(i, 0, PIECES, a, b);
        answer = fenalukki_first_hit(part->bytes, part->length, a[0], a[1], a[2],
                                     b[0], b[1], b[2], BUDGET);
        if (answer < FIRST_ANSWER) {
            print_refusal("first hit", (unsigned long)answer);
            return 0;
        }
        depths->probes += (unsigned long)(answer & 0xffff);
        depths->ticks[i] = NO_HIT;
        if (answer >> 32 != ANSWER_CLEAR) {
            depths->ticks[i] = (uint16_t)(answer >> 16 & 0xffff);
            count_hit(depths, depths->ticks[i]);
        }
    }
    return 1;
}

static void shade(const struct depths *depths, uint8_t *greys)
{
    int range = depths->farthest - depths->nearest + 1;
    int i;

    for (i = 0; i < PIXELS; i++) {
        int behind = depths->ticks[i] - depths->nearest;

        greys[i] = depths->ticks[i] == NO_HIT
                       ? BLACK : (uint8_t)(WHITE - behind * (WHITE - DARK) / range);
    }
}

static int write_depth(const struct part *part, const char *path)
{
    static struct depths depths;
    static uint8_t greys[PIXELS];

    depths.nearest = NO_HIT;
    if (!cast_depths(part, &depths))
        return 0;
    shade(&depths, greys);
    if (!write_picture(path, WIDTH, HEIGHT, 8, NULL, greys))
        return 0;
    printf("%s: depth, %d first hits, %lu probes, %lu rays hit\n", path, PIXELS,
           depths.probes, depths.hits);
    return 1;
}

static int read_number(const char *word, int32_t *number)
{
    char *end;
    long value = strtol(word, &end, 10);

    *number = (int32_t)value;
    return end != word && *end == '\0' && *number == value;
}

static int read_plane(char **words, struct plane *plane)
{
    const char *axis = strchr(axes, words[0][0]);

    if (axis == NULL || words[0][0] == '\0' || words[0][1] != '\0')
        return 0;
    plane->axis = (int)(axis - axes);
    return read_number(words[1], &plane->place);
}

/* The first tick and the first row of those that the picture has room for. */
static int read_window(char **words, struct window *window)
{
    return read_number(words[0], &window->tick) && read_number(words[1], &window->row) &&
           window->tick >= 0 && window->tick <= TICKS - CELLS && window->row >= 0 &&
           window->row <= PLANE_ROWS - WINDOW_ROWS;
}

static int print_usage(void)
{
    fprintf(stderr,
            "usage: slice PART PICTURE.png [AXIS PLACE [march | (ticks | places) TICK ROW]]\n"
            "With AXIS x, y or z: the plane at PLACE on it, white where a column's bit is 1;\n"
            "with march: how many probes fewer (brighter) or more (darker) a marching cast\n"
            "takes to each tick than a full cast; with ticks: 32 ticks from TICK on, 0 to\n"
            "992, of 20 rows from ROW on, 0 to 1004; with places: each whole-step place\n"
            "there. Without: the part seen obliquely, the brighter the nearer.\n"
            "Status 1 where a call is refused, with its number, or a file cannot be\n"
            "read or written.\n");
    return 0;
}

int main(int argc, char **argv)
{
    static struct part part;
    struct plane plane = {0, 0};
    struct window window = {0, 0};
    int marches = argc == 6 && strcmp(argv[5], "march") == 0;
    int zooms = argc == 8 && read_window(argv + 6, &window);
    int ticks = zooms && strcmp(argv[5], "ticks") == 0;
    int places = zooms && strcmp(argv[5], "places") == 0;
    int written;

    if (argc != 3 && !((argc == 5 || marches || ticks || places) && read_plane(argv + 3, &plane)))
        written = print_usage();
    else if (!read_part("slice", argv[1], &part))
        written = 0;
    else if (marches)
        written = write_march(&part, &plane, argv[2]);
    else if (ticks)
        written = write_ticks(&part, &plane, &window, argv[2]);
    else if (places)
        written = write_places(&part, &plane, &window, argv[2]);
    else if (argc == 5)
        written = write_plane(&part, &plane, argv[2]);
    else
        written = write_depth(&part, argv[2]);
    return !written;
}
