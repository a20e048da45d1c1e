/* A host: cost PICTURE.png PART... makes first hits and draws how many probes a hit
 * takes by its tick h, below the line 2 h + 11, which none passes. Rightwards go the
 * ticks, on the left 0 to 15, large, on the right all; upwards the probes, twice as
 * many from one line of the grid to the next. The rays are some of the parts' depth
 * images, also begun later or ended earlier, and those of a part that is hard to tell
 * empty.
 * All arithmetic is in whole numbers, so the picture is the same on every machine.
 * Lengths are in steps of 1/64 mm. */
#include "fenalukki.h"
#include "host.h"
#include "png.h"

#include <stdio.h>
#include <string.h>

enum { TICKS = FENALUKKI_TICKS, PROBES = FENALUKKI_ENOUGH + 1 };

/* First hits, and of the hits how many have each tick and number of probes. */
struct costs {
    unsigned long rays, hits;
    unsigned long counts[TICKS][PROBES];
};

/* The line: what a hit at a tick takes at most. */
static int figure(int tick)
{
    return 2 * tick + 11;
}

/* Answers 1, or 0 where the call is refused or passes the line. */
static int count_answer(uint64_t answer, struct costs *costs)
{
    int tick = fenalukki_tick(answer), probes = (int)fenalukki_probes(answer);

    if (fenalukki_refusal(answer)) {
        fprintf(stderr, "cost: first hit refused: %s\n", fenalukki_refusal_text(answer));
        return 0;
    }
    costs->rays++;
    if (fenalukki_k(answer) == FENALUKKI_K_CLEAR)
        return 1;
    if (probes > figure(tick)) {
        fprintf(stderr, "cost: a hit at tick %d with %d probes\n", tick, probes);
        return 0;
    }
    costs->hits++;
    costs->counts[tick][probes]++;
    return 1;
}

/* Of each EVERY-th pixel of a row, in each EVERY-th row, the whole ray, what is left
 * of it from each of its pieces on, and what comes before each of them. */

enum { EVERY = 5, ROW_RAYS = WIDTH / EVERY, RAYS = ROW_RAYS * (HEIGHT / EVERY) };

static int count_pieces(const struct part *part, int pixel, int from, int before,
                        struct costs *costs)
{
    int32_t a[3], b[3];

    set_ray(pixel, from, before, a, b);
    return count_answer(fenalukki_first_hit(part->bytes, part->length, a[0], a[1], a[2],
                                            b[0], b[1], b[2], FENALUKKI_ENOUGH), costs);
}

static int count_ray(const struct part *part, int pixel, struct costs *costs)
{
    int going = count_pieces(part, pixel, 0, PIECES, costs), piece;

    for (piece = 1; piece < PIECES && going; piece++)
        going = count_pieces(part, pixel, piece, PIECES, costs) &&
                count_pieces(part, pixel, 0, piece, costs);
    return going;
}

static int count_part(const char *path, struct costs *costs)
{
    static struct part part;
    int going = read_part("cost", path, &part), ray;

    for (ray = 0; ray < RAYS && going; ray++)
        going = count_ray(&part, EVERY * (ray / ROW_RAYS * WIDTH + ray % ROW_RAYS), costs);
    return going;
}

/* The hard part: two points that cancel, so that the field is 0, and a bead. On the
 * ray every tick before the bead is empty and every longer stretch undecided. */

enum { HARD_A = 410, HARD_B = 768, HARD_NODES = 5 };

/* The bead begins just after the step at x. */
static uint64_t hard_hit(int32_t x, int32_t r)
{
    static uint8_t file[FENALUKKI_WRITE_BYTES_MAX];
    const int32_t nodes[HARD_NODES][FENALUKKI_NUMBERS_PER_NODE] = {
        {FENALUKKI_KIND_POINT, 1024, 0, 0, 0, 1425},
        {FENALUKKI_KIND_POINT, 1024, 0, 0, 0, -1425},
        {FENALUKKI_KIND_SUM, 0, 0, 0, 0, 0},
        {FENALUKKI_KIND_POINT, r, x + r, 0, 0, 4096},
        {FENALUKKI_KIND_GREATER, 0, 0, 0, 0, 0},
    };
    uint32_t number = fenalukki_write(nodes[0], HARD_NODES * FENALUKKI_NUMBERS_PER_NODE, 1,
                                      FENALUKKI_FILE_VERSION_DEGREE_4, file, sizeof file, 0);

    if (fenalukki_refusal(number))
        return number;
    return fenalukki_first_hit(file, fenalukki_end(number), HARD_A, 0, 0, HARD_B, 0, 0,
                               FENALUKKI_ENOUGH);
}

/* At each step of the ray three beads: the solid of one of radius r begins about r/128
 * of a step after its field does, and a tick is about a third of a step. */
static int count_hard(struct costs *costs)
{
    int32_t x;
    int going = 1;

    for (x = HARD_A; x < HARD_B && going; x++)
        going = count_answer(hard_hit(x, 1), costs) && count_answer(hard_hit(x, 43), costs) &&
                count_answer(hard_hit(x, 85), costs);
    return going;
}

/* The picture. A plot of it is cut into pixels; a pixel is a box of some ticks and
 * some numbers of probes, and has the colour of what is in it. */

enum { OCTAVES = 11, OCTAVE = 48, PLOT_HEIGHT = OCTAVES * OCTAVE };
enum { LEFT = 60, TOP = 12, GAP = 36, RIGHT = 30, BOTTOM = 36 };
enum { NEAR_WIDTH = 256, FAR_WIDTH = 512, FAR_LEFT = LEFT + NEAR_WIDTH + GAP };
enum { PICTURE_WIDTH = FAR_LEFT + FAR_WIDTH + RIGHT, PICTURE_HEIGHT = TOP + PLOT_HEIGHT + BOTTOM };
enum { AROUND, BELOW, BEYOND, GRID, LINE, DIGIT, HARD, FEW, SHADES = 4, COLOURS = FEW + SHADES };

/* The last ones are of hits through the parts, brighter where there are more. */
static const uint8_t colours[COLOURS][3] = {
    {24, 26, 32}, {24, 26, 32}, {48, 30, 34}, {62, 67, 78}, {255, 255, 255}, {190, 195, 205},
    {250, 150, 40}, {36, 84, 150}, {52, 120, 200}, {100, 170, 235}, {180, 220, 255},
};
static const struct png_palette palette = {colours[0], COLOURS};

struct plot {
    int left, width, ticks, grid; /* a line of the grid for each so many ticks */
};

static const struct plot plots[2] = {
    {LEFT, NEAR_WIDTH, 16, 4}, {FAR_LEFT, FAR_WIDTH, TICKS, 128},
};

struct box {
    int tick, last_tick, probes, last_probes;
};

/* A row is counted from the lowest on. */
static struct box box_at(const struct plot *plot, int x, int row)
{
    int octave = 1 << row / OCTAVE, rest = row % OCTAVE;
    struct box box;

    box.tick = x * plot->ticks / plot->width;
    box.last_tick = ((x + 1) * plot->ticks - 1) / plot->width;
    box.probes = octave + rest * octave / OCTAVE;
    box.last_probes = octave + ((rest + 1) * octave - 1) / OCTAVE;
    return box;
}

static unsigned long hits_in(const struct costs *costs, const struct box *box)
{
    unsigned long hits = 0;
    int tick, probes;

    for (tick = box->tick; tick <= box->last_tick; tick++)
        for (probes = box->probes; probes <= box->last_probes; probes++)
            hits += costs->counts[tick][probes];
    return hits;
}

/* From 1, 8, 64 and 512 hits on. */
static int shade_of(unsigned long hits)
{
    int shade = FEW;

    for (; hits >= 8 && shade < FEW + SHADES - 1; hits /= 8)
        shade++;
    return shade;
}

static int is_beyond(const struct plot *plot, int x, int row)
{
    struct box box = box_at(plot, x, row);

    return box.probes > figure(box.last_tick);
}

/* Whether the line passes: the pixel is beyond it, and the one below, or that on
 * its right, is not. */
static int is_line(const struct plot *plot, int x, int row)
{
    return is_beyond(plot, x, row) &&
           (!is_beyond(plot, x, row - 1) || (x + 1 < plot->width && !is_beyond(plot, x + 1, row)));
}

static int is_grid(const struct plot *plot, int x, int row)
{
    return row % OCTAVE == 0 || x % (plot->width / (plot->ticks / plot->grid)) == 0;
}

static int colour_of(const struct plot *plot, int x, int row, const struct costs *of_parts,
                     const struct costs *of_hard)
{
    struct box box = box_at(plot, x, row);
    unsigned long hits = hits_in(of_parts, &box);

    if (is_line(plot, x, row))
        return LINE;
    if (hits > 0)
        return shade_of(hits);
    if (hits_in(of_hard, &box) > 0)
        return HARD;
    if (is_grid(plot, x, row))
        return GRID;
    return is_beyond(plot, x, row) ? BEYOND : BELOW;
}

static uint8_t picture[PICTURE_HEIGHT][PICTURE_WIDTH];

static void draw_plot(const struct plot *plot, const struct costs *of_parts,
                      const struct costs *of_hard)
{
    int x, row;

    for (row = 0; row < PLOT_HEIGHT; row++)
        for (x = 0; x < plot->width; x++)
            picture[TOP + PLOT_HEIGHT - 1 - row][plot->left + x] =
                (uint8_t)colour_of(plot, x, row, of_parts, of_hard);
}

/* Numbers at the lines of the grid. A digit is five rows of three dots, the topmost
 * in the highest bits. */

enum { DOT = 3, DIGIT_WIDTH = 4 * DOT, DIGIT_HEIGHT = 5 * DOT };

static void draw_digit(int digit, int x, int y)
{
    static const unsigned dots[10] = {0x7b6f, 0x2c97, 0x73e7, 0x73cf, 0x5bc9,
                                      0x79cf, 0x79ef, 0x7249, 0x7bef, 0x7bcf};
    int i, row;

    for (i = 0; i < 15; i++)
        for (row = 0; row < DOT && dots[digit] >> (14 - i) & 1; row++)
            memset(picture[y + i / 3 * DOT + row] + x + i % 3 * DOT, DIGIT, DOT);
}

/* Draws a number that ends before x. */
static void draw_number(int number, int x, int y)
{
    do {
        x -= DIGIT_WIDTH;
        draw_digit(number % 10, x, y);
        number /= 10;
    } while (number > 0);
}

static int width_of(int number)
{
    return number < 10 ? DIGIT_WIDTH : DIGIT_WIDTH + width_of(number / 10);
}

static void draw_numbers(void)
{
    int octave, plot, tick;

    for (octave = 0; octave <= OCTAVES; octave++) {
        int y = TOP + PLOT_HEIGHT - octave * OCTAVE - DIGIT_HEIGHT / 2;

        draw_number(1 << octave, LEFT - DOT, y);
    }
    for (plot = 0; plot < 2; plot++)
        for (tick = 0; tick <= plots[plot].ticks; tick += plots[plot].grid) {
            int x = plots[plot].left + tick * plots[plot].width / plots[plot].ticks;

            draw_number(tick, x + width_of(tick) / 2, TOP + PLOT_HEIGHT + 4 * DOT);
        }
}

/* At how many ticks there are hits. */
static int ticks_hit(const struct costs *costs)
{
    int ticks = 0, tick;

    for (tick = 0; tick < TICKS; tick++) {
        struct box box = {tick, tick, 0, PROBES - 1};

        ticks += hits_in(costs, &box) > 0;
    }
    return ticks;
}

/* Of the hits: how many take few probes, the most probes, how many lie on the line,
 * and how far below it those after tick 0 are. */
static void print_costs(const char *name, const struct costs *costs)
{
    const struct box few = {0, TICKS - 1, 0, 32};
    int tick, probes, most = 0, nearest = figure(TICKS), farthest = 0;

    for (tick = 0; tick < TICKS; tick++)
        for (probes = 0; probes < PROBES; probes++) {
            int below = figure(tick) - probes;

            if (costs->counts[tick][probes] == 0)
                continue;
            most = probes > most ? probes : most;
            nearest = tick > 0 && below < nearest ? below : nearest;
            farthest = tick > 0 && below > farthest ? below : farthest;
        }
    printf("; %s: %lu rays, %lu hit, at %d ticks, %lu with %d probes or fewer, all with at most %d, ",
           name, costs->rays, costs->hits, ticks_hit(costs), hits_in(costs, &few), few.last_probes,
           most);
    printf("%lu on the line, after tick 0 %d to %d below it", costs->counts[0][figure(0)], nearest,
           farthest);
}

int main(int argc, char **argv)
{
    static struct costs of_parts, of_hard;
    int going = argc > 2, i;

    if (!going)
        fprintf(stderr, "usage: cost PICTURE.png PART...\n");
    for (i = 2; i < argc && going; i++)
        going = count_part(argv[i], &of_parts);
    if (!going || !count_hard(&of_hard))
        return 1;
    for (i = 0; i < 2; i++)
        draw_plot(plots + i, &of_parts, &of_hard);
    draw_numbers();
    if (!png_write(argv[1], PICTURE_WIDTH, PICTURE_HEIGHT, 8, &palette, picture[0])) {
        fprintf(stderr, "cost: cannot write %s\n", argv[1]);
        return 1;
    }
    printf("%s: first hits by tick and probes", argv[1]);
    print_costs("parts", &of_parts);
    print_costs("hard part", &of_hard);
    printf("\n");
    return 0;
}
