/* parts FOLDER writes seven part files into FOLDER: pad.part, a lattice pad;
 * core.part, core-sum.part and core-cut.part, a filter core with its bores made
 * in three ways; tee.part and tee-soft.part, a pump's tee in degree 4 and in
 * degree 6; k.part, one point. All numbers are whole, lengths in steps of
 * 1/64 mm, so the bytes are the same everywhere. */
#include "fenalukki.h"

#include <stdio.h>

enum { SUM = FENALUKKI_KIND_SUM, GREATER = FENALUKKI_KIND_GREATER, CUT = FENALUKKI_KIND_CUT };

struct part {
    int32_t numbers[FENALUKKI_NUMBERS_MAX];
    size_t count; /* of numbers */
    uint32_t iso;
    uint32_t version;
};

static void put_node(struct part *part, int kind, int r, int x, int y, int z, int w)
{
    int32_t *node = part->numbers + part->count;

    node[FENALUKKI_NODE_KIND] = kind;
    node[FENALUKKI_NODE_RADIUS] = r;
    node[FENALUKKI_NODE_X] = x;
    node[FENALUKKI_NODE_Y] = y;
    node[FENALUKKI_NODE_Z] = z;
    node[FENALUKKI_NODE_WEIGHT] = w;
    part->count += FENALUKKI_NUMBERS_PER_NODE;
}

/* Each put_ function below leaves one held value more. */

static void put_point(struct part *part, int r, int x, int y, int z, int w)
{
    put_node(part, FENALUKKI_KIND_POINT, r, x, y, z, w);
}

/* Replaces the last two held values by one. */
static void join(struct part *part, int kind)
{
    put_node(part, kind, 0, 0, 0, 0, 0);
}

/* The pad: two layers of four bars each way, with a post at each crossing. The
 * points of a bar are summed. Of the bars the greater is taken, so crossings do
 * not swell. A post is one point between the layers, summed with the bars. */

enum { PAD_ISO = 30, BAR_R = 375, BAR_W = 20, POST_R = 188, POST_W = 20 };
enum { CELL = 500, LAYER = 200 };

/* The place of bar n of four. */
static int bar_place(int n)
{
    return n * CELL - 3 * CELL / 2;
}

/* Bars 0 to 7 are the lower layer's; four along x, then four along y. */
static void put_bar(struct part *part, int n)
{
    int along_x = n / 4 % 2 == 0;
    int across = bar_place(n % 4);
    int z = n < 8 ? -LAYER : LAYER;
    int i;

    for (i = 0; i < 8; i++) {
        int along = (2 * i - 7) * CELL / 4;

        put_point(part, BAR_R, along_x ? along : across, along_x ? across : along, z, BAR_W);
        if (i > 0)
            join(part, SUM);
    }
}

static void put_bars(struct part *part)
{
    int n;

    for (n = 0; n < 16; n++) {
        put_bar(part, n);
        if (n > 0)
            join(part, GREATER);
    }
}

static void put_posts(struct part *part)
{
    int n;

    for (n = 0; n < 16; n++) {
        put_point(part, POST_R, bar_place(n % 4), bar_place(n / 4), 0, POST_W);
        if (n > 0)
            join(part, SUM);
    }
}

static void make_pad(struct part *part)
{
    put_bars(part);
    put_posts(part);
    join(part, SUM);
    part->iso = PAD_ISO;
}

/* A core: a body of four layers, a collar at its foot, the greater of the two,
 * and seven bores. */

enum { CORE_ISO = 16, LAYERS = 4, FOOT = -390, RISE = 260 };

/* Points of one radius at a distance around the axis. In 24ths of a turn: the
 * first one's angle, and the angle from one to the next. */
struct ring {
    int distance, first, every, r;
};

static const struct ring inner = {250, 2, 4, 385};
static const struct ring outer = {500, 0, 1, 385};
static const struct ring collar = {700, 0, 1, 360};

/* A bore on the axis and one at each place of the ring. Each is a row of points
 * along z, one a layer. With r almost twice the rise, as in the fine ones, a
 * row's field hardly changes along it; in the coarse ones it goes up and down. */
struct bores {
    struct ring ring;
    int layers, foot, rise;
};

static const struct bores coarse = {{360, 0, 4, 160}, 9, -560, 140};
static const struct bores fine = {{360, 0, 4, 195}, 14, -650, 100};

/* A thousand times the cosine of an angle that is at least 0. */
static int cosine(int angle)
{
    static const int quarter[] = {1000, 966, 866, 707, 500, 259, 0};

    angle %= 24;
    if (angle > 12)
        angle = 24 - angle;
    return angle <= 6 ? quarter[angle] : -quarter[12 - angle];
}

static int sine(int angle)
{
    return cosine(angle + 18);
}

static void put_ring(struct part *part, const struct ring *ring, int z, int w)
{
    int angle;

    for (angle = ring->first; angle < 24; angle += ring->every) {
        int x = ring->distance * cosine(angle) / 1000;
        int y = ring->distance * sine(angle) / 1000;

        put_point(part, ring->r, x, y, z, w);
        if (angle > ring->first)
            join(part, SUM);
    }
}

/* The first and the last layer weigh more, or the ends would be round. */
static void put_body(struct part *part)
{
    int i;

    for (i = 0; i < LAYERS; i++) {
        int at_end = i == 0 || i == LAYERS - 1;

        put_ring(part, &inner, FOOT + i * RISE, at_end ? 13 : 10);
        put_ring(part, &outer, FOOT + i * RISE, at_end ? 8 : 6);
        join(part, SUM);
        if (i > 0)
            join(part, SUM);
    }
}

static void put_bores(struct part *part, const struct bores *bores, int w)
{
    int i;

    for (i = 0; i < bores->layers; i++) {
        int z = bores->foot + i * bores->rise;

        put_point(part, bores->ring.r, 0, 0, z, w);
        put_ring(part, &bores->ring, z, w);
        join(part, SUM);
        if (i > 0)
            join(part, SUM);
    }
}

/* The bores are the later operand. */
static void make_bored(struct part *part, const struct bores *bores, int w, int kind)
{
    put_body(part);
    put_ring(part, &collar, FOOT, 12);
    join(part, GREATER);
    put_bores(part, bores, w);
    join(part, kind);
    part->iso = CORE_ISO;
}

static void make_core(struct part *part)
{
    make_bored(part, &coarse, -120, SUM);
}

/* Of one set of points: bores by negative weights, and bores that are cut. */

static void make_core_sum(struct part *part)
{
    make_bored(part, &fine, -33, SUM);
}

static void make_core_cut(struct part *part)
{
    make_bored(part, &fine, 33, CUT);
}

/* A tee: three tubes that meet, and the same at half the size for their bores,
 * cut out. A tube is a row of points, r twice their distance, and the point in
 * the middle is in all three. The weight is chosen by the degree, so that a lone
 * tube is about TUBE_R thick in both. */

enum { TEE_ISO = 19, TUBE_R = 600, TUBE_EVERY = 300, TUBE_POINTS = 5 };
enum { TEE_W = 18, TEE_SOFT_W = 28 };

/* The middle and the three rows, at 1/part_of the size and part_of times as many
 * points. */
static void put_tubes(struct part *part, int part_of, int w)
{
    int arm, i;

    put_point(part, TUBE_R / part_of, 0, 0, 0, w);
    for (arm = 0; arm < 24; arm += 8) {
        for (i = 1; i <= TUBE_POINTS * part_of; i++) {
            int along = i * TUBE_EVERY / part_of;

            put_point(part, TUBE_R / part_of, along * cosine(arm) / 1000, along * sine(arm) / 1000, 0, w);
            join(part, SUM);
        }
    }
}

static void make_tee_of(struct part *part, uint32_t version, int w)
{
    put_tubes(part, 1, w);
    put_tubes(part, 2, w);
    join(part, CUT);
    part->iso = TEE_ISO;
    part->version = version;
}

static void make_tee(struct part *part)
{
    make_tee_of(part, FENALUKKI_FILE_VERSION_DEGREE_4, TEE_W);
}

static void make_tee_soft(struct part *part)
{
    make_tee_of(part, FENALUKKI_FILE_VERSION_DEGREE_6, TEE_SOFT_W);
}

/* File K of the worked rays. */
static void make_k(struct part *part)
{
    put_point(part, 512, 0, 0, 0, 4);
    part->iso = 1;
}

static int write_file(const char *path, const uint8_t *bytes, size_t length)
{
    FILE *file = fopen(path, "wb");
    size_t written;

    if (file == NULL)
        return 0;
    written = fwrite(bytes, 1, length, file);
    return fclose(file) == 0 && written == length;
}

/* Returns 1 unless the part is refused or the file cannot be written. */
static int write_part(const char *path, const struct part *part)
{
    static uint8_t bytes[FENALUKKI_WRITE_BYTES_MAX];
    uint32_t number = fenalukki_write(part->numbers, part->count, part->iso, part->version, bytes,
                                      sizeof bytes, 0);

    if (fenalukki_refusal(number)) {
        fprintf(stderr, "parts: %s: %s\n", path, fenalukki_refusal_text(number));
        return 0;
    }
    if (!write_file(path, bytes, fenalukki_end(number))) {
        fprintf(stderr, "parts: cannot write %s\n", path);
        return 0;
    }
    return 1;
}

static int write_made(const char *folder, const char *name, void (*make)(struct part *))
{
    static struct part part;
    char path[4096];
    int length = snprintf(path, sizeof path, "%s/%s", folder, name);

    if (length < 0 || (size_t)length >= sizeof path) {
        fprintf(stderr, "parts: cannot write %s/%s\n", folder, name);
        return 0;
    }
    part.count = 0;
    part.version = FENALUKKI_FILE_VERSION_DEGREE_4;
    make(&part);
    return write_part(path, &part);
}

int main(int argc, char **argv)
{
    if (argc != 2) {
        fprintf(stderr, "usage: parts FOLDER\n"
                        "Writes pad.part, core.part, core-sum.part, core-cut.part, tee.part,\n"
                        "tee-soft.part and k.part into FOLDER.\n");
        return 1;
    }
    return !(write_made(argv[1], "pad.part", make_pad)
             && write_made(argv[1], "core.part", make_core)
             && write_made(argv[1], "core-sum.part", make_core_sum)
             && write_made(argv[1], "core-cut.part", make_core_cut)
             && write_made(argv[1], "tee.part", make_tee)
             && write_made(argv[1], "tee-soft.part", make_tee_soft)
             && write_made(argv[1], "k.part", make_k));
}
