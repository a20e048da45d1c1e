/* A tour of fenalukki.h: writes a part of three points, makes each of the
 * fifteen calls, plans a viewer's budgets, asks about places by rays, has the
 * points joined by other operators and of the other degree, and each refusal
 * number answered once. What it prints is in tour.out. Lengths are in steps of
 * 1/64 mm but for the viewer's, which are in millimetres. */
#include "fenalukki.h"

#include <inttypes.h>
#include <stdio.h>
#include <string.h>

/* 1. The part, from the numbers of its nodes: docs/FORMAT.md says how a part is
 * built, and what its bytes are. */

struct part {
    uint8_t bytes[FENALUKKI_WRITE_BYTES_MAX];
    size_t length;
};

enum { ISO = 768, NODES = 5, NUMBERS = NODES * FENALUKKI_NUMBERS_PER_NODE };
enum { DEGREE_4 = FENALUKKI_FILE_VERSION_DEGREE_4, DEGREE_6 = FENALUKKI_FILE_VERSION_DEGREE_6 };

/* Kind, r, x, y, z and w of each: two points that are summed to a bar, and a
 * ball, joined with it by an operator. */
static const int32_t bar_and_ball[NUMBERS] = {
    FENALUKKI_KIND_POINT, 640, -320, -256, 0, 1024,
    FENALUKKI_KIND_POINT, 640, 320, -256, 0, 1024,
    FENALUKKI_KIND_SUM, 0, 0, 0, 0, 0,
    FENALUKKI_KIND_POINT, 512, 0, 400, 64, 3072,
    FENALUKKI_KIND_GREATER, 0, 0, 0, 0, 0
};

/* A part whose numbers are refused has the length 0. */
static void make_part(struct part *part, const int32_t *numbers, uint32_t version)
{
    uint32_t number = fenalukki_write(numbers, NUMBERS, ISO, version, part->bytes,
                                      sizeof part->bytes, 0);

    part->length = fenalukki_end(number);
}

/* Of any call: says why it was refused and returns 1, else 0. What was lent to a
 * refused call is as it was, so it is not read. */
static int is_refused(uint64_t number)
{
    if (!fenalukki_refusal(number))
        return 0;
    printf("refused %d, %s\n", fenalukki_refusal(number), fenalukki_refusal_text(number));
    return 1;
}

static const char *kind_word(int32_t kind)
{
    static const char *const words[] = {"", "point", "sum", "greater", "lesser", "cut"};

    return words[kind];
}

static void print_bytes(const struct part *part, size_t offset)
{
    int i;

    printf("%3lu", (unsigned long)offset);
    for (i = 0; i < FENALUKKI_RECORD_BYTES; i++)
        printf(" %02x", part->bytes[offset + (size_t)i]);
}

static void print_node(const int32_t *node)
{
    printf("  %s", kind_word(node[FENALUKKI_NODE_KIND]));
    if (node[FENALUKKI_NODE_KIND] == FENALUKKI_KIND_POINT)
        printf(", r %ld, x %ld, y %ld, z %ld, w %ld", (long)node[FENALUKKI_NODE_RADIUS],
               (long)node[FENALUKKI_NODE_X], (long)node[FENALUKKI_NODE_Y],
               (long)node[FENALUKKI_NODE_Z], (long)node[FENALUKKI_NODE_WEIGHT]);
    printf("\n");
}

/* Each record's bytes, with the node that is read from them. */
static void show_part(const struct part *part)
{
    static int32_t numbers[FENALUKKI_NUMBERS_MAX];
    uint64_t number = fenalukki_read(part->bytes, part->length, numbers);
    size_t trailer = (size_t)fenalukki_nodes(number) * FENALUKKI_RECORD_BYTES, i;

    printf("1. A part of three points, %lu bytes\n", (unsigned long)part->length);
    if (is_refused(number))
        return;
    for (i = 0; i * FENALUKKI_RECORD_BYTES < trailer; i++) {
        print_bytes(part, i * FENALUKKI_RECORD_BYTES);
        print_node(numbers + i * FENALUKKI_NUMBERS_PER_NODE);
    }
    print_bytes(part, trailer);
    printf("  trailer: iso %d, version %d, distance %lu\n", fenalukki_iso(number),
           fenalukki_file_version(number), (unsigned long)trailer + FENALUKKI_TRAILER_BYTES);
}

/* 2. The check of a file. Returns 1 if it passes. */

static int show_check(const struct part *part)
{
    uint64_t number = fenalukki_check(part->bytes, part->length);

    printf("\n2. Check: ");
    if (is_refused(number))
        return 0;
    printf("%d nodes, iso %d, version %d\n", fenalukki_nodes(number), fenalukki_iso(number),
           fenalukki_file_version(number));
    return 1;
}

/* 3. Writes of what is read, at several places of a larger buffer and as other
 * versions. Bytes before the place are no part of the tree, and none but the file's
 * own is written. */

enum { ROOM = 80, FILLING = 0xee };

/* How many bytes of the buffer are still its filling. */
static int count_filling(const uint8_t *buffer)
{
    int count = 0, i;

    for (i = 0; i < ROOM; i++)
        count += buffer[i] == FILLING;
    return count;
}

/* From the buffer's start: the file's check, and whether the numbers come back. */
static void print_written(const uint8_t *buffer, size_t end, const int32_t *numbers)
{
    static int32_t again[FENALUKKI_NUMBERS_MAX];
    uint64_t number = fenalukki_read(buffer, end, again);

    if (is_refused(number))
        return;
    printf("ends at %lu, %d nodes, iso %d, version %d, numbers %s", (unsigned long)end,
           fenalukki_nodes(number), fenalukki_iso(number), fenalukki_file_version(number),
           memcmp(numbers, again, NUMBERS * sizeof *numbers) == 0 ? "as given\n" : "changed\n");
}

/* How many bytes from a place on are other than the part's. */
static int count_others(const uint8_t *bytes, const struct part *part)
{
    int count = 0;
    size_t i;

    for (i = 0; i < part->length; i++)
        count += bytes[i] != part->bytes[i];
    return count;
}

static void print_write(const struct part *part, const int32_t *numbers, uint32_t version,
                        size_t place)
{
    uint8_t buffer[ROOM];
    uint32_t number;

    memset(buffer, FILLING, ROOM);
    number = fenalukki_write(numbers, NUMBERS, ISO, version, buffer, ROOM, place);
    printf("version %lu, place %lu: ", (unsigned long)version, (unsigned long)place);
    if (!is_refused(number))
        print_written(buffer, fenalukki_end(number), numbers);
    printf("  %d bytes not written", count_filling(buffer));
    if (!fenalukki_refusal(number))
        printf(", %d of the others not as in 1", count_others(buffer + place, part));
    printf("\n");
}

static void show_writes(const struct part *part)
{
    static int32_t numbers[FENALUKKI_NUMBERS_MAX];

    printf("\n3. Writes of what is read, into %d bytes\n", ROOM);
    if (is_refused(fenalukki_read(part->bytes, part->length, numbers)))
        return;
    print_write(part, numbers, DEGREE_4, 0);
    print_write(part, numbers, DEGREE_4, 4);
    print_write(part, numbers, DEGREE_4, 8);
    print_write(part, numbers, DEGREE_4, 9);
    print_write(part, numbers, DEGREE_6, 8);
    print_write(part, numbers, DEGREE_4 - 1, 8);
    print_write(part, numbers, DEGREE_6 + 1, 8);
}

/* 4. A plane of 64 columns, cast downwards, 32 steps from one to the next. A
 * sign stands for 32 ticks of a column, which are 64 steps. */

enum { COLUMNS = 64, LINES = 32, TICKS_A_SIGN = FENALUKKI_TICKS / LINES };

static char sign_of(const uint8_t *bits, int line)
{
    int solid = 0, i;

    for (i = 0; i < TICKS_A_SIGN; i++)
        solid += fenalukki_bit(bits, line * TICKS_A_SIGN + i);
    return solid == 0 ? '.' : solid == TICKS_A_SIGN ? '#' : '+';
}

static void draw_column(const uint8_t *bits, char picture[LINES][COLUMNS + 1], int column)
{
    int line;

    for (line = 0; line < LINES; line++)
        picture[line][column] = sign_of(bits, line);
}

/* Returns 1 unless a column is refused. */
static int draw_plane(const struct part *part, char picture[LINES][COLUMNS + 1])
{
    unsigned long probes = 0;
    int i;

    for (i = 0; i < COLUMNS; i++) {
        uint8_t bits[FENALUKKI_COLUMN_BYTES];
        int32_t x = 32 * i - 1008;
        uint32_t number = fenalukki_column(part->bytes, part->length, x, 1024, 0, x, -1024, 0,
                                           bits, sizeof bits);

        if (is_refused(number))
            return 0;
        probes += fenalukki_probes(number);
        draw_column(bits, picture, i);
    }
    printf("%d columns, %lu probes; of %d ticks all (#), some (+) or none (.) are solid\n",
           COLUMNS, probes, TICKS_A_SIGN);
    return 1;
}

/* Of the plane, the lines from first to the one before after. */
static void print_plane(const struct part *part, int first, int after)
{
    static char picture[LINES][COLUMNS + 1];
    int line;

    if (!draw_plane(part, picture))
        return;
    for (line = first; line < after; line++)
        printf("%s\n", picture[line]);
}

static void show_plane(const struct part *part)
{
    printf("\n4. The plane z 0: ");
    print_plane(part, 0, LINES);
}

/* 5. Full casts: complete, and spent; and a column on the same ray, which has of
 * each crossing tick whether its middle is solid. */

static const int32_t top[3] = {0, 1024, 0}, bottom[3] = {0, -1024, 0};

static const char *mark_word(int mark)
{
    static const char *const words[] = {"empty", "crossing", "inside", "not looked at"};

    return words[mark];
}

/* Prints a run of one mark and returns the tick after it. */
static int print_run(const uint8_t *marks, int first)
{
    int after = first + 1;

    while (after < FENALUKKI_TICKS && marks[after] == marks[first])
        after++;
    printf("  %s %d to %d\n", mark_word(marks[first]), first, after - 1);
    return after;
}

static void print_runs(const uint8_t *marks)
{
    int tick = 0;

    while (tick < FENALUKKI_TICKS)
        tick = print_run(marks, tick);
}

/* Of a full or a marching cast. Returns 1 unless it is refused. */
static int print_answer(uint32_t number, uint32_t budget, const uint8_t *marks)
{
    printf("budget %lu: ", (unsigned long)budget);
    if (is_refused(number))
        return 0;
    printf("%lu probes, ", (unsigned long)fenalukki_probes(number));
    if (fenalukki_is_spent(number))
        printf("spent at tick %d\n", fenalukki_tick_reached(marks));
    else
        printf("complete\n");
    return 1;
}

static uint32_t full_cast(const struct part *part, const int32_t a[3], const int32_t b[3],
                          uint32_t budget, uint8_t *marks)
{
    return fenalukki_full_cast(part->bytes, part->length, a[0], a[1], a[2], b[0], b[1], b[2],
                               budget, marks, FENALUKKI_MARKS_BYTES);
}

static void print_cast(const struct part *part, const int32_t a[3], const int32_t b[3],
                       uint32_t budget)
{
    uint8_t marks[FENALUKKI_MARKS_BYTES];

    if (print_answer(full_cast(part, a, b, budget, marks), budget, marks))
        print_runs(marks);
}

/* Prints the run of solid ticks that begins with one, if that is solid, and
 * returns the tick after the next that is not. */
static int print_solid(const uint8_t *bits, int first)
{
    int after = first;

    while (after < FENALUKKI_TICKS && fenalukki_bit(bits, after))
        after++;
    if (after > first)
        printf("  solid %d to %d\n", first, after - 1);
    return after + 1;
}

static void print_column(const struct part *part, const int32_t a[3], const int32_t b[3])
{
    uint8_t bits[FENALUKKI_COLUMN_BYTES];
    uint32_t number = fenalukki_column(part->bytes, part->length, a[0], a[1], a[2], b[0], b[1],
                                       b[2], bits, sizeof bits);
    int tick = 0;

    printf("column: ");
    if (is_refused(number))
        return;
    printf("%lu probes\n", (unsigned long)fenalukki_probes(number));
    while (tick < FENALUKKI_TICKS)
        tick = print_solid(bits, tick);
}

static void show_casts(const struct part *part)
{
    printf("\n5. Full casts from (0, 1024, 0) to (0, -1024, 0), and a column\n");
    print_cast(part, top, bottom, FENALUKKI_ENOUGH);
    print_cast(part, top, bottom, 30);
    print_cast(part, top, bottom, 0);
    print_column(part, top, bottom);
}

/* 6. Marching casts on the same ray: complete, with the full cast's marks and
 * probes of its own, and spent. */

static uint32_t marching_cast(const struct part *part, const int32_t a[3], const int32_t b[3],
                              uint32_t budget, uint8_t *marks)
{
    return fenalukki_marching_cast(part->bytes, part->length, a[0], a[1], a[2], b[0], b[1], b[2],
                                   budget, marks, FENALUKKI_MARKS_BYTES);
}

/* Of two casts that are complete. */
static void print_beside_full_cast(const struct part *part)
{
    uint8_t marks[FENALUKKI_MARKS_BYTES], full_marks[FENALUKKI_MARKS_BYTES];
    uint32_t number = marching_cast(part, top, bottom, FENALUKKI_MARCHING_ENOUGH, marks);
    uint32_t full = full_cast(part, top, bottom, FENALUKKI_ENOUGH, full_marks);

    if (!print_answer(number, FENALUKKI_MARCHING_ENOUGH, marks))
        return;
    printf("  marks %s those of the full cast, which made %lu probes\n",
           memcmp(marks, full_marks, sizeof marks) == 0 ? "are" : "differ from",
           (unsigned long)fenalukki_probes(full));
}

static void print_march(const struct part *part, const int32_t a[3], const int32_t b[3],
                        uint32_t budget)
{
    uint8_t marks[FENALUKKI_MARKS_BYTES];

    if (print_answer(marching_cast(part, a, b, budget, marks), budget, marks))
        print_runs(marks);
}

static void show_marches(const struct part *part)
{
    printf("\n6. Marching casts on the same ray\n");
    print_beside_full_cast(part);
    print_march(part, top, bottom, 30);
    print_march(part, top, bottom, 1);
}

/* 7. First hits by whole steps. */

static void print_hit(uint64_t number)
{
    if (is_refused(number))
        return;
    switch (fenalukki_k(number)) {
    case FENALUKKI_K_CLEAR:
        printf("clear");
        break;
    case FENALUKKI_K_SPENT:
        printf("spent at tick %d", fenalukki_tick(number));
        break;
    default:
        printf("hit, tick %d is %s, entry %.10g", fenalukki_tick(number),
               mark_word(fenalukki_mark(number)), (double)fenalukki_place(number));
    }
    printf(", %lu probes\n", (unsigned long)fenalukki_probes(number));
}

/* Along x, from ax to 1024. */
static void print_hit_on(const struct part *part, int32_t ax, int32_t y, uint32_t budget)
{
    printf("(%ld, %ld, 0) to (1024, %ld, 0), budget %lu: ", (long)ax, (long)y, (long)y,
           (unsigned long)budget);
    print_hit(fenalukki_first_hit(part->bytes, part->length, ax, y, 0, 1024, y, 0, budget));
}

static void show_hits(const struct part *part)
{
    printf("\n7. First hits\n");
    print_hit_on(part, -1024, -256, FENALUKKI_ENOUGH);
    print_hit_on(part, 0, -256, FENALUKKI_ENOUGH);
    print_hit_on(part, -1024, 900, FENALUKKI_ENOUGH);
    print_hit_on(part, -1024, -256, 5);
}

/* 8. The viewer's first hits, by floats in millimetres: the first ray of 7, then
 * a camera's ray as it is, then rounded to steps. */

/* Of a hit: the point where its tick begins, in millimetres. It is exact, for it
 * is a multiple of 1/65536 mm, which a float holds. */
static void print_point(const float a[3], const float b[3], uint64_t number)
{
    float entry = fenalukki_place(number), point[3];
    int i;

    for (i = 0; i < 3; i++)
        point[i] = a[i] + entry * (b[i] - a[i]);
    printf("  entry at (%.18g, %.18g, %.18g)\n", (double)point[0], (double)point[1],
           (double)point[2]);
}

static void print_view(const struct part *part, const float a[3], const float b[3])
{
    uint64_t number = fenalukki_viewer_first_hit(part->bytes, part->length, a[0], a[1], a[2],
                                                 b[0], b[1], b[2], FENALUKKI_ENOUGH);

    printf("(%.9g, %.9g, %.9g) to (%.9g, %.9g, %.9g): ", (double)a[0], (double)a[1],
           (double)a[2], (double)b[0], (double)b[1], (double)b[2]);
    print_hit(number);
    if (fenalukki_k(number) == FENALUKKI_K_CROSSING || fenalukki_k(number) == FENALUKKI_K_INSIDE)
        print_point(a, b, number);
}

static void round_end(const double camera[3], float end[3])
{
    int i;

    for (i = 0; i < 3; i++)
        end[i] = fenalukki_round_to_step(camera[i]);
}

static void show_views(const struct part *part)
{
    static const float whole_a[3] = {-16, -4, 0}, whole_b[3] = {16, -4, 0};
    static const double camera_a[3] = {-12.3, 15.7, 9.1}, camera_b[3] = {4.2, -11.9, -6.6};
    const float raw_a[3] = {(float)camera_a[0], (float)camera_a[1], (float)camera_a[2]};
    const float raw_b[3] = {(float)camera_b[0], (float)camera_b[1], (float)camera_b[2]};
    float a[3], b[3];

    printf("\n8. The viewer's first hits\n");
    print_view(part, whole_a, whole_b);
    print_view(part, raw_a, raw_b);
    round_end(camera_a, a);
    round_end(camera_b, b);
    print_view(part, a, b);
}

/* 9. A viewer's budgets, planned by fenalukki_hit_budget: with that of a tick, a
 * hit there or before is never answered as spent. The part is file K, a ball about
 * the origin, and the rays run along x, in millimetres. */

static void make_k(struct part *k)
{
    static const int32_t ball[FENALUKKI_NUMBERS_PER_NODE] = {FENALUKKI_KIND_POINT, 512, 0, 0, 0, 4};
    uint32_t number = fenalukki_write(ball, FENALUKKI_NUMBERS_PER_NODE, 1, DEGREE_4, k->bytes,
                                      sizeof k->bytes, 0);

    k->length = fenalukki_end(number);
}

static void print_budgeted(const struct part *part, float ax, float bx, uint32_t budget)
{
    printf("(%.9g, 0, 0) to (%.9g, 0, 0), budget %lu: ", (double)ax, (double)bx,
           (unsigned long)budget);
    print_hit(fenalukki_viewer_first_hit(part->bytes, part->length, ax, 0, 0, bx, 0, 0, budget));
}

/* The first ray begins in a crossing tick, where a probe less than planned is too
 * little. The second takes much less than planned; spent, it is past the tick that
 * was planned for. */
static void show_budgets(const struct part *k)
{
    printf("\n9. Planned budgets, on file K: %lu for tick 0, %lu to tick 99, %lu to tick 330\n",
           (unsigned long)fenalukki_hit_budget(0), (unsigned long)fenalukki_hit_budget(99),
           (unsigned long)fenalukki_hit_budget(330));
    print_budgeted(k, 5.65625f, 21.65625f, fenalukki_hit_budget(0));
    print_budgeted(k, 5.65625f, 21.65625f, fenalukki_hit_budget(0) - 1);
    print_budgeted(k, -16, 16, fenalukki_hit_budget(330));
    print_budgeted(k, -16, 16, fenalukki_hit_budget(0));
}

/* 10. Bounds at a place, in units of 2^-32. */

static void print_bounds(const struct part *part, int32_t x, int32_t y, int32_t z)
{
    int iso = fenalukki_iso(fenalukki_check(part->bytes, part->length));
    int64_t bounds[FENALUKKI_BOUNDS], level = iso * FENALUKKI_BOUNDS_ONE;
    int64_t low, high;
    uint32_t number = fenalukki_place_bounds(part->bytes, part->length, x, y, z, bounds);

    printf("(%ld, %ld, %ld): ", (long)x, (long)y, (long)z);
    if (is_refused(number))
        return;
    low = bounds[FENALUKKI_BOUNDS_LOW];
    high = bounds[FENALUKKI_BOUNDS_HIGH];
    printf("%.0f to %.0f, field %.3f to %.3f, %s\n", (double)low, (double)high,
           (double)low / (double)FENALUKKI_BOUNDS_ONE, (double)high / (double)FENALUKKI_BOUNDS_ONE,
           low >= level ? "solid" : high < level ? "empty" : "open");
}

static void show_bounds(const struct part *part)
{
    printf("\n10. Bounds at a place, in units of 2^-32; solid from the field %d on\n", ISO);
    print_bounds(part, 0, -256, 0);
    print_bounds(part, 0, 400, 0);
    print_bounds(part, 0, 20, 1);
    print_bounds(part, 1000, 1000, 1000);
}

/* 11. A place, asked by a ray whose ends coincide, as a viewer's cursor asks: every
 * tick is that place, and its mark goes by the bounds there. A first hit tells it
 * with a budget of 11. The part is file K. */

static void print_asked(const struct part *k, int32_t x, int32_t y, int32_t z)
{
    const int32_t at[3] = {x, y, z};
    const float cursor[3] = {(float)x / FENALUKKI_STEPS_PER_MM, (float)y / FENALUKKI_STEPS_PER_MM,
                             (float)z / FENALUKKI_STEPS_PER_MM};

    print_bounds(k, x, y, z);
    printf("first hit, budget %lu: ", (unsigned long)fenalukki_hit_budget(0));
    print_hit(fenalukki_first_hit(k->bytes, k->length, x, y, z, x, y, z, fenalukki_hit_budget(0)));
    print_view(k, cursor, cursor);
    printf("full cast, ");
    print_cast(k, at, at, FENALUKKI_ENOUGH);
    printf("marching cast, ");
    print_march(k, at, at, FENALUKKI_MARCHING_ENOUGH);
    print_column(k, at, at);
}

/* An empty place, one inside, and one that the bounds leave open. */
static void show_places(const struct part *k)
{
    printf("\n11. Places asked by rays, on file K; solid from the field 1 on\n");
    print_asked(k, 512, 0, 0);
    print_asked(k, 0, 0, 0);
    print_asked(k, 362, 5, 2);
}

/* 12. Cut and lesser, with the ball moved into the bar. The bar is the earlier
 * operand, so the cut is the bar without the ball. */

enum { FIRST_LINE = 15, AFTER_LINE = 25 }; /* y from 64 down to -576 */

static void print_overlap(int kind)
{
    static struct part part;
    int32_t numbers[NUMBERS];

    memcpy(numbers, bar_and_ball, sizeof numbers);
    numbers[3 * FENALUKKI_NUMBERS_PER_NODE + FENALUKKI_NODE_Y] = 0;
    numbers[4 * FENALUKKI_NUMBERS_PER_NODE + FENALUKKI_NODE_KIND] = kind;
    make_part(&part, numbers, DEGREE_4);
    printf("%s, the plane z 0: ", kind_word(kind));
    print_plane(&part, FIRST_LINE, AFTER_LINE);
    print_bounds(&part, 0, -256, 0);
    print_bounds(&part, 0, -448, 0);
}

static void show_overlaps(void)
{
    printf("\n12. Cut and lesser of the bar and the ball, moved to y 0\n");
    print_overlap(FENALUKKI_KIND_CUT);
    print_overlap(FENALUKKI_KIND_LESSER);
}

/* 13. The bar and the ball of degree 4 and of degree 6: the numbers are the same, the
 * version is another. But at its centre a point's field is smaller in degree 6, and so
 * the solid is smaller. */

static void print_version(const struct part *part, int version)
{
    printf("version %d, ", version);
    print_bounds(part, 0, -256, 0);
    printf("version %d, ", version);
    print_bounds(part, 0, 400, 64);
    printf("version %d, ", version);
    print_hit_on(part, -1024, -256, FENALUKKI_ENOUGH);
    printf("version %d, ", version);
    print_cast(part, top, bottom, FENALUKKI_ENOUGH);
    printf("version %d, ", version);
    print_column(part, top, bottom);
}

/* The plane of version 1 is in 4. */
static void show_versions(const struct part *part)
{
    static struct part softer;

    printf("\n13. The same part as version 1, of degree 4, and as version 2, of degree 6\n");
    print_version(part, DEGREE_4);
    make_part(&softer, bar_and_ball, DEGREE_6);
    print_version(&softer, DEGREE_6);
    printf("version %d, the plane z 0: ", DEGREE_6);
    print_plane(&softer, 4, 24); /* y from 768 down to -512 */
}

/* 14. Counted calls: three totals that each call adds to. */

static void print_totals(const char *after, const uint64_t totals[FENALUKKI_TOTALS])
{
    printf("%s: casts %" PRIu64 ", probes %" PRIu64 ", refusals %" PRIu64 "\n", after,
           totals[FENALUKKI_TOTALS_CASTS], totals[FENALUKKI_TOTALS_PROBES],
           totals[FENALUKKI_TOTALS_REFUSALS]);
}

static void show_totals(const struct part *part)
{
    const uint8_t *file = part->bytes;
    size_t length = part->length;
    uint8_t marks[FENALUKKI_MARKS_BYTES], bits[FENALUKKI_COLUMN_BYTES];
    uint64_t totals[FENALUKKI_TOTALS] = {0, 0, 0};

    printf("\n14. Running totals\n");
    fenalukki_full_cast_counted(file, length, 0, 1024, 0, 0, -1024, 0, 30, marks, sizeof marks,
                                totals);
    print_totals("a full cast with budget 30", totals);
    fenalukki_marching_cast_counted(file, length, 0, 1024, 0, 0, -1024, 0,
                                    FENALUKKI_MARCHING_ENOUGH, marks, sizeof marks, totals);
    print_totals("a marching cast", totals);
    fenalukki_column_counted(file, length, 0, 1024, 0, 0, -1024, 0, bits, sizeof bits, totals);
    print_totals("a column", totals);
    fenalukki_first_hit_counted(file, length, -1024, -256, 0, 1024, -256, 0, FENALUKKI_ENOUGH,
                                totals);
    print_totals("a first hit", totals);
    fenalukki_viewer_first_hit_counted(file, length, -16, -4, 0, 16, -4, 0, FENALUKKI_ENOUGH,
                                       totals);
    print_totals("a viewer's first hit", totals);
    fenalukki_viewer_first_hit_counted(file, length, 0.1f, 0, 0, 1, 0, 0, FENALUKKI_ENOUGH, totals);
    print_totals("one that is refused", totals);
    totals[FENALUKKI_TOTALS_PROBES] = FENALUKKI_TOTALS_MAX - 3;
    fenalukki_column_counted(file, length, 0, 1024, 0, 0, -1024, 0, bits, sizeof bits, totals);
    print_totals("a column, with probes near the ceiling", totals);
}

/* 15. A saved record, read into the totals: its probes are at the ceiling of 32
 * bits, and the column after it counts on from there. */

static const uint8_t saved[FENALUKKI_SAVED_BYTES] = {
    0x15, 0xcd, 0x5b, 0x07, 0xff, 0xff, 0xff, 0xff, 0x2a, 0x00, 0x00, 0x00
};

static void print_restore(size_t length, uint64_t totals[FENALUKKI_TOTALS])
{
    uint32_t number = fenalukki_restore_totals(saved, length, totals);

    printf("%lu bytes: ", (unsigned long)length);
    if (!is_refused(number))
        printf("read\n");
    print_totals("  the totals", totals);
}

static void show_restore(const struct part *part)
{
    uint8_t bits[FENALUKKI_COLUMN_BYTES];
    uint64_t totals[FENALUKKI_TOTALS] = {0, 0, 0};

    printf("\n15. A saved record\n");
    print_restore(FENALUKKI_SAVED_BYTES, totals);
    fenalukki_column_counted(part->bytes, part->length, 0, 1024, 0, 0, -1024, 0, bits,
                             sizeof bits, totals);
    print_totals("a column", totals);
    print_restore(FENALUKKI_SAVED_BYTES - 1, totals);
}

/* 16. Every refusal. 13 is not given. */

/* 1 to 4 by a file that has one fault. */
static uint64_t refused_file(struct part part, int number)
{
    uint8_t *trailer = part.bytes + part.length - FENALUKKI_TRAILER_BYTES;

    switch (number) {
    case FENALUKKI_REFUSED_LENGTH:
        part.length = FENALUKKI_FILE_BYTES_MIN - 1;
        break;
    case FENALUKKI_REFUSED_FILE_MARK:
        trailer[11] = 0;
        break;
    case FENALUKKI_REFUSED_VERSION:
        trailer[2] = DEGREE_6 + 1;
        break;
    case FENALUKKI_REFUSED_DISTANCE:
        trailer[4] += FENALUKKI_RECORD_BYTES;
        break;
    }
    return fenalukki_check(part.bytes, part.length);
}

static uint32_t write_numbers(const int32_t *numbers, size_t count, uint32_t iso)
{
    static uint8_t buffer[FENALUKKI_WRITE_BYTES_MAX];

    return fenalukki_write(numbers, count, iso, DEGREE_4, buffer, sizeof buffer, 0);
}

static uint32_t write_points(size_t count)
{
    static int32_t numbers[FENALUKKI_NUMBERS_MAX];
    size_t i;

    for (i = 0; i < count; i++)
        memcpy(numbers + i * FENALUKKI_NUMBERS_PER_NODE, bar_and_ball,
               FENALUKKI_NUMBERS_PER_NODE * sizeof *numbers);
    return write_numbers(numbers, count * FENALUKKI_NUMBERS_PER_NODE, ISO);
}

/* 6 to 8 by a write of a node that has one fault. */
static uint32_t refused_node(int number)
{
    int32_t numbers[NUMBERS], *sum = numbers + 2 * FENALUKKI_NUMBERS_PER_NODE;

    memcpy(numbers, bar_and_ball, sizeof numbers);
    switch (number) {
    case FENALUKKI_REFUSED_KIND:
        numbers[FENALUKKI_NODE_KIND] = FENALUKKI_KIND_CUT + 1;
        break;
    case FENALUKKI_REFUSED_ZERO_BYTES:
        sum[FENALUKKI_NODE_WEIGHT] = 1;
        break;
    case FENALUKKI_REFUSED_POINT:
        numbers[FENALUKKI_NODE_RADIUS] = FENALUKKI_RADIUS_MAX + 1;
        break;
    }
    return write_numbers(numbers, NUMBERS, ISO);
}

/* 5, 9 to 11, 16 and 17 by a write. */
static uint32_t refused_write(int number)
{
    uint8_t buffer[NODES * FENALUKKI_RECORD_BYTES]; /* no room for the trailer */
    enum { TWO_NODES = 2 * FENALUKKI_NUMBERS_PER_NODE };

    switch (number) {
    case FENALUKKI_REFUSED_ISO:
        return write_numbers(bar_and_ball, NUMBERS, FENALUKKI_ISO_MAX + 1);
    case FENALUKKI_REFUSED_TOO_FEW_HELD: /* from the sum on */
        return write_numbers(bar_and_ball + TWO_NODES, NUMBERS - TWO_NODES, ISO);
    case FENALUKKI_REFUSED_TOO_MANY_HELD:
        return write_points(FENALUKKI_HELD_MAX + 1);
    case FENALUKKI_REFUSED_NOT_ONE_HELD:
        return write_points(2);
    case FENALUKKI_REFUSED_NUMBERS:
        return write_numbers(bar_and_ball, NUMBERS - 1, ISO);
    case FENALUKKI_REFUSED_WRITE_ROOM:
        return fenalukki_write(bar_and_ball, NUMBERS, ISO, DEGREE_4, buffer, sizeof buffer, 0);
    default:
        return refused_node(number);
    }
}

/* 12, 14, 15 and 18 by a place, a buffer, a float or a saved record, the others as
 * above. */
static uint64_t refused_call(const struct part *part, int number)
{
    uint8_t bits[FENALUKKI_COLUMN_BYTES];
    int64_t bounds[FENALUKKI_BOUNDS];
    uint64_t totals[FENALUKKI_TOTALS] = {0, 0, 0};

    switch (number) {
    case FENALUKKI_REFUSED_COORDINATE:
        return fenalukki_place_bounds(part->bytes, part->length, 0, 0,
                                      FENALUKKI_COORDINATE_MAX + 1, bounds);
    case FENALUKKI_REFUSED_ROOM:
        return fenalukki_column(part->bytes, part->length, 0, 0, 0, 1, 0, 0, bits,
                                sizeof bits - 1);
    case FENALUKKI_REFUSED_FLOAT:
        return fenalukki_viewer_first_hit(part->bytes, part->length, 0.1f, 0, 0, 1, 0, 0,
                                          FENALUKKI_ENOUGH);
    case FENALUKKI_REFUSED_SAVED:
        return fenalukki_restore_totals(saved, sizeof saved - 1, totals);
    default:
        return number < FENALUKKI_REFUSED_ISO ? refused_file(*part, number)
                                              : refused_write(number);
    }
}

static void show_refusals(const struct part *part)
{
    int number;

    printf("\n16. Refusals\n");
    for (number = 1; number <= FENALUKKI_REFUSALS; number++) {
        uint64_t answer;

        if (number == 13)
            continue;
        answer = refused_call(part, number);
        printf("%2d: %s\n", fenalukki_refusal(answer), fenalukki_refusal_text(answer));
    }
}

int main(void)
{
    static struct part part, k;

    printf("Fenalukki %s\n\n", FENALUKKI_VERSION);
    make_part(&part, bar_and_ball, DEGREE_4);
    show_part(&part);
    if (!show_check(&part))
        return 1;
    show_writes(&part);
    show_plane(&part);
    show_casts(&part);
    show_marches(&part);
    show_hits(&part);
    show_views(&part);
    make_k(&k);
    show_budgets(&k);
    show_bounds(&part);
    show_places(&k);
    show_overlaps();
    show_versions(&part);
    show_totals(&part);
    show_restore(&part);
    show_refusals(&part);
    return 0;
}
