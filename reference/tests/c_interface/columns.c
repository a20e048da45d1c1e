/* Columns through the C entries, for the test c_interface: columns PART...
 *
 * Without PART: file K's on the ray from (-1024, 0, 0) to (1024, 0, 0), plain and
 * counted, that of a strut between two middles and that of file K of degree 6, each
 * with the runs of its marks and of its solid ticks. Of each PART: columns of rays that are 2,048 steps
 * long, so that every middle is a whole step, each bit of which is worked out
 * again from the tick's mark and the bounds at its middle. */
#include "fenalukki.h"

#include <stdio.h>

struct part {
    uint8_t bytes[FENALUKKI_FILE_BYTES_MAX + 1];
    size_t length;
};

struct column {
    uint8_t marks[FENALUKKI_MARKS_BYTES], bits[FENALUKKI_COLUMN_BYTES];
};

static const uint8_t k[24] = {1, 0, 0, 2, 0, 0, 0, 0, 0, 0, 4, 0,
                              1, 0, 1, 0, 24, 0, 0, 0, 0x54, 0x52, 0x45, 0x45};

/* The same point with the radius 1: solid to 0.7 steps from the origin. */
static const uint8_t strut[24] = {1, 0, 1, 0, 0, 0, 0, 0, 0, 0, 4, 0,
                                  1, 0, 1, 0, 24, 0, 0, 0, 0x54, 0x52, 0x45, 0x45};

/* File K as version 2: degree 6. */
static const uint8_t softer[24] = {1, 0, 0, 2, 0, 0, 0, 0, 0, 0, 4, 0,
                                   1, 0, 2, 0, 24, 0, 0, 0, 0x54, 0x52, 0x45, 0x45};

/* Along x, at a height and a depth. Returns the column's number, or 0 where the
 * full cast has another one. */
static uint32_t cast(const uint8_t *file, size_t length, int32_t y, int32_t z,
                     struct column *column)
{
    uint32_t full = fenalukki_full_cast(file, length, -1024, y, z, 1024, y, z, FENALUKKI_ENOUGH,
                                        column->marks, sizeof column->marks);
    uint32_t number = fenalukki_column(file, length, -1024, y, z, 1024, y, z, column->bits,
                                       sizeof column->bits);

    return number == full ? number : 0;
}

/* Prints the runs of ticks with this mark, or of those whose bit is 1. */
static void print_runs(const char *name, const struct column *column, int mark)
{
    int before = 0, tick;

    printf("%s", name);
    for (tick = 0; tick <= FENALUKKI_TICKS; tick++) {
        int now = tick < FENALUKKI_TICKS &&
                  (mark < 0 ? fenalukki_bit(column->bits, tick) : column->marks[tick] == mark);

        if (now != before)
            printf(now ? " %d" : "-%d", now ? tick : tick - 1);
        before = now;
    }
    printf("\n");
}

static void print_column(const char *name, const uint8_t *file, size_t length)
{
    struct column column = {{0}, {0}};
    uint32_t number = cast(file, length, 0, 0, &column);

    printf("%s %lu\n", name, (unsigned long)number);
    print_runs("crossing", &column, FENALUKKI_CROSSING);
    print_runs("inside", &column, FENALUKKI_INSIDE);
    print_runs("solid", &column, -1);
}

static void print_counted(void)
{
    struct column column = {{0}, {0}};
    uint64_t totals[FENALUKKI_TOTALS] = {0, 0, 0};
    uint32_t number = fenalukki_column_counted(k, sizeof k, -1024, 0, 0, 1024, 0, 0, column.bits,
                                               sizeof column.bits, totals);

    printf("counted %lu\n", (unsigned long)number);
    print_runs("solid", &column, -1);
    printf("totals %lu %lu %lu\n", (unsigned long)totals[FENALUKKI_TOTALS_CASTS],
           (unsigned long)totals[FENALUKKI_TOTALS_PROBES],
           (unsigned long)totals[FENALUKKI_TOTALS_REFUSALS]);
}

/* Whether the bounds at the middle of a tick add up to twice the iso-value. */
static int middle_is_solid(const struct part *part, int32_t y, int32_t z, int tick)
{
    int64_t bounds[FENALUKKI_BOUNDS];
    int64_t iso = fenalukki_iso(fenalukki_check(part->bytes, part->length));

    fenalukki_place_bounds(part->bytes, part->length, 2 * tick - 1023, y, z, bounds);
    return bounds[FENALUKKI_BOUNDS_LOW] + bounds[FENALUKKI_BOUNDS_HIGH] >=
           2 * iso * FENALUKKI_BOUNDS_ONE;
}

/* Crossing ticks, those of them that are solid, and ticks whose bit is wrong. */
struct counts {
    unsigned long crossing, solid, wrong;
};

static void count_ticks(const struct part *part, int32_t y, int32_t z, struct counts *counts)
{
    struct column column = {{0}, {0}};
    int tick;

    if (cast(part->bytes, part->length, y, z, &column) < 65536)
        counts->wrong++;
    for (tick = 0; tick < FENALUKKI_TICKS; tick++) {
        int mark = column.marks[tick], bit = fenalukki_bit(column.bits, tick);
        int right = mark == FENALUKKI_INSIDE;

        if (mark == FENALUKKI_CROSSING) {
            right = middle_is_solid(part, y, z, tick);
            counts->crossing++;
            counts->solid += (unsigned long)bit;
        }
        counts->wrong += bit != right;
    }
}

static void print_part(const char *path)
{
    static struct part part;
    struct counts counts = {0, 0, 0};
    FILE *file = fopen(path, "rb");
    int32_t y, z;

    part.length = file ? fread(part.bytes, 1, sizeof part.bytes, file) : 0;
    if (file)
        fclose(file);
    for (y = -1000; y <= 1000; y += 100)
        for (z = -700; z <= 700; z += 100)
            count_ticks(&part, y, z, &counts);
    printf("crossing %lu solid %lu wrong %lu\n", counts.crossing, counts.solid, counts.wrong);
}

int main(int argc, char **argv)
{
    int i;

    for (i = 1; i < argc; i++)
        print_part(argv[i]);
    if (argc == 1) {
        print_column("K", k, sizeof k);
        print_counted();
        print_column("strut", strut, sizeof strut);
        print_column("softer", softer, sizeof softer);
    }
    return 0;
}
