/*
 * The fifteen C entries under libFuzzer, each compared with the reference: the
 * number, every byte of the buffer, of the bounds, of the nodes' numbers and of
 * the totals and around them, and the file, the numbers and the saved record
 * handed over. A first hit's number is also held to the figure of its probes, and
 * no call is to give 13. What is lent lies against inaccessible pages. robust/fuzz
 * builds and runs it.
 *
 * An input is the ray lister's: A and B as six signed 16-bit numbers, the
 * budget unsigned 16 bits, then the file, little-endian. With fewer than 14
 * bytes the file is empty and the numbers are 0. On each input a file is
 * checked, bounds are asked at A and a first hit is made; a full cast and a
 * marching cast with just enough room and with a byte too little; a column with a
 * byte more than it needs, with a byte too little and with none; and the viewer's
 * first hit with the numbers as steps and as the upper halves of floats. Each
 * casting call is made plain and counted. The file's nodes are read, and what
 * stands before its trailer is written as a part, two bytes for each number and
 * the trailer's iso-value and version: at place 0 and at A's x, unsigned, with just enough
 * room, and at A's y, below 0 a place near 2^64, with B's x, unsigned, as the
 * room and A's z as the version's upper half. The file's first bytes are read as a saved record: none, 11, 12, 13, and
 * as many as the lower five bits of A's z say, or all where there are fewer. Each
 * piece is lent an odd number of times, so that a call's changes sides from input
 * to input.
 */
#include "fenalukki.h"
#include "figure.h"
#include "lent.h"

#include <stdio.h>
#include <stdlib.h>
#include <string.h>

#define HEAD 14
#define MARKS 1024
#define COLUMN 128
#define TRAILER 12
#define NUMBERS 3066
#define NOT_GIVEN 13
#define RAY c[0], c[1], c[2], c[3], c[4], c[5]

int LLVMFuzzerTestOneInput(const uint8_t *data, size_t size);

/* The reference's calls, of reference/examples/answers. */
uint64_t reference_check(const uint8_t *file, size_t file_len);
uint32_t reference_place_bounds(const uint8_t *file, size_t file_len,
                                int32_t x, int32_t y, int32_t z, uint8_t *bounds);
uint64_t reference_viewer_first_hit(const uint8_t *file, size_t file_len,
                                    float ax, float ay, float az,
                                    float bx, float by, float bz, uint32_t budget);
uint32_t reference_full_cast(const uint8_t *file, size_t file_len,
                             int32_t ax, int32_t ay, int32_t az,
                             int32_t bx, int32_t by, int32_t bz,
                             uint32_t budget, uint8_t *marks, size_t marks_len);
uint32_t reference_marching_cast(const uint8_t *file, size_t file_len,
                                 int32_t ax, int32_t ay, int32_t az,
                                 int32_t bx, int32_t by, int32_t bz,
                                 uint32_t budget, uint8_t *marks, size_t marks_len);
uint64_t reference_first_hit(const uint8_t *file, size_t file_len,
                             int32_t ax, int32_t ay, int32_t az,
                             int32_t bx, int32_t by, int32_t bz, uint32_t budget);
uint32_t reference_column(const uint8_t *file, size_t file_len,
                          int32_t ax, int32_t ay, int32_t az,
                          int32_t bx, int32_t by, int32_t bz,
                          uint8_t *column, size_t column_len);
uint32_t reference_write(const int32_t *numbers, size_t numbers_len, uint32_t iso,
                         uint32_t version, uint8_t *buffer, size_t buffer_len, size_t place);
uint64_t reference_read(const uint8_t *file, size_t file_len, int32_t *numbers);
uint32_t reference_restore_totals(const uint8_t *saved, size_t saved_len, uint64_t *totals);

struct input {
    const uint8_t *original; /* the file's bytes, for the reference */
    const uint8_t *lent;     /* the same, lent to the archive */
    size_t length;
    int32_t ray[6];
    uint32_t budget;
};

/* A call that leaves marks: the reference's, and the archive's plain and counted. */
struct caster {
    const char *name, *counted_name;
    uint32_t (*right)(const uint8_t *, size_t, int32_t, int32_t, int32_t, int32_t, int32_t,
                      int32_t, uint32_t, uint8_t *, size_t);
    uint32_t (*plain)(const uint8_t *, size_t, int32_t, int32_t, int32_t, int32_t, int32_t,
                      int32_t, uint32_t, uint8_t *, size_t);
    uint32_t (*counted)(const uint8_t *, size_t, int32_t, int32_t, int32_t, int32_t, int32_t,
                        int32_t, uint32_t, uint8_t *, size_t, uint64_t *);
};

static const struct caster full = {"full cast", "full cast counted", reference_full_cast,
                                   fenalukki_full_cast, fenalukki_full_cast_counted};
static const struct caster marching = {"marching cast", "marching cast counted",
                                       reference_marching_cast, fenalukki_marching_cast,
                                       fenalukki_marching_cast_counted};

/* What a write is given. */
struct drawing {
    int32_t numbers[LENT_MOST / 4];
    size_t count;
    uint32_t iso, version;
};

/* The totals before a call: 32 bits are full, the ceiling is near, and reached. */
static const uint64_t before[3] = {UINT32_MAX, UINT64_MAX - 20, UINT64_MAX};

static struct lent file, buffer, totals, given, saved;

static uint32_t unsigned_at(const uint8_t *at)
{
    return at[0] | (uint32_t)at[1] << 8;
}

static int32_t signed_at(const uint8_t *at)
{
    int32_t value = (int32_t)unsigned_at(at);

    return value < 32768 ? value : value - 65536;
}

/* Ends the program if anything differs; what is null if nothing does. */
static void expect_same(const char *call, const char *what)
{
    if (what == NULL)
        return;
    fprintf(stderr, "%s: difference in %s\n", call, what);
    abort();
}

/* Compares the number, which is never 13. */
static void expect_number(const char *call, uint64_t found, uint64_t right)
{
    expect_same(call, found != NOT_GIVEN && found == right ? NULL : "the number");
}

/* Compares the number, and the buffer of which written bytes are expected. */
static void expect(const char *call, uint64_t found, uint64_t right, const void *bytes,
                   size_t written)
{
    expect_number(call, found, right);
    expect_same(call, take_back(&buffer, bytes, written));
}

static uint64_t *lend_totals(void)
{
    return (uint64_t *)(void *)lend(&totals, before, sizeof before);
}

/* Compares the totals after a call of the number. */
static void expect_counted(const char *call, uint64_t number)
{
    uint64_t after[3] = {before[0], before[1], before[2]}, probes = number & 0xffff;

    if (number >= 65536) {
        after[0]++;
        after[1] = probes > 20 ? UINT64_MAX : after[1] + probes;
    }
    expect_same(call, take_back(&totals, after, sizeof after));
}

static void compare_cast(const struct input *in, const struct caster *caster, size_t room)
{
    const int32_t *c = in->ray;
    uint8_t marks[MARKS];
    uint32_t right = caster->right(in->original, in->length, RAY, in->budget, marks, room);
    size_t written = right < 65536 ? 0 : MARKS;
    uint32_t found = caster->plain(in->lent, in->length, RAY, in->budget,
                                   lend(&buffer, NULL, room), room);

    expect(caster->name, found, right, marks, written);
    found = caster->counted(in->lent, in->length, RAY, in->budget, lend(&buffer, NULL, room), room,
                            lend_totals());
    expect(caster->counted_name, found, right, marks, written);
    expect_counted(caster->counted_name, right);
}

static void compare_column(const struct input *in, size_t room)
{
    const int32_t *c = in->ray;
    uint8_t bits[COLUMN + 1];
    uint32_t right = reference_column(in->original, in->length, RAY, bits, room);
    size_t written = right < 65536 ? 0 : COLUMN;
    uint32_t found = fenalukki_column(in->lent, in->length, RAY, lend(&buffer, NULL, room), room);

    expect("column", found, right, bits, written);
    found = fenalukki_column_counted(in->lent, in->length, RAY, lend(&buffer, NULL, room), room,
                                     lend_totals());
    expect("column counted", found, right, bits, written);
    expect_counted("column counted", right);
}

/* Compares the number of a first hit, after it was held to the figure. */
static void expect_hit(const char *call, const struct input *in, uint64_t found, uint64_t right)
{
    const char *what = broken_figure(found, in->budget);

    if (what != NULL) {
        fprintf(stderr, "%s: %s\n", call, what);
        abort();
    }
    expect_number(call, found, right);
}

static void compare_first_hit(const struct input *in)
{
    const int32_t *c = in->ray;
    uint64_t right = reference_first_hit(in->original, in->length, RAY, in->budget);
    uint64_t found = fenalukki_first_hit(in->lent, in->length, RAY, in->budget);

    expect_hit("first hit", in, found, right);
    found = fenalukki_first_hit_counted(in->lent, in->length, RAY, in->budget, lend_totals());
    expect_hit("first hit counted", in, found, right);
    expect_counted("first hit counted", right);
}

static void compare_viewer(const struct input *in, const float *c)
{
    uint64_t right = reference_viewer_first_hit(in->original, in->length, RAY, in->budget);
    uint64_t found = fenalukki_viewer_first_hit(in->lent, in->length, RAY, in->budget);

    expect_hit("viewer's first hit", in, found, right);
    found = fenalukki_viewer_first_hit_counted(in->lent, in->length, RAY, in->budget,
                                               lend_totals());
    expect_hit("viewer's first hit counted", in, found, right);
    expect_counted("viewer's first hit counted", right);
}

/* The viewer's first hit with the numbers as steps, and as upper halves of floats. */
static void compare_viewers(const struct input *in)
{
    float steps[6], halves[6];
    int i;

    for (i = 0; i < 6; i++) {
        uint32_t bits = (uint32_t)in->ray[i] << 16;

        steps[i] = (float)in->ray[i] / 64;
        memcpy(&halves[i], &bits, sizeof bits);
    }
    compare_viewer(in, steps);
    compare_viewer(in, halves);
}

static void compare_file(const struct input *in)
{
    const int32_t *c = in->ray;
    uint8_t bounds[16];
    uint32_t right = reference_place_bounds(in->original, in->length, c[0], c[1], c[2], bounds);
    uint32_t found = fenalukki_place_bounds(in->lent, in->length, c[0], c[1], c[2],
                                            (int64_t *)(void *)lend(&buffer, NULL, 16));

    expect("bounds", found, right, bounds, right < 65536 ? 0 : 16);
    expect_number("check", fenalukki_check(in->lent, in->length),
                  reference_check(in->original, in->length));
}

static void compare_read(const struct input *in)
{
    static int32_t numbers[NUMBERS];
    uint64_t right = reference_read(in->original, in->length, numbers);
    uint64_t found = fenalukki_read(in->lent, in->length, (int32_t *)(void *)lend(
                                    &buffer, NULL, sizeof numbers));
    size_t nodes = (size_t)(right >> 16 & 0xffff);

    expect("read", found, right, numbers, nodes * 6 * sizeof *numbers);
}

static void compare_write(const struct drawing *d, size_t place, size_t room)
{
    static uint8_t bytes[LENT_MOST];
    size_t length = d->count * sizeof *d->numbers, written = 0;
    uint32_t found, right = reference_write(d->numbers, d->count, d->iso, d->version, bytes, room,
                                            place);
    const uint8_t *numbers = lend(&given, d->numbers, length);

    if (right >= 65536)
        written = right - 65536 - place;
    lent_protect(&given);
    found = fenalukki_write((const int32_t *)(const void *)numbers, d->count, d->iso, d->version,
                            lend(&buffer, NULL, room), room, place);
    expect_number("write", found, right);
    expect_same("write", take_back_from(&buffer, place, written == 0 ? bytes : bytes + place,
                                        written));
    expect_same("the numbers", take_back(&given, d->numbers, length));
}

/* Takes what stands before the trailer as a drawing; nothing of a short file. */
static void read_drawing(struct drawing *d, const struct input *in)
{
    size_t i;

    d->count = in->length < TRAILER ? 0 : (in->length - TRAILER) / 2;
    if (d->count > sizeof d->numbers / sizeof *d->numbers)
        d->count = 0;
    d->iso = in->length < TRAILER ? 0 : unsigned_at(in->original + in->length - TRAILER);
    d->version = in->length < TRAILER ? 0 : unsigned_at(in->original + in->length - TRAILER + 2);
    for (i = 0; i < d->count; i++)
        d->numbers[i] = signed_at(in->original + 2 * i);
}

static void compare_writes(const struct input *in)
{
    static struct drawing drawing;
    size_t bytes, place = in->ray[0] & 0xffff;

    read_drawing(&drawing, in);
    bytes = 12 * (drawing.count / 6 + 1);
    compare_write(&drawing, 0, bytes);
    compare_write(&drawing, place, place + bytes > LENT_MOST ? 0 : place + bytes);
    drawing.version += (uint32_t)in->ray[2] << 16;
    compare_write(&drawing, (size_t)(int64_t)in->ray[1], in->ray[3] & 0xffff);
}

/* Reads so many of the file's first bytes, or all, as a saved record. */
static void compare_restore(const struct input *in, size_t count)
{
    uint64_t after[3] = {before[0], before[1], before[2]};
    size_t length = count < in->length ? count : in->length;
    uint32_t found, right = reference_restore_totals(in->original, length, after);
    const uint8_t *bytes = lend(&saved, in->original, length);

    lent_protect(&saved);
    found = fenalukki_restore_totals(bytes, length, lend_totals());
    expect_number("saved record", found, right);
    expect_same("the totals", take_back(&totals, after, sizeof after));
    expect_same("the saved record", take_back(&saved, in->original, length));
}

static void compare_restores(const struct input *in)
{
    const size_t counts[] = {0, 11, 12, 13, in->ray[2] & 31};
    size_t i;

    for (i = 0; i < sizeof counts / sizeof *counts; i++)
        compare_restore(in, counts[i]);
}

static void read_input(struct input *in, const uint8_t *data, size_t size)
{
    static const uint8_t zeros[HEAD];
    const uint8_t *head = size < HEAD ? zeros : data;
    int i;

    in->original = size < HEAD ? NULL : data + HEAD;
    in->length = size < HEAD ? 0 : size - HEAD;
    for (i = 0; i < 6; i++)
        in->ray[i] = signed_at(head + 2 * i);
    in->budget = unsigned_at(head + 12);
}

int LLVMFuzzerTestOneInput(const uint8_t *data, size_t size)
{
    static int opened;
    struct input in;

    if (!opened) {
        lent_open(&file, 1);
        lent_open(&buffer, 1);
        lent_open(&totals, 1);
        lent_open(&given, 1);
        lent_open(&saved, 1);
        opened = 1;
    }
    read_input(&in, data, size);
    if (in.length > LENT_MOST)
        return 0;
    in.lent = lend(&file, in.original, in.length);
    lent_protect(&file);
    compare_cast(&in, &full, MARKS);
    compare_cast(&in, &full, MARKS - 1);
    compare_cast(&in, &marching, MARKS);
    compare_cast(&in, &marching, MARKS - 1);
    compare_column(&in, COLUMN + 1);
    compare_column(&in, COLUMN - 1);
    compare_column(&in, 0);
    compare_first_hit(&in);
    compare_viewers(&in);
    compare_file(&in);
    compare_read(&in);
    compare_writes(&in);
    compare_restores(&in);
    expect_same("the file", take_back(&file, in.original, in.length));
    return 0;
}
