/*
 * Wrong entries: each stands before the archive's own and does one thing wrong,
 * chosen by the environment's WRONG. robust/run links replay.c with them by the
 * linker's --wrap and expects each to be caught; without WRONG they are the
 * archive's.
 */
#include "fenalukki.h"
#include "lent.h"

#include <stdlib.h>
#include <string.h>

#define FILE_BYTES const uint8_t *file, size_t file_len
#define ENDS int32_t ax, int32_t ay, int32_t az, int32_t bx, int32_t by, int32_t bz
#define FLOATS float ax, float ay, float az, float bx, float by, float bz
#define RAY ax, ay, az, bx, by, bz
#define NUMBERS const int32_t *numbers, size_t numbers_len
#define SAVED const uint8_t *saved, size_t saved_len
/* The numbers of an accepted call: of one probe, complete or clear. */
#define COMPLETE 65537u
#define CLEAR (UINT64_C(3) << 32 | 1)

uint32_t __real_fenalukki_full_cast(FILE_BYTES, ENDS, uint32_t budget, uint8_t *marks,
                                    size_t marks_len);
uint64_t __real_fenalukki_first_hit(FILE_BYTES, ENDS, uint32_t budget);
uint32_t __real_fenalukki_column(FILE_BYTES, ENDS, uint8_t *column, size_t column_len);
uint32_t __real_fenalukki_marching_cast(FILE_BYTES, ENDS, uint32_t budget, uint8_t *marks,
                                        size_t marks_len);
uint64_t __real_fenalukki_viewer_first_hit(FILE_BYTES, FLOATS, uint32_t budget);
uint32_t __real_fenalukki_full_cast_counted(FILE_BYTES, ENDS, uint32_t budget, uint8_t *marks,
                                            size_t marks_len, uint64_t *totals);
uint64_t __real_fenalukki_first_hit_counted(FILE_BYTES, ENDS, uint32_t budget,
                                            uint64_t *totals);
uint32_t __real_fenalukki_column_counted(FILE_BYTES, ENDS, uint8_t *column, size_t column_len,
                                         uint64_t *totals);
uint32_t __real_fenalukki_marching_cast_counted(FILE_BYTES, ENDS, uint32_t budget,
                                                uint8_t *marks, size_t marks_len,
                                                uint64_t *totals);
uint64_t __real_fenalukki_viewer_first_hit_counted(FILE_BYTES, FLOATS, uint32_t budget,
                                                   uint64_t *totals);
uint64_t __real_fenalukki_check(FILE_BYTES);
uint32_t __real_fenalukki_place_bounds(FILE_BYTES, int32_t x, int32_t y, int32_t z,
                                       int64_t *bounds);
uint32_t __real_fenalukki_write(NUMBERS, uint32_t iso, uint32_t version, uint8_t *buffer,
                                size_t buffer_len, size_t place);
uint64_t __real_fenalukki_read(FILE_BYTES, int32_t *numbers);
uint32_t __real_fenalukki_restore_totals(SAVED, uint64_t *totals);

static volatile uint8_t seen;

static int wrong(const char *name)
{
    const char *chosen = getenv("WRONG");

    return chosen != NULL && strcmp(chosen, name) == 0;
}

/* A length told to the archive, which then itself reads or writes too far. */
static size_t told_file(size_t length)
{
    return wrong("tells-longer-file") ? length + 1 : length;
}

static size_t told_room(size_t length)
{
    return wrong("tells-more-room") ? length + 1 : length;
}

static size_t told_march_file(size_t length)
{
    return wrong("tells-longer-file-for-march") ? length + 1 : told_file(length);
}

static size_t told_march_room(size_t length)
{
    return wrong("tells-more-room-for-march") ? length + 1 : told_room(length);
}

static size_t told_numbers(size_t count)
{
    return wrong("tells-more-numbers") ? count + 6 : count;
}

static size_t told_part_room(size_t length)
{
    return wrong("tells-more-room-for-part") ? length + 1 : length;
}

/* 12 bytes for one less, or for one more. */
static size_t told_saved(size_t length)
{
    int as_12 = (wrong("tells-longer-saved") && length == 11) ||
                (wrong("passes-13-saved") && length == 13);

    return as_12 ? 12 : length;
}

/* Reads what it should not read of a file, or writes to it. */
static void touch_file(const uint8_t *file, size_t file_len)
{
    if (wrong("reads-past-file") && file_len > 0)
        seen = file[file_len];
    if (wrong("reads-before-file") && file_len > 0)
        seen = file[-1];
    if (wrong("reads-no-bytes") && file_len == 0)
        seen = *(const volatile uint8_t *)file;
    if (wrong("writes-file") && file_len > 0)
        ((uint8_t *)file)[file_len / 2] ^= 1;
}

/* Writes what it should not write of a buffer of which need bytes are due. */
static void touch_buffer(uint32_t number, uint8_t *buffer, size_t length, size_t need)
{
    int refused = number < 65536;

    if (wrong("writes-past-room") && length > 0)
        buffer[length] = 0;
    if (wrong("writes-before-room") && length > 0)
        buffer[-1] = 0;
    if (wrong("writes-no-room") && length == 0)
        *(volatile uint8_t *)buffer = 0;
    if (wrong("writes-past-need") && !refused && length > need)
        buffer[need] = 0;
    if (wrong("writes-though-refused") && refused && length > 0)
        buffer[0] = 0;
    if (wrong("leaves-last-byte") && !refused)
        buffer[need - 1] = 0x80;
}

/* Writes beside the totals, or counts otherwise than the call did; the casts
 * are those before it. */
static void touch_totals(uint64_t number, uint64_t casts, uint64_t *totals)
{
    int refused = number < 16;
    uint64_t probes = number & 0xffff;

    if (wrong("writes-past-totals"))
        totals[3] = 0;
    if (wrong("writes-before-totals"))
        totals[-1] = 0;
    if (wrong("refusal-not-counted") && refused && totals[2] > 0)
        totals[2]--;
    if (wrong("refusal-as-cast") && refused)
        totals[0]++;
    if (wrong("cast-not-counted") && !refused && totals[0] > 0)
        totals[0]--;
    if (wrong("probe-not-counted") && !refused)
        totals[1]--;
    if (wrong("total-wraps") && !refused)
        totals[0] = casts + 1;
    if (wrong("total-stays-at-32-bits") && !refused && totals[1] > UINT32_MAX &&
        totals[1] - probes <= UINT32_MAX)
        totals[1] = UINT32_MAX;
    if (wrong("ceiling-less-one") && refused && totals[2] == UINT64_MAX)
        totals[2]--;
}

static uint32_t bytes_at(const uint8_t *at)
{
    return at[0] | (uint32_t)at[1] << 8;
}

/* The trailer's iso-value, its version and its distance's lower half; 0 of a short
 * file. */
static uint32_t iso_of(const uint8_t *file, size_t file_len)
{
    return file_len < 12 ? 0 : bytes_at(file + file_len - 12);
}

static uint32_t version_of(const uint8_t *file, size_t file_len)
{
    return file_len < 12 ? 0 : bytes_at(file + file_len - 10);
}

static uint32_t distance_of(const uint8_t *file, size_t file_len)
{
    return file_len < 12 ? 0 : bytes_at(file + file_len - 8);
}

/* Where the first record stands; the file's end if it is not to be found. */
static size_t first_record(const uint8_t *file, size_t file_len)
{
    size_t distance = distance_of(file, file_len);

    return distance > file_len || distance < 24 ? file_len : file_len - distance;
}

/* The most values held at once, were no number too great. */
static long most_held(const uint8_t *file, size_t file_len)
{
    size_t at;
    long held = 0, most = 0;

    for (at = first_record(file, file_len); at + 24 <= file_len; at += 12) {
        held += file[at] == 1 ? 1 : -1;
        if (held > most)
            most = held;
    }
    return most;
}

static int has_kind(const uint8_t *file, size_t file_len, uint8_t kind)
{
    size_t at = first_record(file, file_len);

    while (at + 24 <= file_len && file[at] != kind)
        at += 12;
    return at + 24 <= file_len;
}

/* The operator that a record's kind is taken for. */
static uint8_t mistaken(uint8_t kind)
{
    if (wrong("cut-as-lesser") && kind == 5)
        return 4;
    if (wrong("cut-as-greater") && kind == 5)
        return 3;
    if (wrong("lesser-as-greater") && kind == 4)
        return 3;
    return kind;
}

/* Has two points change places that stand before a record which is a cut. */
static void exchange_operands(uint8_t *record)
{
    uint8_t later[12];

    if (!wrong("cut-operands-exchanged") || record[0] != 5 || record[-12] != 1 ||
        record[-24] != 1)
        return;
    memcpy(later, record - 12, 12);
    memcpy(record - 12, record - 24, 12);
    memcpy(record - 24, later, 12);
}

/* A copy of the file with operators mistaken or operands exchanged; the file
 * itself where that changes nothing. */
static const uint8_t *misread(const uint8_t *file, size_t file_len)
{
    static uint8_t copy[LENT_MOST];
    size_t first = first_record(file, file_len), at;

    if (first == file_len)
        return file;
    memcpy(copy, file, file_len);
    for (at = first; at + 24 <= file_len; at += 12) {
        if (at >= first + 24)
            exchange_operands(copy + at);
        copy[at] = mistaken(copy[at]);
    }
    return memcmp(copy, file, file_len) == 0 ? file : copy;
}

/* A copy of a file of one version as another, where that is the fault; else the file
 * itself. */
static const uint8_t *graded(int is_fault, uint32_t from, uint32_t to, FILE_BYTES)
{
    static uint8_t copy[LENT_MOST];

    if (!is_fault || version_of(file, file_len) != from)
        return file;
    memcpy(copy, file, file_len);
    copy[file_len - 10] = (uint8_t)to;
    return copy;
}

/* A file of version 2 as one of version 1, likewise. */
static const uint8_t *of_degree_4(int is_fault, FILE_BYTES)
{
    return graded(is_fault, 2, 1, file, file_len);
}

/* The number of a full cast by a wrong limit of the file's questions. */
static uint32_t misjudged(const uint8_t *file, size_t file_len, uint32_t number)
{
    int accepted = number >= 65536;

    if (wrong("passes-length-65537") && number == 1 && file_len == 65537)
        return COMPLETE;
    if (wrong("refuses-length-65536") && accepted && file_len == 65536)
        return 1;
    if (wrong("passes-distance-beyond") && number == 4 &&
        distance_of(file, file_len) == file_len + 12)
        return COMPLETE;
    if (wrong("refuses-distance-6144") && accepted && distance_of(file, file_len) == 6144)
        return 4;
    if (wrong("passes-version-0") && number == 3 && version_of(file, file_len) == 0)
        return COMPLETE;
    if (wrong("passes-version-3") && number == 3 && version_of(file, file_len) == 3)
        return COMPLETE;
    if (wrong("refuses-version-2") && accepted && version_of(file, file_len) == 2)
        return 3;
    if (wrong("passes-iso-4097") && number == 5 && iso_of(file, file_len) == 4097)
        return COMPLETE;
    if (wrong("refuses-iso-4096") && accepted && iso_of(file, file_len) == 4096)
        return 5;
    if (wrong("passes-kind-6") && number == 6 && has_kind(file, file_len, 6))
        return COMPLETE;
    if (wrong("refuses-kind-5") && accepted && has_kind(file, file_len, 5))
        return 6;
    if (wrong("passes-held-65") && number == 10 && most_held(file, file_len) == 65)
        return COMPLETE;
    if (wrong("refuses-held-64") && accepted && most_held(file, file_len) == 64)
        return 10;
    return number;
}

static int is_step(int32_t a, int32_t b, int32_t c, int32_t step)
{
    return a == step || b == step || c == step || a == -step || b == -step || c == -step;
}

/* The number of a first hit by a wrong limit of question 12. */
static uint64_t misjudged_ray(ENDS, uint64_t number)
{
    if (wrong("passes-coordinate-2048") && number == 12 &&
        (is_step(ax, ay, az, 2048) || is_step(bx, by, bz, 2048)))
        return CLEAR;
    if (wrong("refuses-coordinate-2047") && number >= 65536 &&
        (is_step(ax, ay, az, 2047) || is_step(bx, by, bz, 2047)))
        return 12;
    return number;
}

/* Whether a ray whose ends coincide is answered. */
static int is_answered_place(ENDS, uint64_t number)
{
    return ax == bx && ay == by && az == bz && number >= 65536;
}

/* The same, by floats. */
static int is_viewed_place(FLOATS, uint64_t number)
{
    return ax == bx && ay == by && az == bz && number >= 65536;
}

/* A first hit's number at a place as if that were always empty, or known by one probe. */
static uint64_t misjudged_hit(uint64_t number, int as_clear, int by_one_probe)
{
    uint64_t kind = number >> 32;

    if (as_clear && (kind == 1 || kind == 2))
        return CLEAR;
    return by_one_probe && kind == 1 ? (number & ~UINT64_C(0xffff)) + 1 : number;
}

/* What can be wrong of a full or marching cast or a column at a place. */
struct misplaced {
    int refused, empty, first_alone, by_one_probe, probe_less;
};

/* The number of such a call that is wrong, or the bytes left: all, or all but the first
 * ones, are others. A spent cast can be refused alone. */
static uint32_t misjudged_place(const struct misplaced *fault, uint32_t number, uint8_t *bytes,
                                size_t length, size_t first, int rest)
{
    if (fault->refused)
        return 13;
    if (number >= 131072)
        return number;
    if (fault->empty)
        memset(bytes, 0, length);
    if (fault->first_alone)
        memset(bytes + first, rest, length - first);
    if (fault->by_one_probe)
        return COMPLETE;
    return fault->probe_less ? number - 1 : number;
}

static uint32_t misjudged_place_cast(uint32_t number, uint8_t *marks)
{
    const struct misplaced fault = {wrong("place-refused-by-cast"), wrong("place-always-empty"),
                                    wrong("place-at-tick-0-alone"), wrong("place-by-one-probe"),
                                    wrong("place-probe-less")};

    return misjudged_place(&fault, number, marks, 1024, 1, 3);
}

static uint32_t misjudged_place_column(uint32_t number, uint8_t *column)
{
    const struct misplaced fault = {
        wrong("place-refused-by-column"), wrong("place-column-always-empty"),
        wrong("place-column-of-tick-0-alone"), wrong("place-column-by-one-probe"),
        wrong("place-column-probe-less")};

    return misjudged_place(&fault, number, column, 128, 1, 0);
}

/* It takes five probes at least. */
static uint32_t misjudged_place_march(uint32_t number, uint8_t *marks)
{
    const struct misplaced fault = {
        wrong("place-refused-by-march"), wrong("place-march-always-empty"),
        wrong("place-march-of-64-ticks"), wrong("place-march-by-one-probe"),
        wrong("place-march-probe-less")};

    return misjudged_place(&fault, number, marks, 1024, 64, 3);
}

/* A hit's number with a probe more, where it has as many as the figure of its tick. */
static uint64_t beyond_figure(uint64_t number)
{
    uint64_t kind = number >> 32, figure = 2 * (number >> 16 & 0xffff) + 11;

    return (kind == 1 || kind == 2) && (number & 0xffff) == figure ? number + 1 : number;
}

/* A hit as spent at its tick, where the budget is the figure of that tick. */
static uint64_t spent_at_figure(uint64_t number, uint32_t budget)
{
    uint64_t kind = number >> 32, tick = number >> 16 & 0xffff;

    if ((kind != 1 && kind != 2) || budget != 2 * tick + 11)
        return number;
    return UINT64_C(4) << 32 | tick << 16 | budget;
}

/* A viewer's number that is wrong. */
static uint64_t misviewed(FLOATS, uint64_t number)
{
    int far = ax == 32 || ay == 32 || az == 32 || bx == 32 || by == 32 || bz == 32;

    if (wrong("viewer-leaves-out-tick"))
        number &= ~(UINT64_C(0xffff) << 16);
    if (wrong("viewer-crossing-as-inside") && number >> 32 == 1)
        number += UINT64_C(1) << 32;
    if (wrong("viewer-refuses-with-12") && number == 15)
        number = 12;
    if (wrong("viewer-passes-NaN") && number == 15 && (ax != ax || bz != bz))
        number = CLEAR;
    if (wrong("viewer-passes-2048-steps") && number == 15 && far)
        number = CLEAR;
    return number;
}

uint32_t __wrap_fenalukki_full_cast(FILE_BYTES, ENDS, uint32_t budget, uint8_t *marks,
                                    size_t marks_len)
{
    const uint8_t *known = misread(file, file_len);
    const uint8_t *read = graded(wrong("cast-of-degree-6"), 1, 2, known, file_len);
    uint32_t number = __real_fenalukki_full_cast(
        of_degree_4(wrong("cast-of-degree-4"), read, file_len), told_file(file_len), RAY, budget,
        marks, told_room(marks_len));

    touch_file(file, file_len);
    touch_buffer(number, marks, marks_len, 1024);
    if (wrong("probe-too-many") && number >= 65536)
        number++;
    if (wrong("spent-as-complete") && number >= 131072)
        number -= 65536;
    if (wrong("later-question") && number < 14)
        number++;
    if (wrong("crossing-as-inside") && number >= 65536 && memchr(marks, 1, 1024) != NULL)
        *(uint8_t *)memchr(marks, 1, 1024) = 2;
    if (is_answered_place(RAY, number))
        number = misjudged_place_cast(number, marks);
    return misjudged(file, file_len, number);
}

uint64_t __wrap_fenalukki_first_hit(FILE_BYTES, ENDS, uint32_t budget)
{
    const uint8_t *read = of_degree_4(wrong("hit-of-degree-4"), file, file_len);
    uint64_t number = __real_fenalukki_first_hit(read, told_file(file_len), RAY, budget);

    touch_file(file, file_len);
    if (wrong("next-tick") && number >> 32 == 1)
        number += 65536;
    if (wrong("budget-passed") && number >> 32 == 4)
        number = __real_fenalukki_first_hit(file, file_len, RAY, budget + 1);
    if (wrong("hit-beyond-figure"))
        number = beyond_figure(number);
    if (wrong("spent-at-figure"))
        number = spent_at_figure(number, budget);
    if (is_answered_place(RAY, number))
        number = misjudged_hit(number, wrong("place-always-clear"), wrong("place-hit-by-one-probe"));
    if (wrong("place-refused-by-hit") && is_answered_place(RAY, number))
        number = 13;
    return misjudged_ray(RAY, number);
}

/* The bounds at n/2048 of the way; answers 0 where that is no whole step. */
static int bounds_on_ray(FILE_BYTES, ENDS, int32_t n, int64_t bounds[2])
{
    const int32_t a[3] = {ax, ay, az}, b[3] = {bx, by, bz};
    int32_t c[3];
    int i, whole = 1;

    for (i = 0; i < 3; i++) {
        int32_t way = (b[i] - a[i]) * n;

        whole &= way % 2048 == 0;
        c[i] = a[i] + way / 2048;
    }
    return whole &&
           __real_fenalukki_place_bounds(file, file_len, c[0], c[1], c[2], bounds) >= 65536;
}

/* The bit of a crossing tick by wrong limits, told the bounds at its middle. */
static int misjudged_middle(const int64_t bounds[2], int64_t level, int bit)
{
    int64_t beyond = bounds[0] + bounds[1] - 2 * level;

    if (wrong("middle-by-low"))
        return bounds[0] >= level;
    if (wrong("middle-by-high"))
        return bounds[1] >= level;
    if (wrong("middle-at-limit-empty") && beyond == 0)
        return 0;
    if (wrong("middle-1-less-solid") && beyond == -1)
        return 1;
    if (wrong("middle-1-more-empty") && beyond == 1)
        return 0;
    if (wrong("middle-most-wraps") && bounds[0] + bounds[1] == INT64_C(1) << 53)
        return 0;
    if (wrong("middle-least-wraps") && bounds[0] + bounds[1] == -255 * (INT64_C(1) << 45))
        return 1;
    return bit;
}

/* The bit of a crossing tick by a wrong rule. */
static int misjudged_bit(FILE_BYTES, ENDS, int tick, int bit)
{
    int64_t bounds[2], level = (int64_t)iso_of(file, file_len) << 32;

    if (wrong("crossing-all-solid"))
        return 1;
    if (wrong("crossing-none-solid"))
        return 0;
    if (wrong("middle-at-start") && bounds_on_ray(file, file_len, RAY, 2 * tick, bounds))
        return bounds[0] + bounds[1] >= 2 * level;
    if (bounds_on_ray(file, file_len, RAY, 2 * tick + 1, bounds))
        return misjudged_middle(bounds, level, bit);
    return bit;
}

/* Gives the crossing ticks of a column their bits by a wrong rule. Answers how many
 * there are; none where the column is refused. */
static uint32_t miscolumn(uint32_t number, FILE_BYTES, ENDS, uint8_t *column)
{
    static uint8_t marks[1024];
    uint32_t crossing = 0;
    int tick;

    if (number < 65536)
        return 0;
    __real_fenalukki_full_cast(file, file_len, RAY, 2047, marks, sizeof marks);
    for (tick = 0; tick < 1024; tick++) {
        int shift = tick % 8, bit = column[tick / 8] >> shift & 1;

        if (marks[tick] != 1)
            continue;
        crossing++;
        bit ^= misjudged_bit(file, file_len, RAY, tick, bit);
        column[tick / 8] ^= (uint8_t)(bit << shift);
    }
    return crossing;
}

uint32_t __wrap_fenalukki_column(FILE_BYTES, ENDS, uint8_t *column, size_t column_len)
{
    const uint8_t *read = of_degree_4(wrong("column-of-degree-4"), file, file_len);
    uint32_t number = __real_fenalukki_column(read, told_file(file_len), RAY, column,
                                              told_room(column_len));
    uint32_t crossing = miscolumn(number, file, file_len, RAY, column);

    touch_file(file, file_len);
    touch_buffer(number, column, column_len, 128);
    if (wrong("middles-as-probes"))
        number += crossing;
    if (wrong("bit-of-column") && number >= 65536)
        column[127] ^= 0x80;
    if (wrong("refuses-room-128") && number >= 65536 && column_len == 128)
        number = 14;
    if (is_answered_place(RAY, number))
        number = misjudged_place_column(number, column);
    return number;
}

uint64_t __wrap_fenalukki_viewer_first_hit(FILE_BYTES, FLOATS, uint32_t budget)
{
    const uint8_t *read = of_degree_4(wrong("viewer-of-degree-4"), file, file_len);
    uint64_t number = __real_fenalukki_viewer_first_hit(read, told_file(file_len), RAY, budget);

    touch_file(file, file_len);
    if (wrong("viewer-hit-beyond-figure"))
        number = beyond_figure(number);
    if (wrong("viewer-spent-at-figure"))
        number = spent_at_figure(number, budget);
    if (is_viewed_place(RAY, number))
        number = misjudged_hit(number, wrong("place-viewed-clear"),
                               wrong("place-viewed-by-one-probe"));
    if (wrong("place-refused-by-viewer") && is_viewed_place(RAY, number))
        number = 13;
    return misviewed(RAY, number);
}

uint32_t __wrap_fenalukki_full_cast_counted(FILE_BYTES, ENDS, uint32_t budget, uint8_t *marks,
                                            size_t marks_len, uint64_t *totals)
{
    uint64_t casts = totals[0];
    uint32_t number = __real_fenalukki_full_cast_counted(
        of_degree_4(wrong("counted-cast-of-degree-4"), file, file_len), told_file(file_len), RAY,
        budget, marks, told_room(marks_len), totals);

    touch_file(file, file_len);
    touch_buffer(number, marks, marks_len, 1024);
    touch_totals(number, casts, totals);
    if (wrong("counted-mark") && number >= 65536)
        marks[1023] ^= 1;
    if (wrong("place-refused-by-counted-cast") && is_answered_place(RAY, number))
        number = 13;
    return number;
}

uint64_t __wrap_fenalukki_first_hit_counted(FILE_BYTES, ENDS, uint32_t budget,
                                            uint64_t *totals)
{
    uint64_t casts = totals[0];
    uint64_t number = __real_fenalukki_first_hit_counted(
        of_degree_4(wrong("counted-hit-of-degree-4"), file, file_len), told_file(file_len), RAY,
        budget, totals);

    touch_file(file, file_len);
    touch_totals(number, casts, totals);
    if (wrong("counted-next-tick") && number >> 32 == 1)
        number += 65536;
    if (wrong("counted-hit-beyond-figure"))
        number = beyond_figure(number);
    if (wrong("counted-spent-at-figure"))
        number = spent_at_figure(number, budget);
    if (wrong("place-refused-by-counted-hit") && is_answered_place(RAY, number))
        number = 13;
    return number;
}

uint32_t __wrap_fenalukki_column_counted(FILE_BYTES, ENDS, uint8_t *column, size_t column_len,
                                         uint64_t *totals)
{
    uint64_t casts = totals[0];
    uint32_t number = __real_fenalukki_column_counted(
        of_degree_4(wrong("counted-column-of-degree-4"), file, file_len), told_file(file_len), RAY,
        column, told_room(column_len), totals);
    uint32_t crossing = miscolumn(number, file, file_len, RAY, column);

    touch_file(file, file_len);
    touch_buffer(number, column, column_len, 128);
    touch_totals(number, casts, totals);
    if (wrong("middles-counted"))
        totals[1] += crossing;
    if (wrong("counted-bit") && number >= 65536)
        column[0] ^= 1;
    if (wrong("place-refused-by-counted-column") && is_answered_place(RAY, number))
        number = 13;
    return number;
}

/* Counts a place as a refusal, from the totals before it. */
static void count_refused(const uint64_t *before, uint64_t *totals)
{
    totals[0] = before[0];
    totals[1] = before[1];
    totals[2] = before[2] + 1;
}

uint64_t __wrap_fenalukki_viewer_first_hit_counted(FILE_BYTES, FLOATS, uint32_t budget,
                                                   uint64_t *totals)
{
    uint64_t before[3] = {totals[0], totals[1], totals[2]};
    uint64_t number = __real_fenalukki_viewer_first_hit_counted(
        of_degree_4(wrong("counted-viewer-of-degree-4"), file, file_len), told_file(file_len), RAY,
        budget, totals);

    touch_file(file, file_len);
    touch_totals(number, before[0], totals);
    if (wrong("place-counted-as-refusal") && is_viewed_place(RAY, number))
        count_refused(before, totals);
    if (wrong("counted-clear-as-spent") && number >> 32 == 3)
        number += UINT64_C(1) << 32;
    if (wrong("counted-viewer-hit-beyond-figure"))
        number = beyond_figure(number);
    if (wrong("counted-viewer-spent-at-figure"))
        number = spent_at_figure(number, budget);
    if (wrong("place-refused-by-counted-viewer") && is_viewed_place(RAY, number))
        number = 13;
    return number;
}

/* A budget told to a march: passed by one, or no more than the most probes of
 * the other casts. */
static uint32_t told_budget(uint32_t budget)
{
    if (wrong("march-passes-budget") && budget < UINT32_MAX)
        return budget + 1;
    return wrong("march-at-most-2047") && budget > 2047 ? 2047 : budget;
}

/* A copy of the first bytes of a buffer, as they are before a march. */
static const uint8_t *copied(const uint8_t *buffer, size_t length)
{
    static uint8_t copy[1024];

    if (length > 0)
        memcpy(copy, buffer, length < sizeof copy ? length : sizeof copy);
    return copy;
}

/* The number of a full cast in a march's place. */
static uint32_t by_halving(FILE_BYTES, ENDS, uint32_t budget)
{
    static uint8_t marks[1024];

    return __real_fenalukki_full_cast(file, file_len, RAY, budget, marks, sizeof marks);
}

/* Writes what a march should not write of its buffer, or another mark. */
static void mismarch(uint32_t number, uint8_t *marks, size_t marks_len, const uint8_t *before)
{
    int refused = number < 65536;
    uint8_t *crossing = refused ? NULL : memchr(marks, 1, 1024);
    uint8_t *reached = refused ? NULL : memchr(marks, 3, 1024);
    size_t tick = reached == NULL ? 1024 : (size_t)(reached - marks);

    if (wrong("march-past-room") && marks_len > 0)
        marks[marks_len] = 0;
    if (wrong("march-past-need") && !refused && marks_len > 1024)
        marks[1024] = 0;
    if (wrong("march-though-refused") && refused && marks_len > 0)
        marks[0] = 3;
    if (wrong("march-past-tick-reached") && reached != NULL)
        *reached = 0;
    if (wrong("march-leaves-ticks") && reached != NULL)
        memcpy(reached, before + tick, 1024 - tick);
    if (wrong("march-crossing-as-empty") && crossing != NULL)
        *crossing = 0;
}

/* A march's number that is wrong. */
static uint32_t mismarched(size_t marks_len, uint32_t budget, uint32_t number)
{
    int complete = number >= 65536 && number < 131072;

    if (wrong("march-probe-too-many") && number >= 65536)
        return number + 1;
    if (wrong("march-spent-as-complete") && number >= 131072)
        return number - 65536;
    if (wrong("march-spent-at-end") && complete && number - 65536 == budget)
        return number + 65536;
    if (wrong("march-asks-14-first") && number < 14 && marks_len < 1024)
        return 14;
    if (wrong("march-passes-room-1023") && number == 14 && marks_len == 1023)
        return COMPLETE;
    if (wrong("march-refuses-room-1024") && number >= 65536 && marks_len == 1024)
        return 14;
    return number;
}

uint32_t __wrap_fenalukki_marching_cast(FILE_BYTES, ENDS, uint32_t budget, uint8_t *marks,
                                        size_t marks_len)
{
    const uint8_t *before = copied(marks, marks_len);
    uint32_t number;

    if (wrong("march-by-halving"))
        return __real_fenalukki_full_cast(file, file_len, RAY, budget, marks, marks_len);
    if (wrong("march-from-b"))
        return __real_fenalukki_marching_cast(file, file_len, bx, by, bz, ax, ay, az, budget,
                                              marks, marks_len);
    number = __real_fenalukki_marching_cast(
        of_degree_4(wrong("march-of-degree-4"), file, file_len), told_march_file(file_len), RAY,
        told_budget(budget), marks, told_march_room(marks_len));
    touch_file(file, file_len);
    touch_buffer(number, marks, marks_len, 1024);
    mismarch(number, marks, marks_len, before);
    if (wrong("march-reports-halving") && number >= 65536)
        return by_halving(file, file_len, RAY, budget);
    if (is_answered_place(RAY, number))
        number = misjudged_place_march(number, marks);
    return mismarched(marks_len, budget, number);
}

/* Counts a march otherwise than it did, from the totals before it. */
static void miscount_march(uint32_t number, const uint64_t *before, uint64_t *totals)
{
    int refused = number < 65536;

    if (wrong("march-not-counted") && !refused)
        memcpy(totals, before, 3 * sizeof *totals);
    if (wrong("march-counted-twice") && !refused)
        totals[1] += number & 0xffff;
    if (wrong("refused-march-not-counted") && refused)
        totals[2] = before[2];
}

uint32_t __wrap_fenalukki_marching_cast_counted(FILE_BYTES, ENDS, uint32_t budget,
                                                uint8_t *marks, size_t marks_len,
                                                uint64_t *totals)
{
    uint64_t before[3] = {totals[0], totals[1], totals[2]};
    uint32_t number = __real_fenalukki_marching_cast_counted(
        of_degree_4(wrong("counted-march-of-degree-4"), file, file_len), told_file(file_len), RAY,
        budget, marks, told_room(marks_len), totals);

    touch_file(file, file_len);
    touch_buffer(number, marks, marks_len, 1024);
    touch_totals(number, before[0], totals);
    miscount_march(number, before, totals);
    if (wrong("march-counted-by-halving") && number >= 65536)
        totals[1] = before[1] + (by_halving(file, file_len, RAY, budget) & 0xffff);
    if (wrong("counted-march-mark") && number >= 65536)
        marks[1023] ^= 1;
    if (wrong("place-refused-by-counted-march") && is_answered_place(RAY, number))
        number = 13;
    return number;
}

/* A check's or a read's number without the file's version: with 1, or with 0. */
static uint64_t forgotten(int as_1, int as_0, uint64_t number)
{
    uint64_t rest = number & 0xffffffff;

    if (number < 65536 || !(as_1 || as_0))
        return number;
    return as_1 ? rest | UINT64_C(1) << 32 : rest;
}

uint64_t __wrap_fenalukki_check(FILE_BYTES)
{
    uint64_t number = __real_fenalukki_check(file, told_file(file_len));

    touch_file(file, file_len);
    if (wrong("node-too-few") && number >= 65536)
        number -= 65536;
    if (wrong("iso-too-great") && number >= 65536)
        number++;
    number = forgotten(wrong("check-always-version-1"), wrong("check-without-version"), number);
    if (wrong("check-passes-version-0") && number == 3 && version_of(file, file_len) == 0)
        number = 65536 + iso_of(file, file_len);
    if (wrong("check-passes-version-3") && number == 3 && version_of(file, file_len) == 3)
        number = (UINT64_C(3) << 32) + 65536 + iso_of(file, file_len);
    if (wrong("check-passes-held-65") && number == 10 && most_held(file, file_len) == 65)
        number = (UINT64_C(1) << 32) + 129 * 65536 + iso_of(file, file_len);
    return number;
}

uint32_t __wrap_fenalukki_place_bounds(FILE_BYTES, int32_t x, int32_t y, int32_t z,
                                       int64_t *bounds)
{
    const uint8_t *read = of_degree_4(wrong("bounds-of-degree-4"), file, file_len);
    uint32_t number = __real_fenalukki_place_bounds(read, told_file(file_len), x, y, z, bounds);
    int refused = number < 65536;

    touch_file(file, file_len);
    if (wrong("low-too-great") && !refused)
        bounds[0]++;
    if (wrong("high-too-small") && !refused)
        bounds[1]--;
    if (wrong("bounds-exchanged") && !refused && bounds[0] != bounds[1]) {
        bounds[0] ^= bounds[1];
        bounds[1] ^= bounds[0];
        bounds[0] ^= bounds[1];
    }
    if (wrong("bounds-though-refused") && refused)
        bounds[1] = 0;
    if (wrong("writes-past-bounds"))
        bounds[2] = 0;
    if (wrong("writes-before-bounds"))
        bounds[-1] = 0;
    if (wrong("passes-place-2048") && number == 12 && is_step(x, y, z, 2048))
        number = 65536;
    return number;
}

/* Reads what it should not read of the numbers, or changes one. */
static void touch_numbers(NUMBERS)
{
    if (wrong("reads-past-numbers") && numbers_len > 0)
        seen = (uint8_t)numbers[numbers_len];
    if (wrong("reads-before-numbers") && numbers_len > 0)
        seen = (uint8_t)numbers[-1];
    if (wrong("reads-no-numbers") && numbers_len == 0)
        seen = (uint8_t)*(const volatile int32_t *)numbers;
    if (wrong("changes-a-number") && numbers_len > 0)
        ((int32_t *)numbers)[numbers_len / 2] ^= 1;
}

/* Writes what it should not write of a part's buffer, or leaves a byte. */
static void touch_part(uint32_t number, uint8_t *buffer, size_t length, size_t place)
{
    int refused = number < 65536;
    size_t end = refused ? 0 : number - 65536;

    if (wrong("part-past-room") && length > 0)
        buffer[length] = 0;
    if (wrong("part-before-room") && length > 0)
        buffer[-1] = 0;
    if (wrong("part-no-room") && length == 0)
        *(volatile uint8_t *)buffer = 0;
    if (wrong("clears-before-place") && !refused && place > 0)
        buffer[place - 1] = 0;
    if (wrong("clears-after-trailer") && !refused && end < length)
        buffer[end] = 0;
    if (wrong("part-though-refused") && refused && place < length)
        buffer[place] = 1;
    if (wrong("leaves-zero-byte") && !refused)
        buffer[place + 1] = 0x80;
}

static void put_bytes(uint8_t *at, uint32_t number)
{
    at[0] = (uint8_t)number;
    at[1] = (uint8_t)(number >> 8);
}

/* Writes one record otherwise. */
static void miswrite_record(uint8_t *record)
{
    uint32_t x = bytes_at(record + 4), y = bytes_at(record + 6);

    if (wrong("x-and-y-exchanged")) {
        put_bytes(record + 4, y);
        put_bytes(record + 6, x);
    }
    if (wrong("sign-lost") && x >= 32768)
        put_bytes(record + 4, 65536 - x);
}

/* Writes records or the trailer of a part otherwise. */
static void miswrite(uint8_t *part, uint8_t *trailer)
{
    uint8_t *record;

    for (record = part; record < trailer; record += 12)
        miswrite_record(record);
    if (wrong("distance-without-trailer"))
        put_bytes(trailer + 4, (uint32_t)(trailer - part));
    if (wrong("writes-version-1"))
        trailer[2] = 1;
    if (wrong("writes-version-2"))
        trailer[2] = 2;
    if (wrong("writes-versions-exchanged"))
        trailer[2] ^= 3;
    if (wrong("version-as-big-endian")) {
        trailer[3] = trailer[2];
        trailer[2] = 0;
    }
    if (wrong("iso-less-one"))
        put_bytes(trailer, bytes_at(trailer) - 1);
}

/* The number as its lower 16 bits have it, signed. */
static int32_t in_16_bits(int32_t number)
{
    int32_t low = number & 0xffff;

    return low < 32768 ? low : low - 65536;
}

/* A copy of the numbers of which only lower bits are taken; the numbers
 * themselves where that changes nothing. */
static const int32_t *narrowed(NUMBERS)
{
    static int32_t copy[LENT_MOST / 4];
    size_t i;

    for (i = 0; i < numbers_len; i++) {
        copy[i] = numbers[i];
        if (wrong("numbers-in-16-bits"))
            copy[i] = in_16_bits(numbers[i]);
        if (wrong("kinds-in-8-bits") && i % 6 == 0)
            copy[i] = numbers[i] & 0xff;
    }
    if (numbers_len == 0 || memcmp(copy, numbers, numbers_len * sizeof *copy) == 0)
        return numbers;
    return copy;
}

/* The version of which only lower bits are taken. */
static uint32_t told_version(uint32_t version)
{
    if (wrong("version-in-8-bits"))
        return version & 0xff;
    return wrong("version-in-16-bits") ? version & 0xffff : version;
}

/* The number of a write by a wrong judgement of its version, or asked out of turn. */
static uint32_t misversioned(size_t numbers_len, uint32_t iso, uint32_t version, size_t place,
                             uint32_t number)
{
    uint32_t end = (uint32_t)(place + 12 * (numbers_len / 6 + 1));
    int is_right = version == 1 || version == 2;

    if (wrong("writes-as-version-0") && number == 3 && version == 0)
        return 65536 + end;
    if (wrong("writes-as-version-3") && number == 3 && version == 3)
        return 65536 + end;
    if (wrong("write-refuses-version-2") && number >= 65536 && version == 2)
        return 3;
    if (wrong("asks-3-before-16") && number == 16 && !is_right)
        return 3;
    if (wrong("asks-5-before-3") && number == 3 && (iso < 1 || iso > 4096))
        return 5;
    return number;
}

/* The number of a write by a wrong limit, or by questions in another order. */
static uint32_t miswritten(size_t numbers_len, size_t length, size_t place, uint32_t number)
{
    size_t end = place + 12 * (numbers_len / 6 + 1);
    int wraps = end < place, fits = !wraps && end <= length && end <= 65536;

    if (wrong("asks-17-before-11") && number == 11 && !fits)
        return 17;
    if (wrong("passes-512-nodes") && number == 16 && numbers_len == 3072)
        return 65536 + (uint32_t)end;
    if (wrong("refuses-511-nodes") && number >= 65536 && numbers_len == 3066)
        return 16;
    if (wrong("passes-7-numbers") && number == 16 && numbers_len == 7)
        return 65536 + (uint32_t)end;
    if (wrong("passes-end-65537") && number == 17 && end == 65537 && length >= end)
        return 65536 + (uint32_t)end;
    if (wrong("refuses-end-65536") && number == 131072)
        return 17;
    if (wrong("refuses-exact-room") && number >= 65536 && end == length)
        return 17;
    if (wrong("place-wraps") && number == 17 && wraps && end <= length)
        return 65536 + (uint32_t)end;
    if (wrong("answers-length") && number >= 65536)
        return number - (uint32_t)place;
    return number;
}

uint32_t __wrap_fenalukki_write(NUMBERS, uint32_t iso, uint32_t version, uint8_t *buffer,
                                size_t buffer_len, size_t place)
{
    uint32_t told_iso = wrong("iso-in-16-bits") ? iso & 0xffff : iso;
    uint32_t number = __real_fenalukki_write(
        narrowed(numbers, numbers_len), told_numbers(numbers_len), told_iso, told_version(version),
        buffer, told_part_room(buffer_len), place);

    touch_numbers(numbers, numbers_len);
    touch_part(number, buffer, buffer_len, place);
    if (number >= 65536)
        miswrite(buffer + place, buffer + (number - 65536 - 12));
    number = misversioned(numbers_len, iso, version, place, number);
    return miswritten(numbers_len, buffer_len, place, number);
}

uint64_t __wrap_fenalukki_read(FILE_BYTES, int32_t *numbers)
{
    uint64_t number = __real_fenalukki_read(file, told_file(file_len), numbers);
    size_t nodes = (size_t)(number >> 16 & 0xffff);
    int refused = number < 65536;

    touch_file(file, file_len);
    if (wrong("number-lost") && !refused)
        numbers[1] = 0;
    if (wrong("number-past-nodes") && !refused && nodes < 511)
        numbers[6 * nodes] = 0;
    if (wrong("numbers-though-refused") && refused)
        numbers[0] = 0;
    if (wrong("writes-past-numbers"))
        numbers[3066] = 0;
    if (wrong("writes-before-numbers"))
        numbers[-1] = 0;
    if (wrong("read-sign-lost") && !refused && numbers[2] < 0)
        numbers[2] = -numbers[2];
    if (wrong("read-node-too-few") && !refused)
        number -= 65536;
    return forgotten(wrong("read-always-version-1"), wrong("read-without-version"), number);
}

/* Reads what it should not read of a saved record, or changes it. */
static void touch_saved(SAVED)
{
    if (wrong("reads-past-saved") && saved_len > 0)
        seen = saved[saved_len];
    if (wrong("reads-before-saved") && saved_len > 0)
        seen = saved[-1];
    if (wrong("reads-no-saved") && saved_len == 0)
        seen = *(const volatile uint8_t *)saved;
    if (wrong("changes-saved") && saved_len > 0)
        ((uint8_t *)saved)[saved_len / 2] ^= 1;
}

/* A number of 32 bits with its bytes in the other order. */
static uint64_t big_endian(uint64_t number)
{
    return number >> 24 | (number >> 8 & 0xff00) | (number & 0xff00) << 8 | (number & 0xff) << 24;
}

/* Leaves other totals than those read; the casts are those before. */
static void misrestore(uint64_t casts, uint64_t *totals)
{
    uint64_t read = totals[0];

    if (wrong("saved-exchanged")) {
        totals[0] = totals[1];
        totals[1] = read;
    }
    if (wrong("saved-added"))
        totals[0] += casts;
    if (wrong("saved-ceiling-raised") && totals[1] == UINT32_MAX)
        totals[1] = UINT64_MAX;
    if (wrong("saved-big-endian"))
        totals[2] = big_endian(totals[2]);
}

uint32_t __wrap_fenalukki_restore_totals(SAVED, uint64_t *totals)
{
    uint64_t casts = totals[0];
    uint32_t number = __real_fenalukki_restore_totals(saved, told_saved(saved_len), totals);
    int refused = number < 65536;

    touch_saved(saved, saved_len);
    if (!refused)
        misrestore(casts, totals);
    if (wrong("refused-saved-clears") && refused)
        memset(totals, 0, 3 * sizeof *totals);
    if (wrong("refused-saved-counted") && refused)
        totals[2]++;
    if (wrong("restores-past-totals"))
        totals[3] = 0;
    if (wrong("restores-before-totals"))
        totals[-1] = 0;
    return number;
}
