/*
 * The stack that each C entry takes, on part files, each in both versions: stack PART...
 *
 * A call runs on a stack of its own that was filled with a pattern; what is not
 * the pattern afterwards was used. Prints the most bytes for each entry. Ends
 * with status 1 if one takes more than MOST, or a call is refused.
 */
#define _XOPEN_SOURCE 700
#include "fenalukki.h"

#include <stdio.h>
#include <string.h>
#include <ucontext.h>

enum { STACK = 1 << 20, MOST = 32768, PATTERN = 0xa5, ENTRIES = 15 };

#define RAY -2047, -2047, -300, 2047, 2047, 300
#define FLOATS -2047.0f / 64, -2047.0f / 64, -300.0f / 64, 2047.0f / 64, 2047.0f / 64, 300.0f / 64

static uint8_t part[65537], buffer[1024], written[65536], saved[12], stack[STACK];
static size_t length;
static int32_t numbers[3066]; /* of the part's nodes, once they are read */
static size_t numbers_len;
static uint64_t totals[3];
static int64_t bounds[2];
static uint64_t number; /* the last call's */

static void full_cast(void)
{
    number = fenalukki_full_cast(part, length, RAY, 2047, buffer, sizeof buffer);
}

static void first_hit(void)
{
    number = fenalukki_first_hit(part, length, RAY, 2047);
}

static void column(void)
{
    number = fenalukki_column(part, length, RAY, buffer, sizeof buffer);
}

static void marching_cast(void)
{
    number = fenalukki_marching_cast(part, length, RAY, 2052, buffer, sizeof buffer);
}

static void viewer_first_hit(void)
{
    number = fenalukki_viewer_first_hit(part, length, FLOATS, 2047);
}

static void full_cast_counted(void)
{
    number = fenalukki_full_cast_counted(part, length, RAY, 2047, buffer, sizeof buffer, totals);
}

static void first_hit_counted(void)
{
    number = fenalukki_first_hit_counted(part, length, RAY, 2047, totals);
}

static void column_counted(void)
{
    number = fenalukki_column_counted(part, length, RAY, buffer, sizeof buffer, totals);
}

static void marching_cast_counted(void)
{
    number = fenalukki_marching_cast_counted(part, length, RAY, 2052, buffer, sizeof buffer,
                                             totals);
}

static void viewer_first_hit_counted(void)
{
    number = fenalukki_viewer_first_hit_counted(part, length, FLOATS, 2047, totals);
}

static void check(void)
{
    number = fenalukki_check(part, length);
}

static void place_bounds(void)
{
    number = fenalukki_place_bounds(part, length, 10, 20, 30, bounds);
}

static void read_nodes(void)
{
    number = fenalukki_read(part, length, numbers);
}

static void write_part(void)
{
    number = fenalukki_write(numbers, numbers_len, 1, 2, written, sizeof written, 12);
}

static void restore_totals(void)
{
    number = fenalukki_restore_totals(saved, sizeof saved, totals);
}

static struct {
    const char *name;
    void (*run)(void);
    size_t most;
} entries[ENTRIES] = {
    {"full cast", full_cast, 0},
    {"first hit", first_hit, 0},
    {"column", column, 0},
    {"marching cast", marching_cast, 0},
    {"viewer's first hit", viewer_first_hit, 0},
    {"full cast counted", full_cast_counted, 0},
    {"first hit counted", first_hit_counted, 0},
    {"column counted", column_counted, 0},
    {"marching cast counted", marching_cast_counted, 0},
    {"viewer's first hit counted", viewer_first_hit_counted, 0},
    {"check of a file", check, 0},
    {"bounds at a place", place_bounds, 0},
    {"write", write_part, 0},
    {"read", read_nodes, 0},
    {"saved record", restore_totals, 0},
};

static size_t used_by(void (*entry)(void))
{
    ucontext_t here, there;
    size_t unused = 0;

    memset(stack, PATTERN, sizeof stack);
    getcontext(&there);
    there.uc_stack.ss_sp = stack;
    there.uc_stack.ss_size = sizeof stack;
    there.uc_link = &here;
    makecontext(&there, entry, 0);
    swapcontext(&here, &there);
    while (unused < sizeof stack && stack[unused] == PATTERN)
        unused++;
    return sizeof stack - unused;
}

static void read_part(const char *path)
{
    FILE *file = fopen(path, "rb");

    length = file ? fread(part, 1, sizeof part, file) : 0;
    if (file)
        fclose(file);
    numbers_len = 6 * (size_t)fenalukki_nodes(fenalukki_read(part, length, numbers));
}

/* The part as another version; nothing of a short file. */
static void set_version(uint8_t version)
{
    if (length >= FENALUKKI_FILE_BYTES_MIN)
        part[length - 10] = version;
}

/* Answers whether a call is refused. */
static int measure(void)
{
    int i, refused = 0;

    for (i = 0; i < ENTRIES; i++) {
        size_t used = used_by(entries[i].run);

        refused |= number < 65536;
        if (used > entries[i].most)
            entries[i].most = used;
    }
    return refused;
}

/* Answers whether an entry takes too much. */
static int print_most(void)
{
    int i, failed = 0;

    for (i = 0; i < ENTRIES; i++) {
        printf("%s%s %lu", i == 0 ? "" : ", ", entries[i].name, (unsigned long)entries[i].most);
        failed |= entries[i].most > MOST;
    }
    printf(" bytes\n");
    return failed;
}

int main(int argc, char **argv)
{
    int i, failed = argc < 2;

    for (i = 1; i < argc; i++) {
        read_part(argv[i]);
        set_version(1);
        failed |= measure();
        set_version(2);
        failed |= measure();
    }
    return print_most() || failed;
}
