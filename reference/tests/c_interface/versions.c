/* Versions through the C entries, for the test c_interface: versions PART...
 *
 * Without PART: writes of one point, as each of several versions. A line has the
 * version, the number of a write where all else is right, and the refusal numbers
 * where one thing more is wrong: the count of numbers, the iso-value, the kind, the
 * values held at the end, the room; and where all of these are. Of each PART: its
 * version, nodes and iso-value by the check and by the read, and whether what is
 * read, written again, is the file. */
#include "fenalukki.h"

#include <stdio.h>
#include <string.h>

enum { POINT = FENALUKKI_NUMBERS_PER_NODE, BYTES = 24 };

/* Two points, of which a whole part has the first. The second time the first one's
 * kind is wrong. */
static const int32_t points[2 * POINT] = {1, 512, 0, 0, 0, 4, 1, 512, 9, 0, 0, 4};
static const int32_t wrong_points[2 * POINT] = {6, 512, 0, 0, 0, 4, 1, 512, 9, 0, 0, 4};

static const uint32_t versions[] = {0, 1, 2, 3, 4, 255, 256, 257, 258, 65535, 65536, 65537, 65538,
                                    UINT32_C(0x80000001), UINT32_C(0x80000002),
                                    UINT32_C(0xfffffffe), UINT32_C(0xffffffff)};

static unsigned long written(const int32_t *numbers, size_t count, uint32_t iso, uint32_t version,
                             size_t room)
{
    uint8_t buffer[2 * BYTES];

    return fenalukki_write(numbers, count, iso, version, buffer, room, 0);
}

static void print_version(uint32_t version)
{
    printf("%lu: %lu", (unsigned long)version, written(points, POINT, 1, version, BYTES));
    printf(" %lu", written(points, POINT - 1, 1, version, BYTES));
    printf(" %lu", written(points, POINT, 0, version, BYTES));
    printf(" %lu", written(wrong_points, POINT, 1, version, BYTES));
    printf(" %lu", written(points, 2 * POINT, 1, version, 2 * BYTES));
    printf(" %lu", written(points, POINT, 1, version, BYTES - 1));
    printf(" %lu\n", written(wrong_points, POINT + 1, 0, version, 0));
}

static void print_part(const char *path)
{
    static uint8_t part[FENALUKKI_FILE_BYTES_MAX + 1], again[FENALUKKI_WRITE_BYTES_MAX];
    static int32_t numbers[FENALUKKI_NUMBERS_MAX];
    FILE *file = fopen(path, "rb");
    size_t length = file ? fread(part, 1, sizeof part, file) : 0;
    uint64_t number = fenalukki_check(part, length);
    uint32_t end;

    if (file)
        fclose(file);
    printf("version %d nodes %d iso %d, ", fenalukki_file_version(number), fenalukki_nodes(number),
           fenalukki_iso(number));
    printf("read %s, ", fenalukki_read(part, length, numbers) == number ? "the same" : "another");
    end = fenalukki_write(numbers, (size_t)fenalukki_nodes(number) * POINT,
                          (uint32_t)fenalukki_iso(number),
                          (uint32_t)fenalukki_file_version(number), again, sizeof again, 0);
    printf("written %s\n", fenalukki_end(end) == length && memcmp(again, part, length) == 0
                               ? "the same" : "another");
}

int main(int argc, char **argv)
{
    size_t i;
    int n;

    for (n = 1; n < argc; n++)
        print_part(argv[n]);
    for (i = 0; argc == 1 && i < sizeof versions / sizeof *versions; i++)
        print_version(versions[i]);
    return 0;
}
