#define _DEFAULT_SOURCE
#include "lent.h"

#include <stdio.h>
#include <stdlib.h>
#include <string.h>
#include <sys/mman.h>
#include <unistd.h>

/* Values of the pattern before they repeat. None is a mark. */
#define PERIOD 127

static uint8_t pattern[LENT_MOST + PERIOD];
static size_t page;

static void *or_end(void *memory)
{
    if (memory == NULL || memory == MAP_FAILED) {
        perror("memory");
        exit(2);
    }
    return memory;
}

static void protect(uint8_t *start, size_t size, int access)
{
    if (size > 0 && mprotect(start, size, access) != 0) {
        perror("mprotect");
        exit(2);
    }
}

static size_t whole_pages(size_t length)
{
    return (length + page - 1) / page * page;
}

void lent_open(struct lent *lent, int on_pages)
{
    size_t i;

    for (i = 0; i < sizeof pattern; i++)
        pattern[i] = (uint8_t)(0x80 | i % PERIOD);
    page = (size_t)sysconf(_SC_PAGESIZE);
    if (LENT_MOST % page != 0) {
        fprintf(stderr, "pages of %lu bytes do not fit\n", (unsigned long)page);
        exit(2);
    }
    memset(lent, 0, sizeof *lent);
    if (on_pages)
        lent->pages = or_end(mmap(NULL, LENT_MOST + 2 * page, PROT_NONE,
                                  MAP_PRIVATE | MAP_ANONYMOUS, -1, 0));
}

/* The pattern of the accessible bytes. */
static const uint8_t *expected_pattern(const struct lent *lent)
{
    return pattern + lent->turn % PERIOD;
}

static void place_on_heap(struct lent *lent, size_t length)
{
    lent->size = length;
    lent->start = lent->bytes = length == 0 ? NULL : or_end(malloc(length));
}

static void place_on_pages(struct lent *lent, size_t length)
{
    int at_end = lent->turn % 2;

    lent->start = lent->pages + page;
    lent->size = whole_pages(length);
    protect(lent->start, lent->size, PROT_READ | PROT_WRITE);
    lent->bytes = lent->start + (at_end ? lent->size - length : 0);
    if (length == 0 && at_end)
        lent->bytes = NULL;
}

uint8_t *lend(struct lent *lent, const void *content, size_t length)
{
    lent->turn++;
    lent->length = length;
    if (lent->pages == NULL)
        place_on_heap(lent, length);
    else
        place_on_pages(lent, length);
    if (lent->size > 0)
        memcpy(lent->start, expected_pattern(lent), lent->size);
    if (content != NULL && length > 0)
        memcpy(lent->bytes, content, length);
    return lent->bytes;
}

void lent_protect(struct lent *lent)
{
    if (lent->pages != NULL)
        protect(lent->start, lent->size, PROT_READ);
}

static int same(const void *a, const void *b, size_t length)
{
    return memcmp(a, b, length) == 0;
}

/* What differs, before the bytes are given away. */
static const char *difference(const struct lent *lent, size_t place, const void *expected,
                              size_t written)
{
    const uint8_t *as_lent = expected_pattern(lent);
    size_t before, after, end = place + written;

    if (lent->length == 0)
        return NULL;
    before = (size_t)(lent->bytes - lent->start);
    after = before + lent->length;
    if (!same(lent->bytes + place, expected, written))
        return "bytes that are written";
    if (!same(lent->bytes, as_lent + before, place) ||
        !same(lent->bytes + end, as_lent + before + end, lent->length - end))
        return "bytes that are not written";
    if (!same(lent->start, as_lent, before))
        return "bytes before it";
    if (!same(lent->start + after, as_lent + after, lent->size - after))
        return "bytes after it";
    return NULL;
}

const char *take_back(struct lent *lent, const void *expected, size_t written)
{
    return take_back_from(lent, 0, expected, written);
}

const char *take_back_from(struct lent *lent, size_t place, const void *expected, size_t written)
{
    const char *found = difference(lent, written == 0 ? 0 : place, expected, written);

    if (lent->pages == NULL)
        free(lent->start);
    else
        protect(lent->start, lent->size, PROT_NONE);
    return found;
}
