/*
 * Memory lent to a call, with nothing of the host's beside it.
 *
 * On pages, the bytes end where an inaccessible page starts one time, and start
 * where one ends the next. The rest of their own pages holds a pattern,
 * which is compared afterwards. On the heap, they are a block of exactly their
 * length, for a tool that knows the blocks' limits.
 */
#ifndef LENT_H
#define LENT_H

#include <stddef.h>
#include <stdint.h>

/* The most bytes that are lent at once, whole pages: a part file too long by
 * 12 KiB. */
#define LENT_MOST 77824

struct lent {
    uint8_t *pages;   /* the mapping, an inaccessible page first and last; null on the heap */
    uint8_t *start;   /* the accessible bytes */
    size_t size;      /* how many they are */
    uint8_t *bytes;   /* the bytes lent, some of them */
    size_t length;    /* how many they are */
    unsigned turn;    /* counts the loans: the side and the pattern go by it */
};

/* Prepares for loans on pages, or on the heap. Ends the program if there is no memory. */
void lent_open(struct lent *lent, int on_pages);

/* Lends length bytes: content, or the pattern if it is null. Without bytes the
 * pointer lent is null or points to an inaccessible page. */
uint8_t *lend(struct lent *lent, const void *content, size_t length);

/* Has no byte lent be written until it is taken back. On the heap, nothing. */
void lent_protect(struct lent *lent);

/* Takes the bytes back. Answers null if the first written ones are those
 * expected and all others, around them too, are as they were lent, or what
 * differs. */
const char *take_back(struct lent *lent, const void *expected, size_t written);

/* The same, where the written bytes begin at a place of those lent; any place
 * where none is written. */
const char *take_back_from(struct lent *lent, size_t place, const void *expected, size_t written);

#endif
