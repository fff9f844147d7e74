/*
 * Memory to be lent to the archive's functions, so that a store or a load outside of it is seen. Before it and behind it are
 * guard bytes; at one of its edges a page begins that nobody may touch. Linux.
 */
#ifndef LENT_H
#define LENT_H

#include <stdbool.h>
#include <stdint.h>
#include <stdio.h>
#include <stdlib.h>
#include <string.h>
#include <sys/mman.h>

#define LENT_PAGE 65536 /* no page of any machine is longer, also where an emulator runs this */
#define LENT_GUARD 64
#define LENT_FILL 0xA5

/* Which edge of the bytes is the edge of the page that nobody may touch. */
enum lent_edge { LENT_FRONT, LENT_BACK };

/* A part of memory between two such pages, and the bytes in it that are lent now. */
struct lent {
    uint8_t *start;
    size_t size;
    uint8_t *bytes;
    size_t len;
};

static inline void lent_map(struct lent *m, size_t size)
{
    uint8_t *map;
    size = (size + LENT_PAGE - 1) / LENT_PAGE * LENT_PAGE;
    map = mmap(NULL, size + 2 * LENT_PAGE, PROT_NONE, MAP_PRIVATE | MAP_ANONYMOUS, -1, 0);
    if (map == MAP_FAILED || mprotect(map + LENT_PAGE, size, PROT_READ | PROT_WRITE) != 0) {
        perror("lent.h");
        exit(2);
    }
    m->start = map + LENT_PAGE;
    m->size = size;
}

/* Lends so many bytes, all of them filled. What was lent of the same memory before is no longer there. */
static inline uint8_t *lend(struct lent *m, size_t len, enum lent_edge edge)
{
    if (m->size < len + LENT_GUARD) {
        if (m->start != NULL)
            munmap(m->start - LENT_PAGE, m->size + 2 * LENT_PAGE);
        lent_map(m, 2 * len + LENT_GUARD);
    }
    m->bytes = edge == LENT_FRONT ? m->start : m->start + m->size - len;
    m->len = len;
    if (edge == LENT_FRONT)
        memset(m->start, LENT_FILL, len + LENT_GUARD);
    else
        memset(m->bytes - LENT_GUARD, LENT_FILL, len + LENT_GUARD);
    return m->bytes;
}

/* Whether bytes are as lend filled them. */
static inline bool lent_filled(const uint8_t *bytes, size_t len)
{
    return len == 0 || (bytes[0] == LENT_FILL && memcmp(bytes, bytes + 1, len - 1) == 0);
}

/* Whether the guard bytes are as they were. */
static inline bool lent_guarded(const struct lent *m)
{
    if (m->bytes == m->start)
        return lent_filled(m->bytes + m->len, LENT_GUARD);
    return lent_filled(m->bytes - LENT_GUARD, LENT_GUARD);
}

#endif
