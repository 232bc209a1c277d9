/* What the C tests share: records on standard input, heap copies of exact length, and copies
 * next to guard pages. */

#ifndef SUPPORT_H
#define SUPPORT_H

#include <stdint.h>
#include <stdio.h>
#include <stdlib.h>
#include <string.h>
#include <sys/mman.h>
#include <unistd.h>

static inline void fail(const char *what)
{
    fprintf(stderr, "failed: %s\n", what);
    exit(1);
}

/* A heap copy of exactly `length` bytes, so that valgrind sees any access outside. Of the
 * empty copy the pointer is the end of a block of one byte, and so not NULL. */
struct heap_copy {
    uint8_t *block;
    uint8_t *bytes;
};

static inline struct heap_copy heap_copy_new(size_t length)
{
    struct heap_copy copy;
    size_t unused = length == 0 ? 1 : 0;

    copy.block = malloc(length + unused);
    if (copy.block == NULL)
        fail("malloc");
    copy.bytes = copy.block + unused;
    return copy;
}

/* Reads one record, 4 bytes of length (high byte first) and then the bytes. Answers 0 at the
 * end of the input. The caller frees copy->block. */
static inline int read_record(FILE *input, struct heap_copy *copy, size_t *length)
{
    uint8_t head[4];
    size_t got = fread(head, 1, sizeof head, input);

    if (got == 0)
        return 0;
    if (got != sizeof head)
        fail("a record's length is cut short");
    *length = (size_t)head[0] << 24 | (size_t)head[1] << 16 | (size_t)head[2] << 8 | head[3];
    *copy = heap_copy_new(*length);
    if (fread(copy->bytes, 1, *length, input) != *length)
        fail("a record is cut short");
    return 1;
}

/* Read-only pages between two guard pages, which allow no access. The static library is not
 * built with a sanitizer; the guard pages catch its accesses outside of the bytes in any run,
 * and a write to the bytes too. */
struct guarded {
    uint8_t *pages;
    size_t page;
    size_t room;
};

static inline struct guarded guarded_new(size_t most)
{
    struct guarded g;

    g.page = (size_t)sysconf(_SC_PAGESIZE);
    g.room = (most / g.page + 1) * g.page;
    g.pages = mmap(NULL, g.room + 2 * g.page, PROT_NONE, MAP_PRIVATE | MAP_ANONYMOUS, -1, 0);
    if (g.pages == MAP_FAILED)
        fail("mmap");
    return g;
}

static inline const uint8_t *guarded_put(struct guarded *g, size_t offset, const uint8_t *bytes,
                                         size_t length)
{
    uint8_t *room = g->pages + g->page;

    if (mprotect(room, g->room, PROT_READ | PROT_WRITE) != 0)
        fail("mprotect");
    memcpy(room + offset, bytes, length);
    if (mprotect(room, g->room, PROT_READ) != 0)
        fail("mprotect");
    return room + offset;
}

/* A copy whose last byte is the last that can be read. */
static inline const uint8_t *guarded_at_end(struct guarded *g, const uint8_t *bytes, size_t length)
{
    if (length > g->room)
        fail("a record is longer than the guarded room");
    return guarded_put(g, g->room - length, bytes, length);
}

/* A copy whose first byte is the first that can be read. */
static inline const uint8_t *guarded_at_start(struct guarded *g, const uint8_t *bytes,
                                              size_t length)
{
    if (length > g->room)
        fail("a record is longer than the guarded room");
    return guarded_put(g, 0, bytes, length);
}

#endif
