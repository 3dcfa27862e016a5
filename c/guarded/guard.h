/* Memory between two pages that cannot be touched, so that a read or a write one byte past what is lent there faults. It is
 * mapped twice: what is lent to be read cannot be written. */
#ifndef GUARD_H
#define GUARD_H

#include <stdbool.h>
#include <stdint.h>
#include <stdio.h>
#include <stdlib.h>
#include <string.h>
#include <sys/mman.h>
#include <unistd.h>

#define PAGE 4096

/* What is lent of it stands at a place and has a length; bytes beside that are watched too, so many on either side. */
struct arena {
    size_t size, watched, at, length;
    uint8_t *write;
    const uint8_t *read;
    uint8_t *before;
};

static inline void *needed(void *memory)
{
    if (memory == MAP_FAILED || memory == NULL) {
        perror("no memory");
        exit(2);
    }
    return memory;
}

/* So many bytes of a file, which end at a page's end, between two pages that cannot be touched. */
static inline uint8_t *guarded(int file, size_t size, int rights)
{
    size_t whole = (size + PAGE - 1) / PAGE * PAGE;
    int flags = file < 0 ? MAP_PRIVATE | MAP_ANONYMOUS | MAP_NORESERVE : MAP_SHARED;
    uint8_t *start =
        (uint8_t *)needed(mmap(NULL, whole + 2 * PAGE, PROT_NONE, MAP_PRIVATE | MAP_ANONYMOUS | MAP_NORESERVE, -1, 0));
    needed(mmap(start + PAGE, whole, rights, flags | MAP_FIXED, file, 0));
    return start + PAGE + whole - size;
}

static inline struct arena arena(size_t pages, size_t watched)
{
    struct arena a = {pages * PAGE, watched, 0, 0, NULL, NULL, NULL};
    int file = memfd_create("lent", 0);
    if (file < 0 || ftruncate(file, (off_t)a.size) != 0) {
        perror("no memory");
        exit(2);
    }
    a.write = guarded(file, a.size, PROT_READ | PROT_WRITE);
    a.read = guarded(file, a.size, PROT_READ);
    a.before = (uint8_t *)needed(malloc(a.size));
    close(file);
    return a;
}

/* Lends so many bytes at the arena's beginning or end. */
static inline void lend(struct arena *a, size_t length, bool at_end)
{
    a->length = length;
    a->at = at_end ? a->size - length : 0;
}

/* Moves what is lent away from its guard by some bytes, where there is room, so that its words are not aligned. */
static inline void shift(struct arena *a, size_t by)
{
    if (a->size - a->length >= by)
        a->at = a->at == 0 ? by : a->at - by;
}

/* Where the watched bytes start and end. */
static inline size_t watch_start(const struct arena *a)
{
    return a->at > a->watched ? a->at - a->watched : 0;
}

static inline size_t watch_end(const struct arena *a)
{
    size_t end = a->at + a->length;
    return a->size - end > a->watched ? end + a->watched : a->size;
}

static inline void keep(struct arena *a)
{
    size_t start = watch_start(a);
    memcpy(a->before + start, a->write + start, watch_end(a) - start);
}

static inline bool same(const struct arena *a, size_t start, size_t end)
{
    return start == end || memcmp(a->before + start, a->write + start, end - start) == 0;
}

/* Whether the bytes beside the lent ones are as they were kept. */
static inline bool outside_kept(const struct arena *a)
{
    return same(a, watch_start(a), a->at) && same(a, a->at + a->length, watch_end(a));
}

static inline bool lent_kept(const struct arena *a)
{
    return same(a, a->at, a->at + a->length);
}

static inline void *to_write(const struct arena *a)
{
    return a->write + a->at;
}

static inline const void *to_read(const struct arena *a)
{
    return a->read + a->at;
}

/* Sets a record's bytes where it is lent. */
static inline void lend_record(struct arena *a, const void *record, size_t length, bool at_end)
{
    lend(a, length, at_end);
    memcpy(to_write(a), record, length);
}

#endif
