/*
 * For the tests: buffers to lend to the calls, each in a room of memory between two pages that can't be touched, and files.
 *
 * A buffer that ends where its room ends makes the process die at the first byte that is read or written past it, which
 * sanitizers don't see in code that they didn't compile. Where no such page is next to a buffer there are canaries, bytes
 * that must stay.
 */
#ifndef LENT_H
#define LENT_H

#include <stdint.h>
#include <stdio.h>
#include <stdlib.h>
#include <string.h>
#include <sys/mman.h>
#include <unistd.h>

#define MARGIN 64    /* bytes of canaries on a side */
#define PATTERN 0xA7 /* what a lent output holds before the call */

enum place { AT_END, AT_BEGIN, BETWEEN, PLACES };

struct lent {
    uint8_t *begin, *end; /* of the room */
    uint8_t *at;
    size_t bytes;
};

struct bytes {
    uint8_t *at;
    size_t size;
};

/* A room for buffers of up to so many bytes. It is never given back: it ends with the process. */
static inline struct lent room_for(size_t bytes)
{
    size_t page = (size_t)sysconf(_SC_PAGESIZE);
    size_t inner = ((bytes + 2 * MARGIN) / page + 1) * page;
    uint8_t *all = (uint8_t *)mmap(NULL, inner + 2 * page, PROT_NONE, MAP_PRIVATE | MAP_ANONYMOUS, -1, 0);
    struct lent lent;

    if (all == MAP_FAILED || mprotect(all + page, inner, PROT_READ | PROT_WRITE) != 0) {
        perror("room_for");
        exit(2);
    }
    lent.begin = lent.at = all + page;
    lent.end = lent.begin + inner;
    lent.bytes = 0;
    return lent;
}

static inline uint8_t canary(const uint8_t *at)
{
    return (uint8_t)(0xC5 ^ (uintptr_t)at);
}

static inline uint8_t *margin_begin(const struct lent *lent)
{
    return lent->at - lent->begin < MARGIN ? lent->begin : lent->at - MARGIN;
}

static inline uint8_t *margin_end(const struct lent *lent)
{
    uint8_t *end = lent->at + lent->bytes;

    return lent->end - end < MARGIN ? lent->end : end + MARGIN;
}

/* Puts a buffer at its place in its room, with canaries around it, and fills it: with what is given, else with the pattern. */
static inline void lend(struct lent *lent, enum place place, size_t bytes, const void *content)
{
    uint8_t *at;

    lent->bytes = bytes;
    lent->at = place == AT_END ? lent->end - bytes : place == AT_BEGIN ? lent->begin : lent->begin + MARGIN;
    for (at = margin_begin(lent); at < margin_end(lent); at++)
        *at = canary(at);
    if (content == NULL)
        memset(lent->at, PATTERN, bytes);
    else if (bytes > 0)
        memcpy(lent->at, content, bytes);
}

static inline int canaries_live(const struct lent *lent)
{
    const uint8_t *at;

    for (at = margin_begin(lent); at < lent->at; at++)
        if (*at != canary(at))
            return 0;
    for (at = lent->at + lent->bytes; at < margin_end(lent); at++)
        if (*at != canary(at))
            return 0;
    return 1;
}

/* Whether the first so many bytes of a buffer are these. */
static inline int begins_with(const struct lent *lent, const void *content, size_t bytes)
{
    return bytes == 0 || memcmp(lent->at, content, bytes) == 0;
}

/* Whether the bytes of a buffer from a place on are all one value. */
static inline int all_are(const struct lent *lent, size_t from, uint8_t value)
{
    size_t i;

    for (i = from; i < lent->bytes; i++)
        if (lent->at[i] != value)
            return 0;
    return 1;
}

/* A whole file, with a zero after it. */
static inline struct bytes read_file(const char *name, const char *ending)
{
    static const size_t most = (size_t)1 << 20;
    char path[4096];
    struct bytes file = {(uint8_t *)malloc(most + 1), 0};
    FILE *from;

    snprintf(path, sizeof path, "%s%s", name, ending);
    from = fopen(path, "rb");
    if (from == NULL || file.at == NULL) {
        perror(path);
        exit(2);
    }
    file.size = fread(file.at, 1, most, from);
    if (ferror(from) || file.size == most) {
        fprintf(stderr, "%s: can't be read whole\n", path);
        exit(2);
    }
    file.at[file.size] = 0;
    fclose(from);
    return file;
}

#endif
