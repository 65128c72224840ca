#include "common.h"

#include <stdarg.h>
#include <stdio.h>
#include <stdlib.h>
#include <string.h>
#include <time.h>

#include "model.h"

uint64_t number(const uint8_t *at, int size)
{
    uint64_t n = 0;
    int i;
    for (i = 0; i < size; i++)
        n = n << 8 | at[i];
    return n;
}

void put(uint8_t *at, int size, uint64_t n)
{
    int i;
    for (i = size; i-- > 0; n >>= 8)
        at[i] = (uint8_t)n;
}

unsigned number16(const uint8_t *at)
{
    return (unsigned)number(at, 2);
}

uint32_t number32(const uint8_t *at)
{
    return (uint32_t)number(at, 4);
}

uint64_t number64(const uint8_t *at)
{
    return number(at, 8);
}

void put16(uint8_t *at, unsigned n)
{
    put(at, 2, n);
}

void put32(uint8_t *at, uint32_t n)
{
    put(at, 4, n);
}

void put64(uint8_t *at, uint64_t n)
{
    put(at, 8, n);
}

void fail(const char *format, ...)
{
    va_list list;
    fflush(stdout);
    va_start(list, format);
    vfprintf(stderr, format, list);
    va_end(list);
    fputc('\n', stderr);
    exit(1);
}

void usage(const char *format, ...)
{
    va_list list;
    va_start(list, format);
    vfprintf(stderr, format, list);
    va_end(list);
    fputc('\n', stderr);
    exit(2);
}

void *resize(void *old, size_t bytes)
{
    void *p = realloc(old, bytes ? bytes : 1);
    if (!p)
        fail("out of memory");
    return p;
}

void *grow(void *old, size_t *room, size_t size)
{
    *room = *room ? 2 * *room : 256;
    return resize(old, *room * size);
}

uint8_t *read_file(const char *name, size_t *len)
{
    FILE *f = strcmp(name, "-") ? fopen(name, "rb") : stdin;
    uint8_t *data = NULL;
    size_t room = 0, got;
    if (!f)
        fail("%s: cannot be read", name);
    *len = 0;
    do {
        if (*len == room)
            data = grow(data, &room, 1);
        got = fread(data + *len, 1, room - *len, f);
        *len += got;
    } while (got);
    if (ferror(f))
        fail("%s: cannot be read", name);
    if (f != stdin)
        fclose(f);
    return data;
}

struct input input_at(const uint8_t *at, size_t size)
{
    struct input c = {0, 0, NULL, 0};
    if (size >= ENDS_SIZE) {
        c.src = number64(at);
        c.dst = number64(at + COMBINATOR_AS_SIZE);
        c.book = at + ENDS_SIZE;
        c.book_len = size - ENDS_SIZE;
    }
    return c;
}

int next_case(const uint8_t *batch, size_t len, size_t *at, struct input *c)
{
    size_t size;
    if (*at == len)
        return 0;
    if (len - *at < FRONT_SIZE || len - *at - FRONT_SIZE < (size = (size_t)number(batch + *at, FRONT_SIZE)))
        fail("the batch ends within a case");
    *c = input_at(batch + *at + FRONT_SIZE, size);
    *at += FRONT_SIZE + size;
    return 1;
}

static uint64_t clock_ns(clockid_t clock)
{
    struct timespec t;
    clock_gettime(clock, &t);
    return (uint64_t)t.tv_sec * 1000000000u + (uint64_t)t.tv_nsec;
}

uint64_t now_ns(void)
{
    return clock_ns(CLOCK_MONOTONIC);
}

uint64_t work_ns(void)
{
    return clock_ns(CLOCK_THREAD_CPUTIME_ID);
}

size_t head_place(unsigned position)
{
    return COMBINATOR_COUNTS_SIZE + COMBINATOR_HEAD_SIZE * (size_t)position;
}

size_t edge_place(unsigned index)
{
    return COMBINATOR_RECORD_HEAD_SIZE + COMBINATOR_EDGE_SIZE * (size_t)index;
}

const uint8_t *path_infos(const uint8_t *path)
{
    return path + COMBINATOR_PATH_HEAD_SIZE;
}

const uint8_t *path_hops(const uint8_t *path)
{
    return path_infos(path) + COMBINATOR_INFO_SIZE * path[COMBINATOR_PATH_INFO_COUNT];
}

const uint8_t *path_ases(const uint8_t *path)
{
    return path_hops(path) + COMBINATOR_HOP_SIZE * path[COMBINATOR_PATH_HOP_COUNT];
}

const uint8_t *path_ids(const uint8_t *path)
{
    return path_ases(path) + COMBINATOR_AS_SIZE * path[COMBINATOR_PATH_INTERFACE_COUNT];
}

size_t path_length(const uint8_t *path)
{
    return (size_t)(path_ids(path) - path) + COMBINATOR_INTERFACE_ID_SIZE * path[COMBINATOR_PATH_INTERFACE_COUNT];
}

static int same_hop(const uint8_t *hop, const struct hop *h)
{
    return hop[COMBINATOR_HOP_UNITS] == h->units && number16(hop + COMBINATOR_HOP_INGRESS) == h->ingress &&
           number16(hop + COMBINATOR_HOP_EGRESS) == h->egress && !memcmp(hop + COMBINATOR_HOP_MAC, h->mac, COMBINATOR_MAC_SIZE);
}

const char *router_fault(const struct input *c, const uint8_t *record, const uint8_t *path)
{
    unsigned count, infos = path[COMBINATOR_PATH_INFO_COUNT], hops = path[COMBINATOR_PATH_HOP_COUNT], at = 0, i, j, k;
    const struct segment *segments = model_segments(c->book, c->book_len, &count);
    const uint8_t *info = path_infos(path), *hop = path_hops(path);

    if (infos != record[COMBINATOR_RECORD_EDGE_COUNT])
        return "not one info for each edge";
    for (i = 0; i < infos; i++, info += COMBINATOR_INFO_SIZE) {
        const uint8_t *edge = record + edge_place(i);
        unsigned position = edge[COMBINATOR_EDGE_POSITION], shortcut = edge[COMBINATOR_EDGE_SHORTCUT], through = edge[COMBINATOR_EDGE_PEER];
        unsigned direction = edge[COMBINATOR_EDGE_DIRECTION];
        unsigned flags = info[COMBINATOR_INFO_FLAGS], used = info[COMBINATOR_INFO_HOP_COUNT], id = number16(info + COMBINATOR_INFO_ID);
        const struct segment *s = segments + (position < count ? position : 0);
        unsigned n = s->entries;
        int construction = direction == COMBINATOR_CONSTRUCTION;

        if (position >= count || shortcut >= n || through > s->entry[shortcut].peers)
            return "an edge outside of the book";
        if (direction > COMBINATOR_CONSTRUCTION || flags != direction + (through ? COMBINATOR_PEERING : 0))
            return "flags";
        if (used != n - shortcut || at + used > hops)
            return "count of hops";
        if (number32(info + COMBINATOR_INFO_TIMESTAMP) != s->timestamp)
            return "timestamp";
        for (j = 0; j < used; j++, at++, hop += COMBINATOR_HOP_SIZE) {
            unsigned m = construction ? shortcut + j : n - 1 - j, want = s->id;
            int peer = through && j == (construction ? 0 : used - 1);

            if (!same_hop(hop, peer ? &s->entry[m].peer[through - 1].hop : &s->entry[m].hop))
                return "a hop that is not its entry's";
            if (!construction && !peer && j > 0)
                id ^= number16(hop + COMBINATOR_HOP_MAC);
            for (k = 0; k < m + (unsigned)peer; k++)
                want ^= number16(s->entry[k].hop.mac);
            if (id != want)
                return "the id held at a hop";
            if (construction && !peer)
                id ^= number16(hop + COMBINATOR_HOP_MAC);
        }
    }
    return at == hops ? NULL : "hops past the last info's";
}
