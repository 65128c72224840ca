/* bench FILE OUT_LEN: a pass over a batch, with the times of each case; tests/bench runs it many times, in turn with
 * the Rust. The outputs are lent once and not cleared between calls: the library zeroes what it does not fill, and that
 * is part of its time. The book is read once before: the Rust has its segments in the cache too, having just decoded them.
 * Routes are timed in a second pass, so that no call finds what another has just read; the writer and the reader in a
 * third, beside an assembly of the same paths. */
#include <inttypes.h>
#include <stdio.h>
#include <stdlib.h>
#include <string.h>

#include "combinator.h"
#include "common.h"

static void touch(const volatile uint8_t *bytes, size_t len)
{
    size_t i;
    for (i = 0; i < len; i++)
        (void)bytes[i];
}

/* What one case took. */
struct times {
    uint32_t answer, paths, bare, routes;
    uint64_t listed, assembled, routed, again, written, read;
};

static uint8_t path[COMBINATOR_PATH_SIZE], wire[COMBINATOR_WIRE_SIZE], *list;
static size_t out_len;

/* The paths of a case one after the other, and the same as written; of each its record's number in the list, and where it ends. */
static uint8_t paths[COMBINATOR_MAX_SOLUTIONS * COMBINATOR_PATH_SIZE], wires[COMBINATOR_MAX_SOLUTIONS * COMBINATOR_WIRE_SIZE];
static struct {
    uint32_t record;
    size_t path_end, wire_end;
} kept[COMBINATOR_MAX_SOLUTIONS];

static uint32_t assemble(const struct input *c, uint32_t record)
{
    return combinator_assemble(c->src, c->dst, c->book, c->book_len, list + COMBINATOR_RECORD_SIZE * record, COMBINATOR_RECORD_SIZE, path, sizeof path);
}

static void list_and_assemble(const struct input *c, struct times *t)
{
    uint64_t start;
    uint32_t i;
    touch(c->book, c->book_len);
    start = now_ns();
    t->answer = combinator_list(c->src, c->dst, c->book, c->book_len, list, out_len);
    t->listed = now_ns() - start;
    for (i = 0; !COMBINATOR_IS_REFUSAL(t->answer) && i < t->answer; i++) {
        uint32_t a = assemble(c, i);
        t->paths += a == COMBINATOR_PATH;
        t->bare += a == COMBINATOR_BARE;
    }
    t->assembled = now_ns() - start;
}

static void find_routes(const struct input *c, struct times *t)
{
    uint64_t start;
    touch(c->book, c->book_len);
    start = now_ns();
    t->routes = combinator_routes(c->src, c->dst, c->book, c->book_len, list, out_len);
    t->routed = now_ns() - start;
}

/* Lists the case once more and keeps its paths: how many there are. */
static uint32_t keep_paths(const struct input *c)
{
    uint32_t answer = combinator_list(c->src, c->dst, c->book, c->book_len, list, out_len), count = 0, i;
    size_t path_end = 0, wire_end = 0;
    for (i = 0; !COMBINATOR_IS_REFUSAL(answer) && i < answer; i++) {
        uint32_t bytes;
        if (assemble(c, i) != COMBINATOR_PATH)
            continue;
        bytes = combinator_write(path, path_length(path), wire, sizeof wire);
        if (COMBINATOR_IS_REFUSAL(bytes))
            fail("a path is not written: refused %" PRIu32, COMBINATOR_REFUSAL(bytes));
        memcpy(paths + path_end, path, path_length(path));
        memcpy(wires + wire_end, wire, bytes);
        path_end += path_length(path);
        wire_end += bytes;
        kept[count].record = i;
        kept[count].path_end = path_end;
        kept[count++].wire_end = wire_end;
    }
    return count;
}

static void write_and_read(const struct input *c, struct times *t)
{
    uint32_t count = keep_paths(c), refused = 0, i;
    uint64_t start = now_ns();
    size_t at;
    for (i = 0; i < count; i++)
        refused += assemble(c, kept[i].record) != COMBINATOR_PATH;
    t->again = now_ns() - start;
    start = now_ns();
    for (i = 0, at = 0; i < count; at = kept[i++].path_end)
        refused += COMBINATOR_IS_REFUSAL(combinator_write(paths + at, kept[i].path_end - at, wire, sizeof wire));
    t->written = now_ns() - start;
    start = now_ns();
    for (i = 0, at = 0; i < count; at = kept[i++].wire_end)
        refused += COMBINATOR_IS_REFUSAL(combinator_read(wires + at, kept[i].wire_end - at, path, sizeof path));
    t->read = now_ns() - start;
    if (refused || count != t->paths)
        fail("a path is not written or not read");
}

int bench_mode(int args, char **arg)
{
    void (*const passes[])(const struct input *, struct times *) = {list_and_assemble, find_routes, write_and_read};
    uint8_t *batch;
    struct times *times = NULL;
    size_t len, at, n, room = 0, pass;
    struct input c;
    if (args != 2)
        usage("driver bench FILE OUT_LEN");
    batch = read_file(arg[0], &len);
    out_len = (size_t)strtoul(arg[1], NULL, 10);
    list = resize(NULL, out_len);
    memset(list, 1, out_len);
    memset(path, 1, sizeof path);
    memset(wire, 1, sizeof wire);
    for (n = 0, at = 0; next_case(batch, len, &at, &c); n++) {
        if (n == room)
            times = grow(times, &room, sizeof *times);
        memset(&times[n], 0, sizeof *times);
    }
    for (pass = 0; pass < sizeof passes / sizeof *passes; pass++)
        for (n = 0, at = 0; next_case(batch, len, &at, &c); n++)
            if (c.book)
                passes[pass](&c, &times[n]);
    for (n = 0, at = 0; next_case(batch, len, &at, &c); n++) {
        const struct times *t = &times[n];
        if (c.book)
            printf("case %zu answer %" PRIu32 " paths %" PRIu32 " bare %" PRIu32 " routes %" PRIu32 " a_ns %" PRIu64 " b_ns %" PRIu64 " routes_ns %" PRIu64
                   " again_ns %" PRIu64 " write_ns %" PRIu64 " read_ns %" PRIu64 "\n",
                   n, t->answer, t->paths, t->bare, t->routes, t->listed, t->assembled, t->routed, t->again, t->written, t->read);
    }
    return 0;
}
