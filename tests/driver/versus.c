/* versus FILE OUT_LEN PASSES: times of two builds of the library over a batch, in one process and in turn, case by case, so that a clock that
 * changes is the same for both. tools/versus gives their functions the names a_... and b_.... Their answers and outputs must be equal. An OUT_LEN
 * of 0 is every slot. */
#include <inttypes.h>
#include <stdio.h>
#include <stdlib.h>
#include <string.h>

#include "combinator.h"
#include "common.h"

uint32_t a_list(uint64_t, uint64_t, const uint8_t *, size_t, uint8_t *, size_t);
uint32_t b_list(uint64_t, uint64_t, const uint8_t *, size_t, uint8_t *, size_t);
uint32_t a_routes(uint64_t, uint64_t, const uint8_t *, size_t, uint8_t *, size_t);
uint32_t b_routes(uint64_t, uint64_t, const uint8_t *, size_t, uint8_t *, size_t);
uint32_t a_assemble(uint64_t, uint64_t, const uint8_t *, size_t, const uint8_t *, size_t, uint8_t *, size_t);
uint32_t b_assemble(uint64_t, uint64_t, const uint8_t *, size_t, const uint8_t *, size_t, uint8_t *, size_t);

uint32_t a_write(const uint8_t *, size_t, uint8_t *, size_t);
uint32_t b_write(const uint8_t *, size_t, uint8_t *, size_t);
uint32_t a_read(const uint8_t *, size_t, uint8_t *, size_t);
uint32_t b_read(const uint8_t *, size_t, uint8_t *, size_t);

static uint32_t (*const list_of[2])(uint64_t, uint64_t, const uint8_t *, size_t, uint8_t *, size_t) = {a_list, b_list};
static uint32_t (*const routes_of[2])(uint64_t, uint64_t, const uint8_t *, size_t, uint8_t *, size_t) = {a_routes, b_routes};
static uint32_t (*const assemble_of[2])(uint64_t, uint64_t, const uint8_t *, size_t, const uint8_t *, size_t, uint8_t *, size_t) = {a_assemble,
                                                                                                                                   b_assemble};
static uint32_t (*const write_of[2])(const uint8_t *, size_t, uint8_t *, size_t) = {a_write, b_write};
static uint32_t (*const read_of[2])(const uint8_t *, size_t, uint8_t *, size_t) = {a_read, b_read};

/* The least times of a case: listing, its assemblies, routes, and the writing and reading of the paths. */
struct least {
    uint64_t listing[2], assembly[2], routes[2], writing[2], reading[2];
};

static void wire_must_agree(const uint8_t *path, size_t n, uint32_t i)
{
    uint8_t wire[2][COMBINATOR_WIRE_SIZE], back[2][COMBINATOR_PATH_SIZE];
    uint32_t written[2], read[2];
    int w;
    for (w = 0; w < 2; w++) {
        memset(wire[w], 1 + w, sizeof wire[w]);
        memset(back[w], 1 + w, sizeof back[w]);
        written[w] = write_of[w](path, COMBINATOR_PATH_SIZE, wire[w], sizeof wire[w]);
        if (COMBINATOR_IS_REFUSAL(written[w]))
            fail("case %zu: path %" PRIu32 " is not written\n", n, i);
        read[w] = read_of[w](wire[w], written[w], back[w], sizeof back[w]);
    }
    if (written[0] != written[1] || memcmp(wire[0], wire[1], sizeof wire[0]) || read[0] != read[1] || memcmp(back[0], back[1], sizeof back[0]))
        fail("case %zu: path %" PRIu32 " differs on the wire\n", n, i);
}

static void must_agree(const struct input *c, size_t n, uint8_t *out[2], size_t out_len)
{
    uint8_t path[2][COMBINATOR_PATH_SIZE];
    uint32_t answer[2], count, i;
    int w;
    for (w = 0; w < 2; w++) {
        memset(out[w], 1 + w, out_len);
        answer[w] = list_of[w](c->src, c->dst, c->book, c->book_len, out[w], out_len);
    }
    if (answer[0] != answer[1] || memcmp(out[0], out[1], out_len))
        fail("case %zu: the lists differ\n", n);
    count = COMBINATOR_IS_REFUSAL(answer[0]) ? 0 : answer[0];
    for (i = 0; i < count; i++) {
        for (w = 0; w < 2; w++) {
            memset(path[w], 1 + w, sizeof path[w]);
            answer[w] = assemble_of[w](c->src, c->dst, c->book, c->book_len, out[0] + COMBINATOR_RECORD_SIZE * i, COMBINATOR_RECORD_SIZE, path[w],
                                       sizeof path[w]);
        }
        if (answer[0] != answer[1] || memcmp(path[0], path[1], sizeof path[0]))
            fail("case %zu: path %" PRIu32 " differs\n", n, i);
        if (answer[0] == COMBINATOR_PATH)
            wire_must_agree(path[0], n, i);
    }
    for (w = 0; w < 2; w++) {
        memset(out[w], 1 + w, out_len);
        answer[w] = routes_of[w](c->src, c->dst, c->book, c->book_len, out[w], out_len);
    }
    if (answer[0] != answer[1] || memcmp(out[0], out[1], out_len))
        fail("case %zu: the routes differ\n", n);
}

static void keep_least(uint64_t *least, uint64_t ns)
{
    if (!*least || ns < *least)
        *least = ns;
}

#define WIRED 64 /* paths of a case that are written and read */

/* How many they are, of the records of a list. */
static unsigned run_wire(const struct input *c, int w, const uint8_t *list, uint32_t count, struct least *t)
{
    static uint8_t path[WIRED][COMBINATOR_PATH_SIZE], wire[WIRED][COMBINATOR_WIRE_SIZE], back[COMBINATOR_PATH_SIZE];
    uint32_t written[WIRED], i;
    uint64_t start, wrote, read;
    unsigned n = 0, k;
    for (i = 0; i < count && n < WIRED; i++)
        n += assemble_of[w](c->src, c->dst, c->book, c->book_len, list + COMBINATOR_RECORD_SIZE * i, COMBINATOR_RECORD_SIZE, path[n],
                            sizeof path[n]) == COMBINATOR_PATH;
    start = now_ns();
    for (k = 0; k < n; k++)
        written[k] = write_of[w](path[k], sizeof path[k], wire[k], sizeof wire[k]);
    wrote = now_ns();
    for (k = 0; k < n; k++)
        read_of[w](wire[k], written[k], back, sizeof back);
    read = now_ns();
    keep_least(&t->writing[w], wrote - start);
    keep_least(&t->reading[w], read - wrote);
    return n;
}

static uint32_t run(const struct input *c, int w, uint8_t *out, size_t out_len, struct least *t, unsigned *wired)
{
    static uint8_t path[COMBINATOR_PATH_SIZE];
    uint64_t start = now_ns(), listed, assembled, wrote, routed;
    uint32_t answer = list_of[w](c->src, c->dst, c->book, c->book_len, out, out_len);
    uint32_t count = COMBINATOR_IS_REFUSAL(answer) ? 0 : answer, i;
    listed = now_ns();
    for (i = 0; i < count; i++)
        assemble_of[w](c->src, c->dst, c->book, c->book_len, out + COMBINATOR_RECORD_SIZE * i, COMBINATOR_RECORD_SIZE, path, sizeof path);
    assembled = now_ns();
    *wired = run_wire(c, w, out, count, t);
    wrote = now_ns();
    routes_of[w](c->src, c->dst, c->book, c->book_len, out, out_len);
    routed = now_ns();
    keep_least(&t->listing[w], listed - start);
    keep_least(&t->assembly[w], assembled - listed);
    keep_least(&t->routes[w], routed - wrote);
    return count;
}

int main(int argc, char **argv)
{
    size_t len, out_len, at, n = 0, room = 0, k;
    uint64_t listing[2] = {0, 0}, assembly[2] = {0, 0}, routes[2] = {0, 0}, writing[2] = {0, 0}, reading[2] = {0, 0}, paths = 0, wired = 0;
    uint8_t *batch, *out[2];
    struct least *times = NULL;
    struct input c;
    int pass, passes, w;
    if (argc != 4)
        usage("versus FILE OUT_LEN PASSES");
    batch = read_file(argv[1], &len);
    out_len = (size_t)strtoul(argv[2], NULL, 10);
    if (!out_len)
        out_len = COMBINATOR_LIST_SIZE;
    passes = atoi(argv[3]);
    for (w = 0; w < 2; w++)
        out[w] = resize(NULL, out_len);
    for (at = 0; next_case(batch, len, &at, &c); n++) {
        if (n == room)
            times = grow(times, &room, sizeof *times);
        memset(&times[n], 0, sizeof times[n]);
        if (c.book)
            must_agree(&c, n, out, out_len);
    }
    for (pass = 0; pass < passes; pass++) {
        for (at = 0, k = 0; next_case(batch, len, &at, &c); k++) {
            if (!c.book)
                continue;
            for (w = 0; w < 2; w++) {
                unsigned written;
                uint32_t count = run(&c, (w + pass + (int)k) & 1, out[0], out_len, &times[k], &written);
                paths += pass == 0 && w == 0 ? count : 0;
                wired += pass == 0 && w == 0 ? written : 0;
            }
        }
    }
    for (k = 0; k < n; k++)
        for (w = 0; w < 2; w++) {
            listing[w] += times[k].listing[w];
            assembly[w] += times[k].assembly[w];
            routes[w] += times[k].routes[w];
            writing[w] += times[k].writing[w];
            reading[w] += times[k].reading[w];
        }
    printf("listing %.0f %.0f ns a case (%.3f), assembly %.1f %.1f ns a path (%.3f), both %.3f, routes %.0f %.0f ns a case (%.3f)",
           (double)listing[0] / n, (double)listing[1] / n, (double)listing[1] / listing[0], (double)assembly[0] / (paths ? paths : 1),
           (double)assembly[1] / (paths ? paths : 1), assembly[0] ? (double)assembly[1] / assembly[0] : 1.0,
           (double)(listing[1] + assembly[1]) / (listing[0] + assembly[0]), (double)routes[0] / n, (double)routes[1] / n,
           (double)routes[1] / routes[0]);
    printf(", writing %.1f %.1f ns a path (%.3f), reading %.1f %.1f ns a path (%.3f)\n", (double)writing[0] / (wired ? wired : 1),
           (double)writing[1] / (wired ? wired : 1), writing[0] ? (double)writing[1] / writing[0] : 1.0, (double)reading[0] / (wired ? wired : 1),
           (double)reading[1] / (wired ? wired : 1), reading[0] ? (double)reading[1] / reading[0] : 1.0);
    return 0;
}
