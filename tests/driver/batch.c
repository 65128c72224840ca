/* batch FILE: lists every case and its routes, assembles every record and writes every path.
 * batch --wire FILE: reads paths from the wire. Both texts are described in oracle/README.md. */
#include <inttypes.h>
#include <stdio.h>
#include <string.h>

#include "combinator.h"
#include "common.h"
#include "model.h"

/* Bytes that the text shows of a fingerprint, as the oracle's does. */
#define FINGERPRINT_SHOWN 4

static uint8_t list[COMBINATOR_LIST_SIZE], routes[COMBINATOR_LIST_SIZE];
static uint8_t path[COMBINATOR_PATH_SIZE], read_back[COMBINATOR_PATH_SIZE];
static uint8_t wire[COMBINATOR_WIRE_SIZE], again[COMBINATOR_WIRE_SIZE];

static void print_hex(const uint8_t *p, size_t n)
{
    static const char digits[] = "0123456789abcdef";
    size_t i;
    for (i = 0; i < n; i++) {
        putchar(digits[p[i] >> 4]);
        putchar(digits[p[i] & 15]);
    }
}

static void print_infos_and_hops(const uint8_t *record)
{
    const uint8_t *info = path_infos(record), *hop = path_hops(record);
    for (; info < path_hops(record); info += COMBINATOR_INFO_SIZE)
        printf(" %u %04x %" PRIu32 " %u", info[COMBINATOR_INFO_FLAGS], number16(info + COMBINATOR_INFO_ID), number32(info + COMBINATOR_INFO_TIMESTAMP),
               info[COMBINATOR_INFO_HOP_COUNT]);
    for (; hop < path_ases(record); hop += COMBINATOR_HOP_SIZE) {
        printf(" %u %u %u ", hop[COMBINATOR_HOP_UNITS], number16(hop + COMBINATOR_HOP_INGRESS), number16(hop + COMBINATOR_HOP_EGRESS));
        print_hex(hop + COMBINATOR_HOP_MAC, COMBINATOR_MAC_SIZE);
    }
}

static void print_path(void)
{
    const uint8_t *as = path_ases(path), *id = path_ids(path);
    printf(" %u %" PRIu32, number16(path + COMBINATOR_PATH_MTU), number32(path + COMBINATOR_PATH_EXPIRY));
    print_infos_and_hops(path);
    for (; as < path_ids(path); as += COMBINATOR_AS_SIZE, id += COMBINATOR_INTERFACE_ID_SIZE)
        printf(" %016" PRIx64 " %u", number64(as), number16(id));
}

static void check_zeros(const uint8_t *out, size_t from, size_t to, const char *where, size_t at)
{
    for (; from < to; from++)
        if (out[from])
            fail("case %zu: bytes %s", at, where);
}

/* What the text does not show of a path: the zero byte, the ends' ASes, the zeros after it, the router's ids. */
static void check_path(const struct input *c, const uint8_t *record, size_t at)
{
    const char *fault = router_fault(c, record, path);
    if (fault)
        fail("case %zu: the router does not agree: %s", at, fault);
    if (path[COMBINATOR_PATH_ZERO] || path_length(path) > sizeof path || path[COMBINATOR_PATH_INTERFACE_COUNT] == 0)
        fail("case %zu: a path's counts", at);
    if (memcmp(path + COMBINATOR_PATH_FIRST_AS, path_ases(path), COMBINATOR_AS_SIZE) ||
        memcmp(path + COMBINATOR_PATH_LAST_AS, path_ids(path) - COMBINATOR_AS_SIZE, COMBINATOR_AS_SIZE))
        fail("case %zu: first or last interface's AS", at);
    check_zeros(path, path_length(path), sizeof path, "after the path", at);
}

/* What the text does not show of a path that was read from these bytes: there is nothing in it but counts, infos and hops, and the writer gives
 * the bytes again. */
static void check_read(const uint8_t *bytes, size_t len, uint32_t answer, size_t at)
{
    size_t end = (size_t)(path_ases(read_back) - read_back);
    if (answer != end || end > sizeof read_back)
        fail("case %zu: the counts of a path that was read", at);
    check_zeros(read_back, COMBINATOR_PATH_INTERFACE_COUNT, COMBINATOR_PATH_HEAD_SIZE, "in the head of a path that was read", at);
    check_zeros(read_back, end, sizeof read_back, "after a path that was read", at);
    memset(again, 0xa5, sizeof again);
    if (len > sizeof again || combinator_write(read_back, answer, again, sizeof again) != len || memcmp(again, bytes, len))
        fail("case %zu: a path that was read is written otherwise", at);
}

/* The path as written, and read again: equal in counts, infos and hops. */
static void print_wire(size_t at)
{
    size_t end = (size_t)(path_ases(path) - path);
    uint32_t bytes, answer;
    memset(wire, 0xa5, sizeof wire);
    bytes = combinator_write(path, path_length(path), wire, sizeof wire);
    printf(" wire ");
    if (COMBINATOR_IS_REFUSAL(bytes)) {
        printf("refused %" PRIu32, COMBINATOR_REFUSAL(bytes));
        return;
    }
    if (bytes > sizeof wire)
        fail("case %zu: more bytes written than lent", at);
    print_hex(wire, bytes);
    check_zeros(wire, bytes, sizeof wire, "after a path as written", at);
    memset(read_back, 0xa5, sizeof read_back);
    answer = combinator_read(wire, bytes, read_back, sizeof read_back);
    if (COMBINATOR_IS_REFUSAL(answer)) {
        printf(" read refused %" PRIu32, COMBINATOR_REFUSAL(answer));
        return;
    }
    check_read(wire, bytes, answer, at);
    if (memcmp(read_back, path, COMBINATOR_PATH_INTERFACE_COUNT) ||
        memcmp(path_infos(read_back), path_infos(path), end - COMBINATOR_PATH_HEAD_SIZE))
        fail("case %zu: another path is read than was written", at);
}

/* A path from the wire, whose bytes stand in the place of a book. */
static void print_read(const uint8_t *bytes, size_t len, size_t at)
{
    uint32_t answer;
    memset(read_back, 0xa5, sizeof read_back);
    answer = combinator_read(bytes, len, read_back, sizeof read_back);
    if (COMBINATOR_IS_REFUSAL(answer)) {
        printf("refused %" PRIu32 "\n", COMBINATOR_REFUSAL(answer));
        check_zeros(read_back, 0, sizeof read_back, "of a path that is refused", at);
        return;
    }
    check_read(bytes, len, answer, at);
    printf("path");
    print_infos_and_hops(read_back);
    putchar('\n');
}

static void print_solution(const struct input *c, const uint8_t *record, size_t at)
{
    unsigned i, count, edges = record[COMBINATOR_RECORD_EDGE_COUNT];
    const struct segment *segment = model_segments(c->book, c->book_len, &count);
    uint32_t answer;

    if (edges < 1 || edges > COMBINATOR_MAX_EDGES || record[COMBINATOR_RECORD_ZERO])
        fail("case %zu: a record of no solution", at);
    printf("%u %u", number16(record + COMBINATOR_RECORD_COST), edges);
    for (i = 0; i < COMBINATOR_MAX_EDGES; i++) {
        const uint8_t *edge = record + edge_place(i);
        if (i >= edges) {
            if (number(edge, COMBINATOR_EDGE_SIZE))
                fail("case %zu: an unused edge is not zero", at);
            continue;
        }
        if (edge[COMBINATOR_EDGE_POSITION] >= count)
            fail("case %zu: a position outside of the book", at);
        printf(" %u %u ", edge[COMBINATOR_EDGE_POSITION], edge[COMBINATOR_EDGE_SHORTCUT]);
        if (edge[COMBINATOR_EDGE_PEER])
            printf("%u", edge[COMBINATOR_EDGE_PEER] - 1u);
        else
            putchar('-');
        printf(" %u ", edge[COMBINATOR_EDGE_DIRECTION]);
        print_hex(segment[edge[COMBINATOR_EDGE_POSITION]].fingerprint, FINGERPRINT_SHOWN);
    }
    memset(path, 0xa5, sizeof path);
    answer = combinator_assemble(c->src, c->dst, c->book, c->book_len, record, COMBINATOR_RECORD_SIZE, path, sizeof path);
    if (answer == COMBINATOR_PATH) {
        check_path(c, record, at);
        print_path();
        print_wire(at);
    } else if (answer == COMBINATOR_LOOP) {
        printf(" loop");
    } else if (answer == COMBINATOR_BARE) {
        printf(" bare");
    } else {
        printf(" answer %" PRIu32, answer);
    }
    putchar('\n');
}

/* Each route by its number in the list. */
static void print_routes(const struct input *c, size_t count, size_t at)
{
    uint32_t answer = COMBINATOR_CUT, i;
    size_t k;
    if (c->book) {
        memset(routes, 0xa5, sizeof routes);
        answer = combinator_routes(c->src, c->dst, c->book, c->book_len, routes, sizeof routes);
    }
    printf("routes");
    if (COMBINATOR_IS_REFUSAL(answer)) {
        printf(" refused %" PRIu32, COMBINATOR_REFUSAL(answer));
        answer = 0;
    }
    for (i = 0; i < answer; i++) {
        for (k = 0; k < count && memcmp(list + COMBINATOR_RECORD_SIZE * k, routes + COMBINATOR_RECORD_SIZE * i, COMBINATOR_RECORD_SIZE); k++)
            ;
        if (k == count)
            fail("case %zu: a route that is not in the list", at);
        printf(" %zu", k + 1);
    }
    if (c->book)
        check_zeros(routes, COMBINATOR_RECORD_SIZE * answer, sizeof routes, "after the routes", at);
    putchar('\n');
}

static void print_case(const struct input *c, size_t at)
{
    const uint8_t *records = list;
    uint32_t answer = COMBINATOR_CUT; /* of an input that ends before the book */
    size_t count, i;
    if (c->book) {
        memset(list, 0xa5, sizeof list);
        answer = combinator_list(c->src, c->dst, c->book, c->book_len, list, sizeof list);
    }
    count = answer;
    if (answer == COMBINATOR_FULL) {
        records = model_records(c->src, c->dst, c->book, c->book_len, &count);
        puts("full");
    } else if (COMBINATOR_IS_REFUSAL(answer)) {
        printf("refused %" PRIu32 "\n", COMBINATOR_REFUSAL(answer));
        count = 0;
    }
    for (i = 0; i < count; i++)
        print_solution(c, records + COMBINATOR_RECORD_SIZE * i, at);
    print_routes(c, records == list ? count : 0, at);
    puts("---");
}

int batch_mode(int args, char **arg)
{
    uint8_t *batch;
    size_t len, at = 0, n;
    struct input c;
    int from_wire = args == 2 && !strcmp(arg[0], "--wire");
    if (args != 1 + from_wire)
        usage("driver batch [--wire] FILE");
    batch = read_file(arg[from_wire], &len);
    for (n = 0; next_case(batch, len, &at, &c); n++)
        if (!from_wire)
            print_case(&c, n);
        else if (c.book)
            print_read(c.book, c.book_len, n);
    if (fflush(stdout))
        fail("standard output");
    return 0;
}
