/* scale: time against the size of a book, one size at a time, and against the hops of a path. Each line is the least of many runs. */
#include <inttypes.h>
#include <stdio.h>

#include "build.h"
#include "combinator.h"
#include "common.h"

static uint8_t book[BUILD_ROOM], list[COMBINATOR_LIST_SIZE], path[COMBINATOR_PATH_SIZE], wire[COMBINATOR_WIRE_SIZE];

static void line(const char *what, unsigned size, size_t book_len)
{
    uint64_t begun = now_ns(), listing = UINT64_MAX, assembly = UINT64_MAX, routes = UINT64_MAX, start, listed, assembled, routed;
    uint32_t answer, i;
    unsigned runs;
    if (book_len > COMBINATOR_MAX_BOOK)
        return;
    for (runs = 0; runs < 5 || (runs < 2000 && now_ns() - begun < 20000000); runs++) {
        start = now_ns();
        answer = combinator_list(AS_SOURCE, AS_DESTINATION, book, book_len, list, sizeof list);
        listed = now_ns();
        if (answer != COMBINATOR_FULL && COMBINATOR_IS_REFUSAL(answer))
            fail("%s %u: answer %" PRIu32, what, size, answer);
        for (i = 0; !COMBINATOR_IS_REFUSAL(answer) && i < answer; i++)
            if (COMBINATOR_IS_REFUSAL(combinator_assemble(AS_SOURCE, AS_DESTINATION, book, book_len, list + COMBINATOR_RECORD_SIZE * i,
                                                          COMBINATOR_RECORD_SIZE, path, sizeof path)))
                fail("%s %u: a listed record is refused", what, size);
        assembled = now_ns();
        if (COMBINATOR_IS_REFUSAL(combinator_routes(AS_SOURCE, AS_DESTINATION, book, book_len, list, sizeof list)) != COMBINATOR_IS_REFUSAL(answer))
            fail("%s %u: routes are refused, or not", what, size);
        routed = now_ns();
        if (listed - start < listing)
            listing = listed - start;
        if (assembled - listed < assembly)
            assembly = assembled - listed;
        if (routed - assembled < routes)
            routes = routed - assembled;
    }
    printf("%-10s %5u %9zu ", what, size, book_len);
    if (answer == COMBINATOR_FULL)
        printf("%9s %12.2f %12s %12.2f\n", "full", (double)listing / 1000, "-", (double)routes / 1000);
    else
        printf("%9" PRIu32 " %12.2f %12.2f %12.2f\n", answer, (double)listing / 1000, answer ? (double)assembly / 1000 / answer : 0.0,
               (double)routes / 1000);
}

/* A path of three segments of `hops` hops each and every interface that they have. */
static void wire_line(unsigned hops)
{
    uint64_t begun = now_ns(), writing = UINT64_MAX, reading = UINT64_MAX, start, written, read;
    uint32_t path_len, wire_len;
    unsigned runs, i;
    for (runs = 0; runs < 5 || (runs < 20000 && now_ns() - begun < 20000000); runs++) {
        path[COMBINATOR_PATH_INFO_COUNT] = COMBINATOR_MAX_EDGES;
        path[COMBINATOR_PATH_HOP_COUNT] = (uint8_t)(COMBINATOR_MAX_EDGES * hops);
        path[COMBINATOR_PATH_INTERFACE_COUNT] = (uint8_t)(2 * COMBINATOR_MAX_EDGES * hops);
        for (i = 0; i < COMBINATOR_MAX_EDGES; i++)
            path[COMBINATOR_PATH_HEAD_SIZE + COMBINATOR_INFO_SIZE * i + COMBINATOR_INFO_HOP_COUNT] = (uint8_t)hops;
        start = now_ns();
        wire_len = combinator_write(path, path_length(path), wire, sizeof wire);
        written = now_ns();
        path_len = COMBINATOR_IS_REFUSAL(wire_len) ? wire_len : combinator_read(wire, wire_len, path, sizeof path);
        read = now_ns();
        if (COMBINATOR_IS_REFUSAL(path_len))
            fail("hops %u: answer %" PRIu32, hops, path_len);
        if (written - start < writing)
            writing = written - start;
        if (read - written < reading)
            reading = read - written;
    }
    printf("%-10s %5u %9" PRIu32 " %9" PRIu32 " %12.3f %12.3f\n", "hops", COMBINATOR_MAX_EDGES * hops, path_len, wire_len, (double)writing / 1000,
           (double)reading / 1000);
}

int scale_mode(int args, char **arg)
{
    unsigned n, e, ups, cores, downs;
    (void)arg;
    if (args)
        usage("driver scale");
    printf("Listing and routes into %d bytes, not cleared before; assembly of every solution into %d, the time of one.\n", COMBINATOR_LIST_SIZE,
           COMBINATOR_PATH_SIZE);
    printf("%-10s %5s %9s %9s %12s %12s %12s\n", "growing", "size", "bytes", "solutions", "listing us", "assembly us", "routes us");
    /* Two of the segments make one chain, the others lead elsewhere. */
    for (n = 1; n <= COMBINATOR_MAX_SEGMENTS; n = n < 4 ? n + 1 : n < 16 ? n + 4 : n + 16)
        line("segments", n, build_few(book, n, 4, 0));
    for (n = 1; n <= COMBINATOR_MAX_ENTRIES; n++)
        line("entries", n, build_few(book, 8, n, 0));
    for (n = 0; n <= COMBINATOR_MAX_PEERS; n++)
        line("peers", n, build_few(book, 8, 8, n));
    /* ups × cores × downs chains, fingerprints all different, then all equal. */
    line("chains", 0, build_chains(book, 1, 0, 1, 0));
    for (n = 1, e = 0; n <= COMBINATOR_MAX_SOLUTIONS; n *= 2, e++) {
        ups = 1u << (e + 2) / 3, cores = 1u << (e + 1) / 3, downs = 1u << e / 3;
        line("chains", n, build_chains(book, ups, cores, downs, 0));
    }
    for (n = 1, e = 0; n <= COMBINATOR_MAX_SOLUTIONS; n *= 2, e++) {
        ups = 1u << (e + 2) / 3, cores = 1u << (e + 1) / 3, downs = 1u << e / 3;
        line("ties", n, build_chains(book, ups, cores, downs, 1));
    }
    line("above", COMBINATOR_MAX_SOLUTIONS, build_slots(book, 1, 1));
    /* Every AS and every link shared. */
    for (n = 1; n <= FULL_HALF; n++)
        line("shared", n, build_worst(book, n, COMBINATOR_MAX_ENTRIES, COMBINATOR_MAX_PEERS));
    for (n = 1; n <= FULL_HALF; n++)
        line("links", n, build_links(book, n));
    for (n = 1; n <= COMBINATOR_MAX_SEGMENTS; n *= 2)
        line("alike", n, build_alike(book, n));
    for (n = 1; n <= COMBINATOR_MAX_SEGMENTS; n *= 2)
        line("endings", n, build_one_ending(book, n, 0));
    /* The longest lists of interfaces: all different, all the same, and as near to each other as can be made. */
    for (n = 0; n <= 2; n += 2) {
        line("routes", n, build_long(book, n, 0));
        line("copies", n, build_long(book, n, 1));
    }
    line("colliding", COLLIDING, build_colliding(book, FEW_IDS));
    line("colliding", COLLIDING, build_colliding(book, FEW_ASES));
    line("colliding", COMBINATOR_MAX_SOLUTIONS, build_colliding(book, MANY_IDS));
    printf("Writing of a path into %d bytes, reading of it into %d.\n", COMBINATOR_WIRE_SIZE, COMBINATOR_PATH_SIZE);
    printf("%-10s %5s %9s %9s %12s %12s\n", "growing", "size", "path", "wire", "writing us", "reading us");
    for (n = 1; n <= COMBINATOR_MAX_ENTRIES; n++)
        wire_line(n);
    return 0;
}
