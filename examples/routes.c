/* routes.c - a C host that uses each route once. Its book has a segment, the reissue of it, which
 * lives an hour longer, and a longer way. It prints the solutions and then the routes, each with
 * the segment that it uses and its expiry.
 *
 *     cc -Iinclude examples/routes.c build/libcombinator.a -o routes && ./routes
 */
#include <inttypes.h>
#include <stdio.h>

#include "combinator_helpers.h"

#define SOURCE UINT64_C(0x0001ff0000000111)
#define DESTINATION UINT64_C(0x0001ff0000000110)
#define BETWEEN UINT64_C(0x0001ff0000000112)
#define ISSUED 1000000
#define REISSUED (ISSUED + 3600)

/* Entries: AS, its MTU, the MTU of the link at the ingress; units, ingress, egress, MAC. */
static const struct combinator_entry first = {DESTINATION, 1500, 0, {63, 0, 5, {1, 2, 3, 4, 5, 6}}};
static const struct combinator_entry leaf = {SOURCE, 1400, 1350, {63, 7, 0, {7, 8, 9, 10, 11, 12}}};
static const struct combinator_entry around[] = {
    {DESTINATION, 1500, 0, {63, 0, 6, {1, 1, 1, 1, 1, 1}}},
    {BETWEEN, 1500, 1500, {63, 2, 1, {2, 2, 2, 2, 2, 2}}},
    {SOURCE, 1400, 1500, {63, 8, 0, {3, 3, 3, 3, 3, 3}}}};

static uint8_t book[COMBINATOR_MAX_BOOK];
static size_t book_len;
static uint8_t list[COMBINATOR_LIST_SIZE];
static uint8_t path[COMBINATOR_PATH_SIZE];

/* 0, or a refusal. */
static uint32_t write_book(void)
{
    struct combinator_writer w;
    uint32_t answer = combinator_write_book(&w, book, sizeof book);
    unsigned i;
    for (i = 0; i < 2 && !answer; i++) {
        answer = combinator_write_non_core(&w, i ? REISSUED : ISSUED, (uint16_t)(1 + i));
        if (!answer)
            answer = combinator_write_entry(&w, &first);
        if (!answer)
            answer = combinator_write_entry(&w, &leaf);
    }
    if (!answer)
        answer = combinator_write_non_core(&w, ISSUED, 3);
    for (i = 0; i < sizeof around / sizeof *around && !answer; i++)
        answer = combinator_write_entry(&w, &around[i]);
    book_len = w.length;
    return answer;
}

/* The records of a list. A record of a route always has a path. */
static void print_list(const char *name, uint32_t count)
{
    uint32_t i;
    printf("%s %" PRIu32 "\n", name, count);
    for (i = 0; i < count; i++) {
        const uint8_t *record = list + COMBINATOR_RECORD_SIZE * i;
        if (combinator_assemble(SOURCE, DESTINATION, book, book_len, record, COMBINATOR_RECORD_SIZE,
                                path, sizeof path) == COMBINATOR_PATH)
            printf("segment %u expiry %" PRIu64 "\n",
                   (unsigned)record[COMBINATOR_RECORD_HEAD_SIZE + COMBINATOR_EDGE_POSITION],
                   combinator_number(path + COMBINATOR_PATH_EXPIRY, 4));
    }
}

int main(void)
{
    uint32_t answer = write_book();
    if (!answer)
        answer = combinator_list(SOURCE, DESTINATION, book, book_len, list, sizeof list);
    if (!COMBINATOR_IS_REFUSAL(answer)) {
        print_list("solutions", answer);
        answer = combinator_routes(SOURCE, DESTINATION, book, book_len, list, sizeof list);
    }
    if (COMBINATOR_IS_REFUSAL(answer)) {
        printf("refused %" PRIu32 " %s\n", COMBINATOR_REFUSAL(answer), combinator_word(answer));
        return 1;
    }
    print_list("routes", answer);
    return 0;
}
