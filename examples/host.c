/* host.c - a C host of the combinator: writes a small book, lists its solutions, assembles the path
 * of each, and prints the list, with the bytes of each path that routers take.
 *
 *     cc -Iinclude examples/host.c build/libcombinator.a -o host && ./host
 */
#include <inttypes.h>
#include <stdio.h>

#include "combinator_helpers.h"

#define SOURCE UINT64_C(0x0001ff0000000111)
#define DESTINATION UINT64_C(0x0001ff0000000110)

/* Entries: AS, its MTU, the MTU of the link at the ingress; units, ingress, egress, MAC. */
static const struct combinator_entry first = {DESTINATION, 1500, 0, {63, 0, 5, {1, 2, 3, 4, 5, 6}}};
static const struct combinator_entry leaf = {
    SOURCE, 1400, 1350, {63, 7, 0, {0x0a, 0x0b, 0x0c, 0x0d, 0x0e, 0x0f}}};

static uint8_t book[COMBINATOR_MAX_BOOK];
static size_t book_len;
static uint8_t list[COMBINATOR_LIST_SIZE];
static uint8_t path[COMBINATOR_PATH_SIZE];
static uint8_t wire[COMBINATOR_WIRE_SIZE];

/* A book of one non-core segment; 0, or a refusal. */
static uint32_t write_book(void)
{
    struct combinator_writer w;
    uint32_t answer = combinator_write_book(&w, book, sizeof book);
    if (!answer)
        answer = combinator_write_non_core(&w, 1000000, 0x1234);
    if (!answer)
        answer = combinator_write_entry(&w, &first);
    if (!answer)
        answer = combinator_write_entry(&w, &leaf);
    book_len = w.length;
    return answer;
}

static uint32_t assemble(const uint8_t *record)
{
    return combinator_assemble(SOURCE, DESTINATION, book, book_len, record,
                               COMBINATOR_RECORD_SIZE, path, sizeof path);
}

/* The rest of a solution's line, and below it the infos and the interfaces. */
static void print_path(void)
{
    unsigned infos = path[COMBINATOR_PATH_INFO_COUNT], hops = path[COMBINATOR_PATH_HOP_COUNT];
    unsigned interfaces = path[COMBINATOR_PATH_INTERFACE_COUNT], i;
    const uint8_t *info = path + COMBINATOR_PATH_HEAD_SIZE;
    const uint8_t *as = info + COMBINATOR_INFO_SIZE * infos + COMBINATOR_HOP_SIZE * hops;
    const uint8_t *id = as + COMBINATOR_AS_SIZE * interfaces;

    printf(" mtu %" PRIu64 " expiry %" PRIu64 " hops %u\n",
           combinator_number(path + COMBINATOR_PATH_MTU, 2),
           combinator_number(path + COMBINATOR_PATH_EXPIRY, 4), hops);
    for (i = 0; i < infos; i++, info += COMBINATOR_INFO_SIZE)
        printf("info %u %04" PRIx64 " %" PRIu64 "\n", (unsigned)info[COMBINATOR_INFO_FLAGS],
               combinator_number(info + COMBINATOR_INFO_ID, 2),
               combinator_number(info + COMBINATOR_INFO_TIMESTAMP, 4));
    for (i = 0; i < interfaces; i++, as += COMBINATOR_AS_SIZE, id += COMBINATOR_INTERFACE_ID_SIZE)
        printf("if %016" PRIx64 " %" PRIu64 "\n", combinator_number(as, COMBINATOR_AS_SIZE),
               combinator_number(id, COMBINATOR_INTERFACE_ID_SIZE));
}

/* A line of so many bytes; the place past them. */
static const uint8_t *print_bytes(const char *name, const uint8_t *at, unsigned size)
{
    printf("%s ", name);
    while (size-- > 0)
        printf("%02x", (unsigned)*at++);
    printf("\n");
    return at;
}

/* The bytes that go into a packet's header; 0, or a refusal. */
static uint32_t print_wire(void)
{
    uint32_t length = combinator_write(path, sizeof path, wire, sizeof wire);
    const uint8_t *at = wire;
    unsigned i;

    if (COMBINATOR_IS_REFUSAL(length))
        return length;
    printf("wire %" PRIu32 "\n", length);
    at = print_bytes("meta", at, COMBINATOR_WIRE_META_SIZE);
    for (i = 0; i < path[COMBINATOR_PATH_INFO_COUNT]; i++)
        at = print_bytes("info", at, COMBINATOR_WIRE_INFO_SIZE);
    while (at < wire + length)
        at = print_bytes("hop", at, COMBINATOR_WIRE_HOP_SIZE);
    return 0;
}

int main(void)
{
    uint32_t count, paths = 0, i;

    count = write_book();
    if (!count)
        count = combinator_list(SOURCE, DESTINATION, book, book_len, list, sizeof list);
    if (COMBINATOR_IS_REFUSAL(count)) {
        printf("refused %" PRIu32 " %s\n", COMBINATOR_REFUSAL(count), combinator_word(count));
        return 1;
    }
    for (i = 0; i < count; i++)
        if (assemble(list + COMBINATOR_RECORD_SIZE * i) == COMBINATOR_PATH)
            paths++;
    printf("solutions %" PRIu32 " paths %" PRIu32 "\n", count, paths);

    for (i = 0; i < count; i++) {
        const uint8_t *record = list + COMBINATOR_RECORD_SIZE * i;
        uint32_t answer = assemble(record);

        printf("%" PRIu32 " cost %" PRIu64 " segments %u", i + 1,
               combinator_number(record + COMBINATOR_RECORD_COST, 2),
               (unsigned)record[COMBINATOR_RECORD_EDGE_COUNT]);
        if (answer == COMBINATOR_PATH) {
            print_path();
            answer = print_wire();
        } else if (answer == COMBINATOR_LOOP) {
            printf(" loop\n");
        } else if (answer == COMBINATOR_BARE) {
            printf(" bare\n");
        }
        if (COMBINATOR_IS_REFUSAL(answer))
            return 2; /* not for a record just listed, nor for its path */
    }
    return 0;
}
