/* stack [FILE...]: the most stack that one call took, on the driver's own books and on those of batches; fails above what the header states. A thread runs
 * on a painted stack; what a call has changed below its caller is counted. */
#include <inttypes.h>
#include <pthread.h>
#include <stdio.h>
#include <string.h>
#include <sys/mman.h>

#include "build.h"
#include "combinator.h"
#include "common.h"

#define STACK ((size_t)512 << 10)
#define PAINT 0x5a
/* Left unpainted below the calling frame: less than this is not told apart. */
#define MARGIN 1024

static uint8_t *stack, book[BUILD_ROOM], list[COMBINATOR_LIST_SIZE], path[COMBINATOR_PATH_SIZE], wire[COMBINATOR_WIRE_SIZE];
static uint8_t back[COMBINATOR_PATH_SIZE];
enum kind { LISTING, ROUTES, ASSEMBLY, WRITING, READING, KINDS };

static const char *const call_name[KINDS] = {"listing", "routes", "assembly", "writing", "reading"};
static size_t most[KINDS];

/* One call, and what it needed. Writing is of `path`, reading of `wire`. */
struct call {
    const struct input *c;
    enum kind kind;
    const uint8_t *record; /* of assembly */
    size_t wire_len;
    uint32_t answer;
    size_t needed;
};

/* The stack grows down: the lowest byte that is no longer as painted. */
static uint8_t *low_mark(void)
{
    uint8_t *p = stack;
    while (*p == PAINT)
        p++;
    return p;
}

static void *run(void *given)
{
    struct call *k = given;
    volatile uint8_t here = 0;
    memset(stack, PAINT, (size_t)((uint8_t *)&here - stack) - MARGIN);
    switch (k->kind) {
    case LISTING:
        k->answer = combinator_list(k->c->src, k->c->dst, k->c->book, k->c->book_len, list, sizeof list);
        break;
    case ROUTES:
        k->answer = combinator_routes(k->c->src, k->c->dst, k->c->book, k->c->book_len, list, sizeof list);
        break;
    case WRITING:
        k->answer = combinator_write(path, sizeof path, wire, sizeof wire);
        break;
    case READING:
        k->answer = combinator_read(wire, k->wire_len, back, sizeof back);
        break;
    default:
        k->answer = combinator_assemble(k->c->src, k->c->dst, k->c->book, k->c->book_len, k->record, COMBINATOR_RECORD_SIZE, path, sizeof path);
    }
    k->needed = (size_t)((uint8_t *)&here - low_mark());
    return NULL;
}

static void call(struct call *k, enum kind kind)
{
    pthread_attr_t attr;
    pthread_t thread;
    k->kind = kind;
    if (pthread_attr_init(&attr) || pthread_attr_setstack(&attr, stack, STACK) || pthread_create(&thread, &attr, run, k) ||
        pthread_join(thread, NULL))
        fail("a thread on its own stack");
    pthread_attr_destroy(&attr);
    if (k->needed > most[kind])
        most[kind] = k->needed;
}

/* The path that assembly has left. */
static void measure_wire(struct call *k)
{
    call(k, WRITING);
    k->wire_len = k->answer;
    call(k, READING);
    if (COMBINATOR_IS_REFUSAL(k->wire_len) || COMBINATOR_IS_REFUSAL(k->answer))
        fail("a path that assembly left is not written or not read");
}

/* What listing answers. */
static uint32_t measure(const struct input *c)
{
    struct call k;
    size_t n, i, step;
    memset(&k, 0, sizeof k);
    k.c = c;
    call(&k, ROUTES);
    call(&k, LISTING);
    if (COMBINATOR_IS_REFUSAL(k.answer))
        return k.answer;
    n = k.answer;
    step = n / 16 + 1;
    for (i = 0; i < n; i += step) {
        k.record = list + COMBINATOR_RECORD_SIZE * i;
        call(&k, ASSEMBLY);
        if (k.answer == COMBINATOR_PATH)
            measure_wire(&k);
    }
    return (uint32_t)n;
}

/* The driver's own books have chains, as many as there are slots or more, or an AS twice where that is said. */
static void measure_book(size_t len, int twice)
{
    uint32_t answer;
    struct input c;
    c.src = AS_SOURCE;
    c.dst = AS_DESTINATION;
    c.book = book;
    c.book_len = len;
    answer = measure(&c);
    if (twice ? answer != COMBINATOR_TWICE : !answer || (COMBINATOR_IS_REFUSAL(answer) && answer != COMBINATOR_FULL))
        fail("a book of the driver's own of %zu bytes is answered %" PRIu32, len, answer);
}

int stack_mode(int args, char **arg)
{
    unsigned half;
    int i;
    stack = mmap(NULL, STACK, PROT_READ | PROT_WRITE, MAP_PRIVATE | MAP_ANONYMOUS, -1, 0);
    if (stack == MAP_FAILED)
        fail("mmap");
    measure_book(build_worked(book), 0);
    measure_book(build_few(book, 2 * FULL_HALF, COMBINATOR_MAX_ENTRIES, COMBINATOR_MAX_PEERS), 0);
    measure_book(build_slots(book, 0, 0), 0);
    measure_book(build_slots(book, 0, 1), 0);
    measure_book(build_slots(book, 1, 1), 0);
    measure_book(build_long(book, 0, 0), 0);
    measure_book(build_long(book, 0, 1), 0);
    for (half = 1; half <= FULL_HALF; half++)
        measure_book(build_worst(book, half, COMBINATOR_MAX_ENTRIES, COMBINATOR_MAX_PEERS), 0);
    measure_book(build_one_ending(book, COMBINATOR_MAX_SEGMENTS, 1), 1);
    for (i = 0; i < args; i++) {
        size_t len, at = 0;
        uint8_t *batch = read_file(arg[i], &len);
        struct input c;
        while (next_case(batch, len, &at, &c))
            if (c.book)
                measure(&c);
    }
    printf("stack of one call:");
    for (i = 0; i < KINDS; i++)
        printf("%s %s %zu bytes", i ? "," : "", call_name[i], most[i]);
    printf(" (below %d is not told apart)\n", MARGIN);
    for (i = 0; i < KINDS; i++) {
        if (!most[i])
            fail("no %s was measured", call_name[i]);
        if (most[i] > COMBINATOR_STACK_SIZE)
            fail("%s takes more than %d bytes", call_name[i], COMBINATOR_STACK_SIZE);
    }
    return 0;
}
