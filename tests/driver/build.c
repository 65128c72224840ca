#include "build.h"

#include <string.h>

#include "common.h"

void build_start(struct build *b)
{
    b->cores = b->noncores = 0;
    b->length = 0;
    b->head = b->entry = b->peer = NULL;
}

/* Adds to the number of 16 bits. */
static void add16(uint8_t *at, size_t n)
{
    put16(at, number16(at) + (unsigned)n);
}

/* Room for `n` more bytes of the last body, zero. */
static uint8_t *more(struct build *b, size_t n)
{
    uint8_t *at = b->bodies + b->length;
    if (b->length + n > sizeof b->bodies)
        fail("a book too large to build");
    memset(at, 0, n);
    b->length += n;
    add16(b->head + COMBINATOR_HEAD_BODY_LENGTH, n);
    return at;
}

void build_segment(struct build *b, int core, uint32_t timestamp, unsigned id)
{
    if ((core && b->noncores > 0) || b->cores + b->noncores >= BUILD_SEGMENTS)
        fail("a segment that does not fit");
    b->head = b->heads + COMBINATOR_HEAD_SIZE * (b->cores + b->noncores);
    if (core)
        b->cores++;
    else
        b->noncores++;
    memset(b->head, 0, COMBINATOR_HEAD_SIZE);
    put32(b->head + COMBINATOR_HEAD_TIMESTAMP, timestamp);
    put16(b->head + COMBINATOR_HEAD_ID, id);
    b->entry = b->peer = NULL;
}

void build_again(struct build *b, int core, uint32_t timestamp, unsigned id)
{
    const uint8_t *before = b->head, *body;
    size_t n = number16(before + COMBINATOR_HEAD_BODY_LENGTH);
    body = b->bodies + b->length - n;
    build_segment(b, core, timestamp, id);
    put16(b->head + COMBINATOR_HEAD_ENTRY_COUNT, number16(before + COMBINATOR_HEAD_ENTRY_COUNT));
    memcpy(more(b, n), body, n);
}

void build_entry(struct build *b, uint64_t as, unsigned ingress, unsigned egress, uint64_t mac)
{
    uint8_t *e = more(b, COMBINATOR_ENTRY_SIZE);
    add16(b->head + COMBINATOR_HEAD_ENTRY_COUNT, 1);
    put64(e + COMBINATOR_ENTRY_AS, as);
    put32(e + COMBINATOR_ENTRY_MTU, 1500);
    put16(e + COMBINATOR_ENTRY_INGRESS_MTU, 1400);
    put16(e + COMBINATOR_ENTRY_INGRESS, ingress);
    put16(e + COMBINATOR_ENTRY_EGRESS, egress);
    e[COMBINATOR_ENTRY_UNITS] = 63;
    put(e + COMBINATOR_ENTRY_MAC, COMBINATOR_MAC_SIZE, mac);
    b->entry = e;
    b->peer = NULL;
}

void build_peer(struct build *b, uint64_t as, unsigned interface, unsigned ingress, unsigned egress, uint64_t mac)
{
    uint8_t *p = more(b, COMBINATOR_PEER_SIZE);
    b->entry[COMBINATOR_ENTRY_PEER_COUNT]++;
    put64(p + COMBINATOR_PEER_AS, as);
    put16(p + COMBINATOR_PEER_INTERFACE, interface);
    put16(p + COMBINATOR_PEER_MTU, 1350);
    p[COMBINATOR_PEER_UNITS] = 63;
    put16(p + COMBINATOR_PEER_INGRESS, ingress);
    put16(p + COMBINATOR_PEER_EGRESS, egress);
    put(p + COMBINATOR_PEER_MAC, COMBINATOR_MAC_SIZE, mac);
    b->peer = p;
}

size_t build_book(const struct build *b, uint8_t *out)
{
    size_t bodies = head_place(b->cores + b->noncores);
    put16(out + COMBINATOR_COUNTS_CORES, b->cores);
    put16(out + COMBINATOR_COUNTS_NON_CORES, b->noncores);
    put32(out + COMBINATOR_COUNTS_BODIES, (uint32_t)b->length);
    memcpy(out + COMBINATOR_COUNTS_SIZE, b->heads, bodies - COMBINATOR_COUNTS_SIZE);
    memcpy(out + bodies, b->bodies, b->length);
    return bodies + b->length;
}

static struct build b;

size_t build_worked(uint8_t *out)
{
    build_start(&b);
    build_segment(&b, 0, 1000000, 0x1234);
    build_entry(&b, AS_DESTINATION, 0, 5, 0x010203040506);
    put16(b.entry + COMBINATOR_ENTRY_INGRESS_MTU, 0);
    build_entry(&b, AS_SOURCE, 7, 0, 0x0a0b0c0d0e0f);
    put32(b.entry + COMBINATOR_ENTRY_MTU, 1400);
    put16(b.entry + COMBINATOR_ENTRY_INGRESS_MTU, 1350);
    return build_book(&b, out);
}

/* `n` segments of two entries, from `top` to `leaf`. */
static void parallel(int core, unsigned n, uint64_t top, uint64_t leaf, int ties)
{
    unsigned i;
    for (i = 0; i < n; i++) {
        build_segment(&b, core, 1000000, i);
        build_entry(&b, top, 0, ties ? 1 : 1 + i, 0x010203040506 + i);
        build_entry(&b, leaf, ties ? 1 : 1 + i, 0, 0x0a0b0c0d0e0f + i);
    }
}

size_t build_chains(uint8_t *out, unsigned ups, unsigned cores, unsigned downs, int ties)
{
    uint64_t x = AS_DESTINATION + 0x100, y = AS_DESTINATION + 0x200;
    build_start(&b);
    parallel(1, cores, y, x, ties);
    parallel(0, ups, x, AS_SOURCE, ties);
    parallel(0, downs, y, AS_DESTINATION, ties);
    return build_book(&b, out);
}

size_t build_slots(uint8_t *out, unsigned more, int ties)
{
    unsigned ups, cores, best_ups = 0, best_cores = 0, least = COMBINATOR_MAX_SEGMENTS - more;
    /* Of the ways to write the slots as a product of three, the one of the fewest segments. */
    for (ups = 1; ups < COMBINATOR_MAX_SEGMENTS; ups++)
        for (cores = 1; cores < COMBINATOR_MAX_SEGMENTS; cores++)
            if (COMBINATOR_MAX_SOLUTIONS % (ups * cores) == 0 && ups + cores + COMBINATOR_MAX_SOLUTIONS / (ups * cores) < least) {
                least = ups + cores + COMBINATOR_MAX_SOLUTIONS / (ups * cores);
                best_ups = ups, best_cores = cores;
            }
    if (!best_ups)
        fail("no book has just as many chains as there are slots");
    return build_chains(out, best_ups + more, best_cores, COMBINATOR_MAX_SOLUTIONS / (best_ups * best_cores), ties);
}

size_t build_few(uint8_t *out, unsigned segments, unsigned entries, unsigned peers)
{
    uint64_t top = AS_DESTINATION + 0x1000;
    unsigned i, j, p;
    build_start(&b);
    for (i = 0; i < segments; i++) {
        uint64_t leaf = i == 0 ? AS_SOURCE : i == 1 ? AS_DESTINATION : AS_DESTINATION + 0x10000 + i;
        build_segment(&b, 0, 1000000, i);
        for (j = 0; j < entries; j++) {
            uint64_t as = j + 1 == entries ? leaf : j == 0 ? top : top + 0x100 * i + j;
            build_entry(&b, as, j == 0 ? 0 : 1 + i, j + 1 == entries ? 0 : 1 + i, 0x010203040506 + COMBINATOR_MAX_ENTRIES * i + j);
            for (p = 0; p < peers; p++)
                build_peer(&b, top + 0x100000 + p, 1 + p, 100 + p, 1 + i, 0x0a0b0c0d0e0f + p);
        }
    }
    return build_book(&b, out);
}

size_t build_worst(uint8_t *out, unsigned half, unsigned entries, unsigned peers)
{
    uint64_t top = AS_DESTINATION + 0x1000;
    unsigned i, j, p;
    build_start(&b);
    for (i = 0; i < 2 * half; i++) {
        uint64_t leaf = i < half ? AS_SOURCE : AS_DESTINATION, other = i < half ? AS_DESTINATION : AS_SOURCE;
        build_segment(&b, 0, 1000000, i);
        for (j = 0; j < entries; j++) {
            uint64_t as = j + 1 == entries ? leaf : top + j;
            build_entry(&b, as, j == 0 ? 0 : 1 + i, j + 1 == entries ? 0 : 1 + i, 0x010203040506 + COMBINATOR_MAX_ENTRIES * i + j);
            /* Links from an AS to itself, the leaves' to each other: each side's entry matches. */
            for (p = 0; p < peers; p++)
                build_peer(&b, as == leaf ? other : as, 1 + p, 1 + p, 1 + i, 0x0a0b0c0d0e0f + p);
        }
    }
    return build_book(&b, out);
}

size_t build_links(uint8_t *out, unsigned half)
{
    uint64_t x = AS_DESTINATION + 0x100, y = AS_DESTINATION + 0x200;
    unsigned i, j, p, n = 0;
    build_start(&b);
    for (i = 0; i < 2 * half; i++) {
        uint64_t leaf = i < half ? AS_SOURCE : AS_DESTINATION, local = i < half ? x : y, far = (i < half ? y : x) + COMBINATOR_MAX_ENTRIES - 2;
        build_segment(&b, 0, 1000000, i);
        for (j = 0; j < COMBINATOR_MAX_ENTRIES; j++) {
            build_entry(&b, j + 1 == COMBINATOR_MAX_ENTRIES ? leaf : local + j, 1, 1, 0x010203040506 + COMBINATOR_MAX_ENTRIES * i + j);
            for (p = 0; p < COMBINATOR_MAX_PEERS; p++, n++) {
                if (i < half)
                    build_peer(&b, far, 7, 1 + n, 1, 0x0a0b0c0d0e0f);
                else
                    build_peer(&b, far, 1 + n, 7, 1, 0x0a0b0c0d0e0f);
            }
        }
    }
    return build_book(&b, out);
}

/* A segment of every entry, from `top` to `leaf`, of ASes that only its kind has: each with two interfaces of id `id`, and `peers` peers. */
static void full_segment(int core, uint64_t top, uint64_t leaf, uint32_t timestamp, unsigned number, unsigned id, unsigned peers)
{
    unsigned j, p;
    build_segment(&b, core, timestamp, number);
    for (j = 0; j < COMBINATOR_MAX_ENTRIES; j++) {
        int last = j + 1 == COMBINATOR_MAX_ENTRIES;
        build_entry(&b, j == 0 ? top : last ? leaf : (leaf << 8) + j, j == 0 ? 0 : id, last ? 0 : id, 0x010203040506 + number);
        b.entry[COMBINATOR_ENTRY_UNITS] = UINT8_MAX;
        for (p = 0; p < peers; p++)
            build_peer(&b, AS_DESTINATION + 0x2000, 1, 1 + p, 1, 0);
    }
}

/* Where the three kinds of segments meet: up from the source to X, core from X to Y, down from Y to the destination. */
#define AS_X (AS_DESTINATION + 0x100)
#define AS_Y (AS_DESTINATION + 0x200)

size_t build_long(uint8_t *out, unsigned peers, int copies)
{
    unsigned side = 1, kind, i;
    while (side * side * side < COMBINATOR_MAX_SOLUTIONS)
        side++;
    if (side * side * side != COMBINATOR_MAX_SOLUTIONS)
        fail("no book has just as many chains as there are slots");
    build_start(&b);
    for (kind = 0; kind < COMBINATOR_MAX_EDGES; kind++)
        for (i = 0; i < side; i++)
            full_segment(kind == 0, kind == 1 ? AS_X : AS_Y, kind == 0 ? AS_X : kind == 1 ? AS_SOURCE : AS_DESTINATION,
                         1000000 + (copies ? i : 0), i, copies ? 1 : 1 + i, peers);
    return build_book(&b, out);
}

/* The mark of a list of interfaces (crates/path/src/mark.rt) is a polynomial in a key modulo PRIME, of which an interface is a coefficient: its
 * id, ISD and the two halves of its AS, each times a key. TURN is that key where there are few solutions. Small numbers d with
 * d[0] * t^2 + d[1] * t + d[2] = 0 leave the mark as it is: for t = TURN, added to three ids that follow each other; for t = TURN^2, added to
 * the last two bytes of three ASes that do, each of two interfaces. */
#define PRIME INT64_C(0x7fffffff)
#define TURN INT64_C(0x27ae41e4)
#define SMALL 2000

static void find_step(int64_t t, int d[3])
{
    int64_t square = t * t % PRIME;
    for (d[0] = 1; d[0] < SMALL; d[0]++)
        for (d[1] = -SMALL; d[1] < SMALL; d[1]++) {
            int64_t rest = (d[0] * square + (d[1] + PRIME) % PRIME * t) % PRIME;
            if (rest < SMALL || rest > PRIME - SMALL) {
                d[2] = (int)(rest < SMALL ? -rest : PRIME - rest);
                return;
            }
        }
    fail("no lists of one mark");
}

static void add(uint8_t *at, int n)
{
    put16(at, (unsigned)((int)number16(at) + n));
}

/* Adds `times` d to the last three ids that the path shows of the segment added last. Up and core segments are passed from the last entry to
 * the first. */
static void step_ids(int down, int times, const int d[3])
{
    uint8_t *last = down ? b.entry : b.entry - (COMBINATOR_MAX_ENTRIES - 1) * COMBINATOR_ENTRY_SIZE;
    uint8_t *before = down ? last - COMBINATOR_ENTRY_SIZE : last + COMBINATOR_ENTRY_SIZE;
    add(before + (down ? COMBINATOR_ENTRY_INGRESS : COMBINATOR_ENTRY_EGRESS), times * d[0]);
    add(before + (down ? COMBINATOR_ENTRY_EGRESS : COMBINATOR_ENTRY_INGRESS), times * d[1]);
    add(last + (down ? COMBINATOR_ENTRY_INGRESS : COMBINATOR_ENTRY_EGRESS), times * d[2]);
}

/* ... to the ASes of the last three entries before that, which are no other segment's. */
static void step_ases(int down, int times, const int d[3])
{
    int k;
    for (k = 0; k < 3; k++) {
        int back = down ? 3 - k : COMBINATOR_MAX_ENTRIES - 4 + k;
        uint8_t *as = b.entry - back * COMBINATOR_ENTRY_SIZE + COMBINATOR_ENTRY_AS;
        put64(as, (number64(b.entry + COMBINATOR_ENTRY_AS) << 16) + 0x6000 + 0x2000 * (unsigned)k);
        add(as + COMBINATOR_AS_SIZE - 2, times * d[k]);
    }
}

size_t build_colliding(uint8_t *out, enum colliding how)
{
    static const unsigned few[] = {4, 8, 4}, many[] = {16, 16, 16};
    const unsigned *sides = how == MANY_IDS ? many : few;
    unsigned kind, i;
    int d[3];
    find_step(how == FEW_ASES ? TURN * TURN % PRIME : TURN, d);
    build_start(&b);
    for (kind = 0; kind < COMBINATOR_MAX_EDGES; kind++)
        for (i = 0; i < sides[kind]; i++) {
            full_segment(kind == 0, kind == 1 ? AS_X : AS_Y, kind == 0 ? AS_X : kind == 1 ? AS_SOURCE : AS_DESTINATION, 1000000, i, 0x8000, 0);
            (how == FEW_ASES ? step_ases : step_ids)(kind == 2, (int)i, d);
        }
    return build_book(&b, out);
}

size_t build_one_ending(uint8_t *out, unsigned segments, int twice)
{
    unsigned i, j;
    build_start(&b);
    for (i = 0; i < segments; i++) {
        build_segment(&b, 0, 1000000, i);
        for (j = 0; j < COMBINATOR_MAX_ENTRIES; j++) {
            int again = twice && i + 1 == segments && j + 1 == COMBINATOR_MAX_ENTRIES;
            build_entry(&b, AS_DESTINATION + ((uint64_t)(again ? 0 : j) << 32), 1, 1, i);
        }
    }
    return build_book(&b, out);
}

size_t build_alike(uint8_t *out, unsigned segments)
{
    unsigned i, j;
    build_start(&b);
    for (i = 0; i < segments; i++) {
        build_segment(&b, 0, 1000000, 7);
        for (j = 0; j < COMBINATOR_MAX_ENTRIES; j++) {
            int last = j + 1 == COMBINATOR_MAX_ENTRIES;
            build_entry(&b, AS_DESTINATION + 0x1000 + j, 1, 1, last ? i : 0);
            if (!last)
                build_peer(&b, AS_DESTINATION + 0x2000, 1, 1, 1, 0);
        }
    }
    return build_book(&b, out);
}
