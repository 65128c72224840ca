/* fuzz SEED COUNT|SECONDSs [FIRST] [--undefined]
 *
 * First a fixed sweep: every length near each boundary, an AS twice at every two entries, every output length near a slot's end, every byte
 * of a record changed to every value, the dearest books; paths and wires likewise (fuzz_wire.c). Then COUNT turns, or as many as SECONDS allow.
 * A turn draws its choices from SEED and its own number alone, so that FIRST (with COUNT 1) runs one turn again. Of the listings of either a part
 * must be refused for an AS that stands twice in a segment, and a part must be accepted.
 *
 * Every call is held to the model in all of its output and in its answer. Its buffers have guard bytes on both sides and
 * stand against a page that cannot be touched, at the one end or the other, or in a block of the heap of their exact
 * size, for AddressSanitizer and valgrind; what a call reads must be left as it was. --undefined leaves the
 * outputs in the heap unset, so that valgrind sees a use of what they held. */
#include <inttypes.h>
#include <signal.h>
#include <stdio.h>
#include <stdlib.h>
#include <string.h>
#include <sys/mman.h>
#include <time.h>

#include "build.h"
#include "combinator.h"
#include "common.h"
#include "fuzz.h"
#include "model.h"

/* Guard bytes; how many records of a list are used again. */
#define GUARD 64
#define LISTED 64

/* Bytes of so many slots. */
#define SLOTS(n) (COMBINATOR_RECORD_SIZE * (size_t)(n))

/* ---- choices */

static uint64_t state;

uint64_t draw(void)
{
    uint64_t z = state += UINT64_C(0x9e3779b97f4a7c15);
    z = (z ^ z >> 30) * UINT64_C(0xbf58476d1ce4e5b9);
    z = (z ^ z >> 27) * UINT64_C(0x94d049bb133111eb);
    return z ^ z >> 31;
}

unsigned pick(unsigned n)
{
    return (unsigned)(draw() % n);
}

int one_in(unsigned n)
{
    return pick(n) == 0;
}

/* ---- buffers */

enum where { AT_END, AT_START, IN_HEAP, PLACES };

struct area {
    uint8_t *pages; /* between two pages that cannot be touched */
    size_t size;
    uint8_t *heap;
};

static struct area book_area, record_area, given_area, out_area;
static int undefined;

static void make_area(struct area *a, size_t room)
{
    size_t page = 4096;
    a->size = (room + 2 * GUARD + page - 1) / page * page;
    a->pages = mmap(NULL, a->size + 2 * page, PROT_NONE, MAP_PRIVATE | MAP_ANONYMOUS, -1, 0);
    if (a->pages == MAP_FAILED)
        fail("mmap");
    a->pages += page;
    if (mprotect(a->pages, a->size, PROT_READ | PROT_WRITE))
        fail("mprotect");
    a->heap = NULL;
}

static uint8_t guard_byte(size_t i)
{
    return (uint8_t)(0xc3 ^ i * 7);
}

/* A buffer of `len` bytes, with its guards set. */
static uint8_t *place(struct area *a, enum where where, size_t len)
{
    uint8_t *p;
    size_t i;
    if (where == IN_HEAP) {
        free(a->heap);
        /* At least one byte, for a pointer that is not NULL; the sanitizer then knows the exact end of longer ones. */
        return a->heap = resize(NULL, len);
    }
    p = where == AT_END ? a->pages + a->size - len : a->pages;
    for (i = 0; i < GUARD; i++) {
        if (where == AT_END)
            p[-1 - (ptrdiff_t)i] = guard_byte(i);
        else
            p[len + i] = guard_byte(i);
    }
    return p;
}

static int guards_hold(const uint8_t *p, enum where where, size_t len)
{
    size_t i;
    for (i = 0; where != IN_HEAP && i < GUARD; i++)
        if ((where == AT_END ? p[-1 - (ptrdiff_t)i] : p[len + i]) != guard_byte(i))
            return 0;
    return 1;
}

/* ---- one call, held to the model */

struct now now;

struct longest {
    uint64_t ns, turn, calls;
    size_t len;
    uint32_t answer;
};

/* The calls, and what they are about. */
static const char *const call_name[KINDS] = {"listing", "routes", "assembly", "writing", "reading"};
static const char *const given_name[KINDS] = {"book", "book", "book", "path", "wire"};
static struct longest longest[KINDS];
static uint64_t refused[COMBINATOR_LAST_REFUSAL + 1], routes, paths, loops, bares;
static uint64_t listings, accepted, twice; /* of the sweep, then of the turns */

static void print_bytes(const char *name, const uint8_t *p, size_t n)
{
    size_t i;
    fprintf(stderr, "%s %zu bytes ", name, n);
    for (i = 0; i < n; i++)
        fprintf(stderr, "%02x", p[i]);
    fputc('\n', stderr);
}

static int takes_book(enum kind kind)
{
    return kind == LISTING || kind == ROUTES || kind == ASSEMBLY;
}

void wrong(enum kind kind, const char *what, size_t out_len, uint32_t answer, uint32_t want)
{
    fprintf(stderr, "turn %" PRIu64 " (%s): %s: %s; answer %" PRIu32 ", the model's %" PRIu32 ", output of %zu bytes\n", now.turn, now.kind,
            call_name[kind], what, answer, want, out_len);
    if (takes_book(kind)) {
        fprintf(stderr, "source %016" PRIx64 " destination %016" PRIx64 "\n", now.src, now.dst);
        print_bytes("record", now.record, now.record_len);
        print_bytes("book", now.book, now.book_len);
    } else {
        print_bytes(given_name[kind], now.given, now.given_len);
    }
    exit(1);
}

/* A page beside a buffer was touched, as a rule. */
static void fault(int signal_number)
{
    signal(signal_number, SIG_DFL);
    fprintf(stderr, "turn %" PRIu64 " (%s): signal %d, book of %zu bytes, record of %zu, path or wire of %zu\n", now.turn, now.kind, signal_number,
            now.book_len, now.record_len, now.given_len);
    raise(signal_number);
}

static uint8_t expected[MAX_OUT];

/* No call takes longer than include/combinator.h says. The thread's clock counts time too in which a virtual machine was taken off its
 * processor, or shares it: a call that seems long is made again, then again a little later, and the least time counts. */
#define TRIES 5
#define ROUNDS 20

struct call {
    enum kind kind;
    const uint8_t *book, *record, *given;
    uint8_t *out;
    size_t out_len;
};

static uint32_t timed(const struct call *c, uint64_t *ns)
{
    uint64_t start = work_ns();
    uint32_t answer;
    switch (c->kind) {
    case LISTING:
        answer = combinator_list(now.src, now.dst, c->book, now.book_len, c->out, c->out_len);
        break;
    case ROUTES:
        answer = combinator_routes(now.src, now.dst, c->book, now.book_len, c->out, c->out_len);
        break;
    case WRITING:
        answer = combinator_write(c->given, now.given_len, c->out, c->out_len);
        break;
    case READING:
        answer = combinator_read(c->given, now.given_len, c->out, c->out_len);
        break;
    default:
        answer = combinator_assemble(now.src, now.dst, c->book, now.book_len, c->record, now.record_len, c->out, c->out_len);
    }
    *ns = work_ns() - start;
    return answer;
}

/* What the model answers to a call that may write `out_len` bytes to `expected`. */
static uint32_t wanted(enum kind kind, size_t out_len)
{
    switch (kind) {
    case LISTING:
        return model_list(now.src, now.dst, now.book, now.book_len, expected, out_len);
    case ROUTES:
        return model_routes(now.src, now.dst, now.book, now.book_len, expected, out_len);
    case WRITING:
        return model_write(now.given, now.given_len, expected, out_len);
    case READING:
        return model_read(now.given, now.given_len, expected, out_len);
    default:
        return model_assemble(now.src, now.dst, now.book, now.book_len, now.record, now.record_len, expected, out_len);
    }
}

static uint64_t least(const struct call *c, uint64_t ns)
{
    uint64_t again;
    int i;
    for (i = 1; i < TRIES; i++) {
        timed(c, &again);
        if (again < ns)
            ns = again;
    }
    return ns;
}

/* The same, as long as it seems longer than stated. */
static uint64_t least_of_rounds(const struct call *c, uint64_t ns, uint64_t stated)
{
    const struct timespec pause = {0, 50000000};
    int i;
    for (i = 1; i < ROUNDS && ns > stated; i++) {
        nanosleep(&pause, NULL);
        ns = least(c, ns);
    }
    return ns;
}

/* What a call may read: a copy of these bytes, at a place that was drawn; and what is said where it was written. */
struct lent {
    const char *fault;
    const uint8_t *bytes;
    size_t len;
    enum where where;
    uint8_t *copy;
};

static const uint8_t *lend(struct lent *l, const char *fault, struct area *area, const uint8_t *bytes, size_t len)
{
    l->fault = fault;
    l->bytes = bytes;
    l->len = len;
    l->where = (enum where)pick(PLACES);
    l->copy = place(area, l->where, len);
    if (len)
        memcpy(l->copy, bytes, len);
    return l->copy;
}

const uint8_t *check(enum kind kind, size_t out_len, uint32_t *answered)
{
    enum where out_at = (enum where)pick(PLACES);
    struct lent lent[2];
    unsigned lents = 0, k;
    struct longest *most = &longest[kind];
    struct call it = {kind, NULL, NULL, NULL, NULL, out_len};
    uint8_t *out = it.out = place(&out_area, out_at, out_len);
    uint32_t answer, want;
    uint64_t ns, stated;
    size_t i;

    if (takes_book(kind)) {
        it.book = lend(&lent[lents++], "the book, or bytes beside it, were written", &book_area, now.book, now.book_len);
        it.record = lend(&lent[lents++], "the record, or bytes beside it, were written", &record_area, now.record, now.record_len);
    } else {
        it.given = lend(&lent[lents++], "what was given, or bytes beside it, were written", &given_area, now.given, now.given_len);
    }
    if (!(undefined && out_at == IN_HEAP))
        memset(out, (int)pick(256), out_len);
    want = wanted(kind, out_len);
    answer = timed(&it, &ns);

    if (!guards_hold(out, out_at, out_len))
        wrong(kind, "bytes beside the output were written", out_len, answer, want);
    for (k = 0; k < lents; k++)
        if (!guards_hold(lent[k].copy, lent[k].where, lent[k].len) || memcmp(lent[k].copy, lent[k].bytes, lent[k].len))
            wrong(kind, lent[k].fault, out_len, answer, want);
    if (COMBINATOR_IS_REFUSAL(answer))
        for (i = 0; i < out_len; i++)
            if (out[i])
                wrong(kind, "the output is not zero after a refusal", out_len, answer, want);
    if (answer != want)
        wrong(kind, "another answer", out_len, answer, want);
    if (out_len && memcmp(out, expected, out_len))
        wrong(kind, "another output", out_len, answer, want);

    most->calls++;
    if (ns > most->ns)
        ns = least(&it, ns);
    stated = kind == LISTING || kind == ROUTES ? COMBINATOR_LIST_NS : COMBINATOR_ASSEMBLE_NS;
    /* Not under valgrind, which makes all slower. */
    if (!undefined && ns > stated && (ns = least_of_rounds(&it, ns, stated)) > stated)
        wrong(kind, "longer than stated", out_len, answer, want);
    if (ns > most->ns) {
        most->ns = ns;
        most->turn = now.turn;
        most->len = takes_book(kind) ? now.book_len : now.given_len;
        most->answer = answer;
    }
    if (COMBINATOR_IS_REFUSAL(answer))
        refused[COMBINATOR_REFUSAL(answer)]++;
    else if (kind == ROUTES)
        routes += answer;
    else if (kind == ASSEMBLY) {
        paths += answer == COMBINATOR_PATH;
        loops += answer == COMBINATOR_LOOP;
        bares += answer == COMBINATOR_BARE;
    }
    if (kind == LISTING) {
        listings++;
        accepted += !COMBINATOR_IS_REFUSAL(answer) || answer == COMBINATOR_FULL;
        twice += answer == COMBINATOR_TWICE;
    }
    if (kind == ASSEMBLY && answer == COMBINATOR_PATH) {
        struct input c;
        const char *disagrees;
        c.src = now.src;
        c.dst = now.dst;
        c.book = now.book;
        c.book_len = now.book_len;
        disagrees = router_fault(&c, now.record, out);
        if (disagrees)
            wrong(kind, disagrees, out_len, answer, want);
    }
    if (answered)
        *answered = answer;
    return out;
}

/* Listing, then routes with the same arguments; what listing answers. */
static uint32_t check_list(size_t out_len)
{
    uint32_t answer;
    now.record_len = 0;
    check(ROUTES, out_len, NULL);
    check(LISTING, out_len, &answer);
    return answer;
}

static uint8_t left[COMBINATOR_PATH_SIZE]; /* the path that assembly left last */

static uint32_t check_record(const uint8_t *record, size_t record_len, size_t out_len)
{
    const uint8_t *out;
    uint32_t answer;
    if (record_len)
        memmove(now.record, record, record_len);
    now.record_len = record_len;
    out = check(ASSEMBLY, out_len, &answer);
    if (answer == COMBINATOR_PATH)
        memcpy(left, out, sizeof left);
    return answer;
}

/* ---- books */

static struct build b;

struct link {
    uint64_t as, other;
    unsigned interface, other_interface;
};

#define FEW_AS 10
#define ALL_AS COMBINATOR_MAX_ENTRIES

/* Different ASes, near to each other: they differ in the last bits alone as a rule; in bits before those, in the ISD, or in one bit each. */
static void draw_ases(uint64_t as[ALL_AS])
{
    unsigned how = pick(10), turned = pick(64), i;
    for (i = 0; i < ALL_AS; i++)
        switch (how) {
        case 0:
            as[i] = AS_DESTINATION + ((uint64_t)i << 6);
            break;
        case 1:
            as[i] = AS_DESTINATION + ((uint64_t)i << 48);
            break;
        case 2:
            as[i] = AS_DESTINATION ^ (i ? UINT64_C(1) << (turned + i) % 64 : 0);
            break;
        case 3:
            as[i] = (draw() << 6) + (AS_DESTINATION & 63);
            break;
        default:
            as[i] = AS_DESTINATION + i;
        }
    if (one_in(8))
        as[0] = 0, as[1] = UINT64_MAX;
}

/* The ASes of a segment: each once, of the first `few` or as many more as there are entries; or with `repeats` any of the first. */
static void draw_path(uint64_t path[COMBINATOR_MAX_ENTRIES], unsigned entries, const uint64_t as[ALL_AS], unsigned few, int repeats)
{
    uint64_t left[ALL_AS];
    unsigned n = entries > few ? entries : few, i, k;
    memcpy(left, as, sizeof left);
    for (i = 0; i < entries; i++) {
        k = pick(repeats ? few : n - i);
        path[i] = left[k];
        if (!repeats)
            left[k] = left[n - i - 1];
    }
}

/* A book of few ASes and few interfaces, so that segments join and have equal ends; with `repeats` most have a segment with an AS twice. */
static void draw_book(int repeats)
{
    uint64_t as[ALL_AS], path[COMBINATOR_MAX_ENTRIES];
    struct link link[8];
    uint64_t leaf[COMBINATOR_MAX_SEGMENTS];
    unsigned ases = 2 + pick(FEW_AS - 1), links = pick(9), interfaces = 1 + pick(3), zero = 1 + pick(8), leaves = 0, segments, cores, i, j, k, p;
    int large = one_in(40), tidy = one_in(2);

    draw_ases(as);
    for (i = 0; i < links; i++) {
        link[i].as = as[pick(ases)];
        link[i].other = as[pick(ases)];
        link[i].interface = pick(3);
        link[i].other_interface = pick(3);
    }
    segments = large ? 20 + pick(COMBINATOR_MAX_SEGMENTS - 19) : pick(8);
    cores = pick(segments + 1) / (1 + pick(3));
    build_start(&b);
    for (i = 0; i < segments; i++) {
        unsigned entries = large ? pick(COMBINATOR_MAX_ENTRIES + 1) : one_in(12) ? pick(COMBINATOR_MAX_ENTRIES + 1) : pick(6);
        if (head_place(segments) + b.length + FULL_BODY > MAX_BOOK)
            break;
        if (i != cores && i > 0 && one_in(5)) {
            /* The segment before, once more: equal, or of another timestamp, id or byte. */
            uint8_t *body = b.bodies + b.length;
            build_again(&b, i < cores, number32(b.head + COMBINATOR_HEAD_TIMESTAMP) + (one_in(4) ? 1 : 0),
                        number16(b.head + COMBINATOR_HEAD_ID) ^ (one_in(4) ? 1 : 0));
            /* A byte of the first entry between its AS and its peer count. */
            if (number16(b.head + COMBINATOR_HEAD_BODY_LENGTH) && one_in(3))
                body[COMBINATOR_ENTRY_MTU + pick(COMBINATOR_ENTRY_PEER_COUNT - COMBINATOR_ENTRY_MTU)] ^= (uint8_t)(1 + pick(255));
            continue;
        }
        build_segment(&b, i < cores, one_in(6) ? (uint32_t)draw() : one_in(6) ? UINT32_MAX - pick(400) : 1000000, (unsigned)draw() & UINT16_MAX);
        draw_path(path, entries, as, ases, repeats);
        for (j = 0; j < entries; j++) {
            unsigned ingress = (tidy && j == 0) || one_in(zero) ? 0 : 1 + pick(interfaces);
            unsigned egress = (tidy && j + 1 == entries) || one_in(zero) ? 0 : 1 + pick(interfaces);
            build_entry(&b, path[j], ingress, egress, draw());
            if (one_in(5))
                put32(b.entry + COMBINATOR_ENTRY_MTU, one_in(2) ? UINT16_MAX + 1 + pick(3) : (uint32_t)draw());
            put16(b.entry + COMBINATOR_ENTRY_INGRESS_MTU, one_in(3) ? 0 : one_in(4) ? (unsigned)draw() : 1280 + pick(200));
            b.entry[COMBINATOR_ENTRY_UNITS] = (uint8_t)(one_in(3) ? draw() : 63);
            for (k = 0, p = 0; k < links && p < COMBINATOR_MAX_PEERS; k++) {
                uint64_t here = number64(b.entry + COMBINATOR_ENTRY_AS);
                int side = here == link[k].as ? 0 : here == link[k].other ? 1 : -1;
                if (side < 0 ? !one_in(12) : one_in(3))
                    continue;
                if (side == 1)
                    build_peer(&b, link[k].as, link[k].interface, link[k].other_interface, pick(3), draw());
                else
                    build_peer(&b, link[k].other, link[k].other_interface, link[k].interface, pick(3), draw());
                put16(b.peer + COMBINATOR_PEER_MTU, one_in(4) ? 0 : (unsigned)draw());
                b.peer[COMBINATOR_PEER_UNITS] = (uint8_t)(one_in(2) ? draw() : 63);
                p++;
                if (one_in(5) && k > 0)
                    k--; /* the same link once more */
            }
        }
        if (entries)
            leaf[leaves++] = number64(b.entry + COMBINATOR_ENTRY_AS);
    }
    now.book_len = build_book(&b, now.book);
    now.src = leaves && !one_in(4) ? leaf[pick(leaves)] : as[pick(ases)];
    now.dst = leaves && !one_in(4) ? leaf[pick(leaves)] : as[pick(ases)];
    if (now.src == now.dst && !one_in(8))
        now.dst = as[pick(ases)];
}

/* Times and lives of which sums rise, fall and tie: 675 seconds are two units. */
static uint32_t some_time(void)
{
    return 1000000 + 675 * pick(4) + (one_in(4) ? 337 + pick(2) : 0);
}

static unsigned some_units(void)
{
    return one_in(6) ? (unsigned)draw() & UINT8_MAX : 2 * pick(4) + pick(2);
}

/* The entries of the segment added last, which have no peers: the copy's own bytes, and now and then one that makes another route, or
 * that no path shows: the ingress where a shortcut is. */
static void vary_copy(uint64_t middle)
{
    unsigned n = number16(b.head + COMBINATOR_HEAD_ENTRY_COUNT), i;
    uint8_t *entry = b.bodies + b.length - COMBINATOR_ENTRY_SIZE * n, *some = entry + COMBINATOR_ENTRY_SIZE * pick(n);
    for (i = 0; i < n; i++, entry += COMBINATOR_ENTRY_SIZE) {
        if (one_in(2))
            entry[COMBINATOR_ENTRY_UNITS] = (uint8_t)some_units();
        if (one_in(2))
            put(entry + COMBINATOR_ENTRY_MAC, COMBINATOR_MAC_SIZE, draw());
    }
    if (one_in(3))
        put16(some + COMBINATOR_ENTRY_INGRESS, pick(4));
    else if (one_in(4))
        put16(some + COMBINATOR_ENTRY_EGRESS, pick(4));
    if (n > 2 && one_in(4))
        put64(b.bodies + b.length - COMBINATOR_ENTRY_SIZE * (n - 1) + COMBINATOR_ENTRY_AS, middle);
}

/* A few segments, each issued several times: routes with several copies, the expiries of which rise, fall and tie. Over one middle the
 * up and down segments have shortcuts, beside chains that loop. */
static void draw_reissued(void)
{
    uint64_t x = AS_DESTINATION + 0x100, y = AS_DESTINATION + (one_in(3) ? 0x100 : 0x200), middle[3];
    unsigned kinds = 3 + pick(3), kind, copies, i;
    for (i = 0; i < 3; i++)
        middle[i] = AS_DESTINATION + 0x300 + pick(3);
    build_start(&b);
    for (kind = 0; kind < kinds; kind++) {
        int core = kind == 0, up = kind % 2;
        uint64_t leaf = core ? x : up ? AS_SOURCE : AS_DESTINATION;
        if (core && one_in(3))
            continue;
        build_segment(&b, core, some_time(), pick(4));
        /* A core of one entry leads from an AS to itself. */
        if (!core || (x != y && !one_in(4))) {
            build_entry(&b, up ? x : y, 0, 1 + pick(2), draw());
            if (!one_in(4))
                build_entry(&b, middle[kind % 3], 1 + pick(2), 1 + pick(2), draw());
        }
        build_entry(&b, leaf, 1 + pick(2), 0, draw());
        vary_copy(middle[0]);
        for (copies = pick(5); copies > 0; copies--) {
            build_again(&b, core, some_time(), pick(4));
            vary_copy(middle[pick(3)]);
        }
    }
    now.book_len = build_book(&b, now.book);
    now.src = AS_SOURCE;
    now.dst = one_in(16) ? AS_SOURCE : AS_DESTINATION;
}

static unsigned segment_count(void)
{
    if (now.book_len < COMBINATOR_COUNTS_SIZE)
        return 0;
    return number16(now.book + COMBINATOR_COUNTS_CORES) + number16(now.book + COMBINATOR_COUNTS_NON_CORES);
}

/* Does the book hold the heads of so many segments, and may it? */
static int heads_fit(unsigned segments)
{
    return segments <= COMBINATOR_MAX_SEGMENTS && now.book_len >= head_place(segments);
}

/* An entry of a book whose bodies are whole. */
static uint8_t *entry_at(unsigned position, unsigned index)
{
    uint8_t *at = now.book + head_place(segment_count());
    unsigned i;
    for (i = 0; i < position; i++)
        at += number16(now.book + head_place(i) + COMBINATOR_HEAD_BODY_LENGTH);
    for (i = 0; i < index; i++)
        at += COMBINATOR_ENTRY_SIZE + COMBINATOR_PEER_SIZE * at[COMBINATOR_ENTRY_PEER_COUNT];
    return at;
}

static unsigned entry_count(unsigned position)
{
    return number16(now.book + head_place(position) + COMBINATOR_HEAD_ENTRY_COUNT);
}

/* Two entries of a segment of a whole book get one AS, at its ends, beside each other or anywhere; or ASes that are almost the same: of another
 * ISD, another bit, the same last bits alone, or all but the last bits. */
static void repeat_as(void)
{
    unsigned segments = segment_count(), position = 0, n = 0, i, j, tries;
    uint64_t as;
    for (tries = 0; segments && n < 2 && tries < 8; tries++) {
        position = pick(segments);
        n = entry_count(position);
    }
    if (n < 2)
        return;
    j = one_in(3) ? n - 1 : 1 + pick(n - 1);
    i = one_in(3) ? 0 : one_in(2) ? j - 1 : pick(j);
    as = number64(entry_at(position, i) + COMBINATOR_ENTRY_AS);
    switch (pick(9)) {
    case 0:
        as ^= UINT64_C(1) << (48 + pick(16));
        break;
    case 1:
        as ^= UINT64_C(1) << pick(64);
        break;
    case 2:
        as = (draw() << 6) + (as & 63);
        break;
    case 3:
        as ^= 1 + pick(63);
        break;
    default:
        break;
    }
    put64(entry_at(position, j) + COMBINATOR_ENTRY_AS, as);
}

/* A body of a whole book, or its head: too many peers, an entry too many or too few, a length that is off, too many entries. */
static void damage_body(void)
{
    unsigned segments = segment_count(), position, n;
    uint8_t *head;
    if (!segments)
        return;
    position = pick(segments);
    head = now.book + head_place(position);
    n = entry_count(position);
    switch (pick(6)) {
    case 0:
    case 1:
        if (n)
            entry_at(position, pick(n))[COMBINATOR_ENTRY_PEER_COUNT] = (uint8_t)(COMBINATOR_MAX_PEERS + 1 + pick(3));
        break;
    case 2:
    case 3:
        put16(head + COMBINATOR_HEAD_ENTRY_COUNT, one_in(2) && n ? n - 1 : n < COMBINATOR_MAX_ENTRIES ? n + 1 : n - 1);
        break;
    case 4:
        put16(head + COMBINATOR_HEAD_BODY_LENGTH, number16(head + COMBINATOR_HEAD_BODY_LENGTH) + 1);
        break;
    default:
        put16(head + COMBINATOR_HEAD_ENTRY_COUNT, COMBINATOR_MAX_ENTRIES + 1 + pick(3));
    }
}

static void damage_bytes(void)
{
    unsigned n = 1 + pick(4);
    size_t front = now.book_len < 80 ? now.book_len : 80;
    while (n-- && now.book_len)
        now.book[one_in(2) ? pick((unsigned)front) : pick((unsigned)now.book_len)] = one_in(2) ? (uint8_t)pick(20) : (uint8_t)draw();
}

static void damage_length(void)
{
    unsigned n = 1 + pick(30);
    if (one_in(2)) {
        now.book_len -= n < now.book_len ? n : now.book_len;
    } else if (one_in(8)) {
        size_t to = COMBINATOR_MAX_BOOK - 1 + pick(4);
        if (to > now.book_len) {
            memset(now.book + now.book_len, 0, to - now.book_len);
            now.book_len = to;
        }
    } else if (now.book_len + n <= MAX_BOOK) {
        memset(now.book + now.book_len, (int)pick(256), n);
        now.book_len += n;
    }
}

/* Numbers by which a book is read: one a little off, or at an end of its range. */
static void damage_counts(void)
{
    unsigned segments = segment_count(), n = 1 + pick(3);
    while (n--) {
        size_t at;
        int size = 2;
        uint64_t v;
        if (segments && heads_fit(segments) && !one_in(3))
            at = head_place(pick(segments)) + (one_in(2) ? COMBINATOR_HEAD_ENTRY_COUNT : COMBINATOR_HEAD_BODY_LENGTH);
        else if (one_in(2))
            at = COMBINATOR_COUNTS_BODIES, size = COMBINATOR_COUNTS_SIZE - COMBINATOR_COUNTS_BODIES;
        else
            at = one_in(2) ? COMBINATOR_COUNTS_CORES : COMBINATOR_COUNTS_NON_CORES;
        if (at + (size_t)size > now.book_len)
            return;
        v = number(now.book + at, size);
        switch (pick(8)) {
        case 0:
            v = 0;
            break;
        case 1:
            v = UINT64_MAX;
            break;
        case 2:
            v = draw();
            break;
        case 3:
            v += COMBINATOR_ENTRY_SIZE;
            break;
        case 4:
            v -= COMBINATOR_PEER_SIZE;
            break;
        default:
            v += one_in(2) ? 1 : UINT64_MAX;
        }
        put(now.book + at, size, v);
    }
}

/* Bytes of one body counted to another: the sum still holds. */
static void damage_split(void)
{
    unsigned segments = segment_count(), i, j, n, room;
    uint8_t *from, *to;
    if (segments < 2 || !heads_fit(segments))
        return;
    i = pick(segments);
    j = pick(segments);
    from = now.book + head_place(i) + COMBINATOR_HEAD_BODY_LENGTH;
    to = now.book + head_place(j) + COMBINATOR_HEAD_BODY_LENGTH;
    room = number16(from);
    n = one_in(2) ? COMBINATOR_ENTRY_SIZE : pick(room + 1);
    if (n > room)
        n = room;
    put16(from, room - n);
    put16(to, number16(to) + n);
}

static void random_bytes(void)
{
    size_t i;
    now.book_len = one_in(20) ? pick(MAX_BOOK) : pick(300);
    for (i = 0; i < now.book_len; i++)
        now.book[i] = one_in(3) ? 0 : (uint8_t)draw();
    /* Often counts that fit. */
    if (now.book_len >= COMBINATOR_COUNTS_SIZE && !one_in(4)) {
        unsigned count = pick(6), cores;
        if (heads_fit(count)) {
            cores = pick(count + 1);
            put16(now.book + COMBINATOR_COUNTS_CORES, cores);
            put16(now.book + COMBINATOR_COUNTS_NON_CORES, count - cores);
            put32(now.book + COMBINATOR_COUNTS_BODIES, (uint32_t)(now.book_len - head_place(count)));
        }
    }
    now.src = AS_SOURCE;
    now.dst = AS_DESTINATION;
}

/* ---- a turn */

static size_t some_out_len(size_t count)
{
    switch (pick(6)) {
    case 0:
        return pick(70);
    case 1:
        return SLOTS(count);
    case 2:
        return SLOTS(count) + pick(SLOTS(2) + 1);
    case 3:
        return SLOTS(count) - (count ? 1 + pick(SLOTS(1)) : 0);
    case 4:
        return one_in(4) ? COMBINATOR_LIST_SIZE - SLOTS(1) - 1 + pick(SLOTS(2) + 3) : pick(MAX_OUT);
    default:
        return SLOTS(count) + pick(1000);
    }
}

static uint8_t listed[SLOTS(LISTED)];

/* Lists the book, assembles its solutions and writes their paths, and asks for records that are none. */
static void use_book(unsigned records)
{
    uint32_t answer;
    unsigned n, i;
    size_t room = one_in(8) ? COMBINATOR_LIST_SIZE : SLOTS(LISTED);
    const uint8_t *out;
    now.record_len = 0;
    check(ROUTES, room, NULL);
    out = check(LISTING, room, &answer);
    n = COMBINATOR_IS_REFUSAL(answer) ? 0 : answer < LISTED ? answer : LISTED;
    memcpy(listed, out, SLOTS(n));
    check_list(some_out_len(COMBINATOR_IS_REFUSAL(answer) ? 0 : answer));
    for (i = 0; i < n && i < records; i++)
        if (check_record(listed + SLOTS(i), SLOTS(1), one_in(4) ? COMBINATOR_PATH_SIZE + pick(40) : COMBINATOR_PATH_SIZE) == COMBINATOR_PATH)
            use_path(left);
    /* Too small an output, another length of record, another record. */
    check_record(listed, n ? SLOTS(1) : pick(SLOTS(1) + 1), one_in(2) ? COMBINATOR_PATH_SIZE - 1 : pick(COMBINATOR_PATH_SIZE));
    check_record(listed, pick(SLOTS(2) + 8), one_in(2) ? COMBINATOR_PATH_SIZE : COMBINATOR_PATH_SIZE - pick(3));
    for (i = 0; i < 4; i++) {
        uint8_t r[SLOTS(1)];
        unsigned j;
        if (n)
            memcpy(r, listed + SLOTS(pick(n)), sizeof r);
        else
            for (j = 0; j < sizeof r; j++)
                r[j] = (uint8_t)(one_in(2) ? 0 : pick(4));
        for (j = 1 + pick(2); j > 0; j--)
            r[pick(sizeof r)] = (uint8_t)(one_in(4) ? draw() : pick(5));
        if (n && one_in(4))
            memcpy(r + edge_place(pick(COMBINATOR_MAX_EDGES)), listed + SLOTS(pick(n)) + edge_place(pick(COMBINATOR_MAX_EDGES)), COMBINATOR_EDGE_SIZE);
        check_record(r, sizeof r, COMBINATOR_PATH_SIZE);
    }
    /* The other way round the same records are strangers, as a rule. */
    if (n && one_in(4)) {
        uint64_t s = now.src;
        now.src = now.dst;
        now.dst = s;
        check_record(listed, SLOTS(1), COMBINATOR_PATH_SIZE);
    }
}

static void turn(uint64_t seed, uint64_t number_of_turn)
{
    state = seed * UINT64_C(0xd1342543de82ef95) + number_of_turn;
    draw();
    now.turn = number_of_turn;
    switch (pick(16)) {
    case 0:
        now.kind = "random bytes";
        random_bytes();
        use_book(1);
        break;
    case 1:
    case 2:
    case 3:
    case 4:
        now.kind = "a book";
        draw_book(one_in(8));
        use_book(16);
        break;
    case 9:
    case 10:
        now.kind = "segments issued again";
        draw_reissued();
        use_book(4);
        break;
    case 12:
    case 13:
        now.kind = "an AS twice";
        draw_book(0);
        repeat_as();
        if (one_in(4))
            repeat_as();
        if (one_in(3))
            damage_body();
        use_book(1);
        break;
    case 14:
        turn_path();
        break;
    case 15:
        turn_wire();
        break;
    case 5:
        now.kind = "bytes changed";
        draw_book(one_in(8));
        damage_bytes();
        use_book(2);
        break;
    case 6:
        now.kind = "another length";
        draw_book(one_in(8));
        damage_length();
        use_book(1);
        break;
    case 7:
        now.kind = "counts changed";
        draw_book(one_in(8));
        damage_counts();
        use_book(1);
        break;
    case 8:
        now.kind = "bodies cut elsewhere";
        draw_book(one_in(8));
        damage_split();
        use_book(1);
        break;
    default:
        now.kind = "several kinds of damage";
        draw_book(one_in(8));
        if (one_in(2))
            damage_bytes();
        if (one_in(2))
            damage_counts();
        if (one_in(2))
            damage_length();
        use_book(1);
    }
}

/* ---- the sweep */

static void sweep_lengths(void)
{
    /* Some bytes past the most heads; the last number of a field of two bytes. */
    const size_t small = head_place(COMBINATOR_MAX_SEGMENTS) + 52, large = UINT16_MAX;
    size_t n, whole;
    unsigned i, c;
    now.kind = "lengths of a book";
    /* All zero, and all ones: every small length, and near the limits. */
    for (i = 0; i < 2; i++) {
        memset(now.book, i ? 0xff : 0, sizeof now.book);
        for (n = 0; n < sizeof now.book;
             n = n == small ? COMBINATOR_MAX_BOOK - 8 : n == COMBINATOR_MAX_BOOK + 8 ? large - 5 : n == large + 10 ? sizeof now.book - 1 : n + 1) {
            now.book_len = n;
            check_list(SLOTS(3));
            check_record(now.book, SLOTS(1), COMBINATOR_PATH_SIZE);
        }
    }
    /* The worked book at every length, and longer. */
    whole = build_worked(now.book);
    memset(now.book + whole, 0, 40);
    for (n = 0; n < whole + 40; n++) {
        now.book_len = n;
        check_list(SLOTS(4));
    }
    now.kind = "counts of segments";
    memset(now.book, 0, sizeof now.book);
    for (c = COMBINATOR_MAX_SEGMENTS - 4; c < COMBINATOR_MAX_SEGMENTS + 6; c++)
        for (i = 0; i <= c; i += c - i > 3 && i > 3 ? c / 3 : 1) {
            put16(now.book + COMBINATOR_COUNTS_CORES, i);
            put16(now.book + COMBINATOR_COUNTS_NON_CORES, c - i);
            for (n = head_place(c) - 2; n <= head_place(c) + 2; n++) {
                now.book_len = n;
                check_list(SLOTS(2));
            }
        }
    for (i = 0; i < 4; i++) {
        put16(now.book + COMBINATOR_COUNTS_CORES, i & 1 ? UINT16_MAX : 0);
        put16(now.book + COMBINATOR_COUNTS_NON_CORES, i & 2 ? UINT16_MAX : 0);
        for (c = 0; c < 3; c++) {
            put32(now.book + COMBINATOR_COUNTS_BODIES, c == 0 ? 0 : c == 1 ? UINT32_MAX : UINT32_MAX - COMBINATOR_MAX_BOOK);
            for (now.book_len = COMBINATOR_COUNTS_SIZE - 2; now.book_len < head_place(2) + 2; now.book_len++)
                check_list(SLOTS(2));
            now.book_len = COMBINATOR_MAX_BOOK;
            check_list(SLOTS(2));
        }
    }
}

/* A body of `entries` entries, the last with `peers` peers said and `there` present. */
static void sweep_bodies(void)
{
    const unsigned many = COMBINATOR_MAX_PEERS + 2; /* stands for the largest number when said */
    unsigned entries, said, there, off, k;
    now.kind = "entries and peers";
    for (entries = 0; entries <= COMBINATOR_MAX_ENTRIES + 2; entries++)
        for (said = 0; said <= many; said++)
            for (there = 0; there <= many; there++)
                for (off = 0; off < 5; off++) {
                    uint8_t *count, *length;
                    if (entries == 0 && (said || there))
                        continue;
                    build_start(&b);
                    build_segment(&b, 0, 1000000, 1);
                    for (k = 0; k < entries; k++)
                        build_entry(&b, k + 1 == entries ? AS_SOURCE : AS_DESTINATION + (k << 8), 1, 2, k);
                    for (k = 0; k < there; k++)
                        build_peer(&b, AS_DESTINATION, 1, 1, 1, k);
                    if (entries)
                        b.entry[COMBINATOR_ENTRY_PEER_COUNT] = (uint8_t)(said == many ? UINT8_MAX : said);
                    /* The length in the head, and the count, one off or not. */
                    length = b.head + COMBINATOR_HEAD_BODY_LENGTH;
                    count = b.head + COMBINATOR_HEAD_ENTRY_COUNT;
                    put16(length, number16(length) + (off == 1) - (off == 2));
                    put16(count, number16(count) + (off == 3) - (off == 4));
                    now.book_len = build_book(&b, now.book);
                    check_list(SLOTS(10));
                    check_record(now.book, SLOTS(1), COMBINATOR_PATH_SIZE);
                }
    now.kind = "a book at the limit";
    for (k = 0; k < 60; k++) {
        const size_t kept = 700; /* for the last segment */
        size_t left;
        build_start(&b);
        for (entries = 0; head_place(entries + 1) + b.length + FULL_BODY + kept <= COMBINATOR_MAX_BOOK; entries++) {
            build_segment(&b, 0, 1000000, entries);
            for (said = 0; said < COMBINATOR_MAX_ENTRIES; said++) {
                uint64_t leaf = entries % 2 ? AS_SOURCE : AS_DESTINATION, as = AS_DESTINATION + 16 + said;
                build_entry(&b, said + 1 == COMBINATOR_MAX_ENTRIES ? leaf : as, 1, 2, said);
                for (there = 0; there < COMBINATOR_MAX_PEERS; there++)
                    build_peer(&b, as, there, there, 3, there);
            }
        }
        /* Filled up with entries of a last segment, to lengths on both sides of the limit. */
        left = COMBINATOR_MAX_BOOK - head_place(entries + 1) - b.length;
        build_segment(&b, 0, 1000000, entries);
        for (said = 0; said < left / COMBINATOR_ENTRY_SIZE + 1 && said < COMBINATOR_MAX_ENTRIES + k % 2; said++) {
            build_entry(&b, said < 2 ? AS_DESTINATION + said : AS_DESTINATION + (said << 8), 1, 2, said);
            for (there = 0; there < COMBINATOR_MAX_PEERS; there++) {
                if (head_place(entries + 1) + b.length + COMBINATOR_PEER_SIZE + COMBINATOR_ENTRY_SIZE >= COMBINATOR_MAX_BOOK + k)
                    break;
                build_peer(&b, AS_DESTINATION, there, there, 3, there);
            }
        }
        now.book_len = build_book(&b, now.book);
        check_list(COMBINATOR_LIST_SIZE);
    }
}

/* The AS of entry i of a segment of the sweep: of other last bits than the others', of other bits but those, of another ISD, or none of these. */
static uint64_t sweep_as(unsigned how, unsigned i)
{
    switch (how) {
    case 0:
        return AS_DESTINATION + i;
    case 1:
        return AS_DESTINATION + ((uint64_t)i << 6);
    case 2:
        return AS_DESTINATION + ((uint64_t)i << 48);
    default:
        return AS_DESTINATION ^ (UINT64_C(0x9e3779b97f4a7c15) * i << 3);
    }
}

/* Every two of every number of entries: with one AS, and with ASes that differ in a bit. */
static void sweep_twice(void)
{
    unsigned how, core, n, i, j, k, near, bit = 0;
    now.kind = "an AS twice";
    for (how = 0; how < 4; how++)
        for (core = 0; core < 2; core++)
            for (n = 2; n <= COMBINATOR_MAX_ENTRIES; n++)
                for (j = 1; j < n; j++)
                    for (i = 0; i < j; i++)
                        for (near = 0; near < 2; near++) {
                            build_start(&b);
                            build_segment(&b, (int)core, 1000000, 1);
                            for (k = 0; k < n; k++) {
                                build_entry(&b, k == j ? sweep_as(how, i) ^ (near ? UINT64_C(1) << bit++ % 64 : 0) : sweep_as(how, k), 1, 2, k);
                                if ((i + k) % 5 == 0)
                                    build_peer(&b, sweep_as(how, k), 1, 1, 1, k);
                            }
                            now.book_len = build_book(&b, now.book);
                            check_list(SLOTS(10));
                            check_record(now.book, SLOTS(1), COMBINATOR_PATH_SIZE);
                        }
}

/* What is wrong with a body of three. */
enum body { WHOLE, MANY_PEERS, LACKING, REPEATING, REPEATING_MANY_PEERS, REPEATING_LACKING, BODIES };

/* Each of three bodies in each way, as cores and as non-cores; with all heads fit, with a sum that is off, with one head too long. */
static void sweep_order(void)
{
    unsigned bodies, way[3], cores, head, k, i;
    now.kind = "refusals of three bodies";
    for (bodies = 0; bodies < BODIES * BODIES * BODIES; bodies++)
        for (cores = 0; cores <= 3; cores++)
            for (head = 0; head < 5; head++) {
                way[0] = bodies % BODIES, way[1] = bodies / BODIES % BODIES, way[2] = bodies / BODIES / BODIES;
                build_start(&b);
                for (k = 0; k < 3; k++) {
                    build_segment(&b, k < cores, 1000000, k);
                    for (i = 0; i < 3; i++) {
                        build_entry(&b, way[k] >= REPEATING && i == 2 ? AS_SOURCE : AS_SOURCE + i, 1, 2, i);
                        if (i == 2 && (way[k] == MANY_PEERS || way[k] == REPEATING_MANY_PEERS))
                            b.entry[COMBINATOR_ENTRY_PEER_COUNT] = COMBINATOR_MAX_PEERS + 1;
                    }
                    if (way[k] == LACKING || way[k] == REPEATING_LACKING)
                        put16(b.head + COMBINATOR_HEAD_ENTRY_COUNT, 4);
                    if (head == k + 1)
                        put16(b.head + COMBINATOR_HEAD_ENTRY_COUNT, COMBINATOR_MAX_ENTRIES + 1);
                }
                if (head == 4)
                    put16(b.head + COMBINATOR_HEAD_BODY_LENGTH, number16(b.head + COMBINATOR_HEAD_BODY_LENGTH) + 1);
                now.book_len = build_book(&b, now.book);
                check_list(SLOTS(10));
                check_record(now.book, SLOTS(1), COMBINATOR_PATH_SIZE);
            }
}

static void sweep_outputs(void)
{
    size_t n;
    unsigned i;
    static const unsigned sides[][3] = {{1, 0, 1}, {1, 1, 1}, {2, 1, 1}, {4, 4, 4}};
    now.kind = "lengths of an output";
    for (i = 0; i < sizeof sides / sizeof *sides; i++) {
        now.book_len = build_chains(now.book, sides[i][0], sides[i][1], sides[i][2], 0);
        for (n = 0; n < SLOTS(4 * 4 * 4 + 11); n++)
            check_list(n);
    }
    /* As many chains as slots, and more. */
    for (i = 0; i < 2; i++) {
        now.book_len = build_slots(now.book, i, 1);
        for (n = COMBINATOR_LIST_SIZE - SLOTS(1) - 1; n <= COMBINATOR_LIST_SIZE + SLOTS(2); n++)
            check_list(n);
        check_list(0);
        check_list(SLOTS(1) - 1);
        check_list(COMBINATOR_LIST_SIZE + SLOTS(257));
        check_list(MAX_OUT);
    }
    /* Every AS and every link shared: the most work known of a book. */
    for (i = 1; i <= FULL_HALF; i++) {
        now.book_len = build_worst(now.book, i, COMBINATOR_MAX_ENTRIES, COMBINATOR_MAX_PEERS);
        check_list(COMBINATOR_LIST_SIZE);
    }
    now.book_len = build_slots(now.book, 1, 1);
    /* Assembly is not Full, and a record is found among more than there are slots. */
    {
        size_t count;
        const uint8_t *records = model_records(now.src, now.dst, now.book, now.book_len, &count);
        for (n = 0; n < count; n += 311) {
            uint8_t r[SLOTS(1)];
            memcpy(r, records + SLOTS(n), sizeof r);
            check_record(r, sizeof r, COMBINATOR_PATH_SIZE);
        }
    }
    now.book_len = build_worked(now.book);
    now.record_len = 0;
    memcpy(listed, check(LISTING, SLOTS(4), NULL), SLOTS(1));
    for (n = 0; n < 80; n++)
        check_record(listed, SLOTS(1), n);
    for (n = COMBINATOR_PATH_SIZE - 20; n < COMBINATOR_PATH_SIZE + 60; n++)
        check_record(listed, SLOTS(1), n);
    check_record(listed, SLOTS(1), COMBINATOR_LIST_SIZE);
    check_record(listed, SLOTS(1), MAX_OUT);
}

/* The most work to see whether an AS stands twice, in as many entries as a book holds. */
static void sweep_endings(void)
{
    unsigned again;
    now.kind = "ASes of one ending";
    for (again = 0; again < 2; again++) {
        now.book_len = build_one_ending(now.book, COMBINATOR_MAX_SEGMENTS, (int)again);
        if ((check_list(COMBINATOR_LIST_SIZE) == COMBINATOR_TWICE) != (again == 1))
            fail("the sweep's ASes of one ending");
    }
}

/* The most work for routes: as many long lists of interfaces as there are slots, all different or all the same, and lists made to be
 * mistaken for each other. */
static void sweep_dear(void)
{
    unsigned peers;
    now.kind = "dear routes";
    for (peers = 0; peers <= 2; peers += 2) {
        now.book_len = build_long(now.book, peers, 0);
        if (check_list(COMBINATOR_LIST_SIZE) != COMBINATOR_MAX_SOLUTIONS)
            fail("the sweep's longest routes are refused");
        now.book_len = build_long(now.book, peers, 1);
        if (check_list(COMBINATOR_LIST_SIZE) != COMBINATOR_MAX_SOLUTIONS)
            fail("the sweep's copies are refused");
    }
    now.book_len = build_colliding(now.book, FEW_IDS);
    if (check_list(COMBINATOR_LIST_SIZE) != COLLIDING)
        fail("the sweep's routes of one mark");
    now.book_len = build_colliding(now.book, FEW_ASES);
    if (check_list(COMBINATOR_LIST_SIZE) != COLLIDING)
        fail("the sweep's routes of one mark over other ASes");
    now.book_len = build_colliding(now.book, MANY_IDS);
    if (check_list(COMBINATOR_LIST_SIZE) != COMBINATOR_MAX_SOLUTIONS)
        fail("the sweep's many routes of one mark");
}

/* Every byte of every record to every value, and every length of a record. */
static void sweep_records(void)
{
    unsigned book, i, at, value, n;
    now.kind = "records changed";
    for (book = 0; book < 4; book++) {
        uint32_t count;
        const uint8_t *out;
        if (book == 0)
            now.book_len = build_worked(now.book);
        else if (book == 1)
            now.book_len = build_chains(now.book, 2, 2, 1, 1);
        else if (book == 2)
            now.book_len = build_worst(now.book, 1, 3, 2);
        else
            now.book_len = build_few(now.book, 3, 4, 1);
        now.record_len = 0;
        out = check(LISTING, SLOTS(LISTED), &count);
        if (COMBINATOR_IS_REFUSAL(count))
            fail("the sweep's book %u is refused", book);
        n = count < LISTED ? count : LISTED;
        memcpy(listed, out, SLOTS(n));
        for (i = 0; i < n; i += n > 8 ? n / 8 : 1) {
            uint8_t r[SLOTS(2) + 8];
            for (at = 0; at < SLOTS(1); at++)
                for (value = 0; value <= UINT8_MAX; value++) {
                    memcpy(r, listed + SLOTS(i), SLOTS(1));
                    r[at] = (uint8_t)value;
                    check_record(r, SLOTS(1), COMBINATOR_PATH_SIZE);
                }
            memset(r, 0, sizeof r);
            memcpy(r, listed + SLOTS(i), SLOTS(1));
            for (at = 0; at <= sizeof r; at++)
                check_record(r, at, COMBINATOR_PATH_SIZE);
        }
    }
}

static void sweep(void)
{
    now.turn = 0;
    now.src = AS_SOURCE;
    now.dst = AS_DESTINATION;
    state = 1;
    sweep_lengths();
    sweep_bodies();
    sweep_twice();
    sweep_order();
    sweep_endings();
    sweep_outputs();
    sweep_dear();
    sweep_records();
    sweep_wire();
}

static void report(enum kind kind)
{
    const struct longest *l = &longest[kind];
    printf("%s: %" PRIu64 " calls, the longest %.3f ms (turn %" PRIu64 ", %s of %zu bytes, answer %" PRIu32 ")\n", call_name[kind], l->calls,
           (double)l->ns / 1e6, l->turn, given_name[kind], l->len, l->answer);
}

/* The books are neither without an AS that stands twice nor nearly all with one; paths and wires are of every kind. */
static void shares(const char *what)
{
    printf("%s: %" PRIu64 " listings, %" PRIu64 " accepted, %" PRIu64 " refused since an AS stands twice\n", what, listings, accepted, twice);
    if (accepted < listings / 4 || twice < listings / 40 || twice > listings / 2)
        fail("%s: too few or too many of these", what);
    listings = accepted = twice = 0;
    report_wire(what);
}

int fuzz_mode(int args, char **arg)
{
    uint64_t seed, limit, first = 1, turns = 0, start = now_ns();
    unsigned i;
    int seconds;
    if (args > 0 && !strcmp(arg[args - 1], "--undefined")) {
        undefined = 1;
        args--;
    }
    if (args < 2 || args > 3)
        usage("driver fuzz SEED COUNT|SECONDSs [FIRST] [--undefined]");
    seed = strtoull(arg[0], NULL, 10);
    limit = strtoull(arg[1], NULL, 10);
    seconds = strchr(arg[1], 's') != NULL;
    signal(SIGSEGV, fault);
    signal(SIGBUS, fault);
    make_area(&book_area, MAX_BOOK);
    make_area(&record_area, MAX_RECORD);
    make_area(&given_area, MAX_GIVEN);
    make_area(&out_area, MAX_OUT);
    if (args == 3)
        first = strtoull(arg[2], NULL, 10);
    else
        sweep();
    printf("the sweep took %.1f s\n", (double)(now_ns() - start) / 1e9);
    if (args < 3)
        shares("the sweep");
    start = now_ns();
    while (seconds ? now_ns() - start < limit * 1000000000u : turns < limit) {
        turn(seed, first + turns);
        turns++;
    }
    printf("seed %" PRIu64 ", %" PRIu64 " turns: every answer and output as the model's, no byte written beside a buffer%s\n", seed, turns,
           undefined ? "" : ", no call longer than stated");
    /* Of few turns there is no share to speak of. */
    if (turns >= 1000)
        shares("the turns");
    for (i = 0; i < KINDS; i++)
        report((enum kind)i);
    printf("%" PRIu64 " routes; assembly gave %" PRIu64 " paths, %" PRIu64 " loop, %" PRIu64 " bare; refusals", routes, paths, loops, bares);
    for (i = 1; i <= COMBINATOR_LAST_REFUSAL; i++)
        printf(" %u: %" PRIu64, i, refused[i]);
    printf("\n");
    return 0;
}
