/* The fuzzer's paths and wires: paths that assembly left; paths and wires of every count and length, and drawn ones; each with damage of every kind.
 *
 * Beside the model, what comes of two calls is held to what was given: a path that is written and read has its counts, infos and hops and
 * nothing else, and a wire that is read and written is the same bytes. */
#include <inttypes.h>
#include <stdio.h>
#include <string.h>

#include "combinator.h"
#include "common.h"
#include "fuzz.h"
#include "model.h"

/* ---- counts */

#define MOST_FAULTS ((int)PATH_FAULTS > (int)WIRE_FAULTS ? (int)PATH_FAULTS : (int)WIRE_FAULTS)

static const char *const path_fault_name[PATH_FAULTS] = {
    "no info", "many infos", "flags", "no hop of an info", "many hops of an info", "another sum", "cut head", "cut infos", "cut hops", "cut interfaces",
};
static const char *const wire_fault_name[WIRE_FAULTS] = {
    "current info", "current hop", "reserved bits", "no first length", "no length between", "large length",
    "cut", "surplus", "reserved bits of an info", "reserved byte of an info", "flags of a hop",
};

/* Calls with an output that is long enough: taken, refused for one fault alone, or for several; and with one that is not, of a path or wire that
 * would be taken, or would not. A path that is taken may have bytes after it. */
static struct counts {
    uint64_t calls, taken, with_surplus, alone[MOST_FAULTS], several, small, small_and_wrong;
} counts[KINDS];

static size_t least_out(enum kind kind)
{
    return kind == WRITING ? COMBINATOR_WIRE_SIZE : COMBINATOR_PATH_SIZE;
}

static void count(enum kind kind, size_t out_len)
{
    struct counts *c = &counts[kind];
    unsigned faults = kind == WRITING ? model_path_faults(now.given, now.given_len) : model_wire_faults(now.given, now.given_len), i;
    c->calls++;
    if (out_len < least_out(kind)) {
        c->small += !faults;
        c->small_and_wrong += faults != 0;
    } else if (!faults) {
        c->taken++;
        c->with_surplus += kind == WRITING && now.given_len > path_length(now.given);
    } else if (faults & (faults - 1)) {
        c->several++;
    } else {
        for (i = 0; faults != 1u << i;)
            i++;
        c->alone[i]++;
    }
}

static void report_calls(const char *what, enum kind kind, const char *const fault_name[], int faults)
{
    struct counts *c = &counts[kind];
    int i, missing = !c->taken || !c->several || !c->small || !c->small_and_wrong || (kind == WRITING && !c->with_surplus);
    printf("%s: %" PRIu64 " %s, %" PRIu64 " taken", what, c->calls, kind == WRITING ? "paths to write" : "wires to read", c->taken);
    if (kind == WRITING)
        printf(" (%" PRIu64 " with bytes after them)", c->with_surplus);
    printf(", %" PRIu64 " small, %" PRIu64 " small and wrong, %" PRIu64 " wrong in several ways; in one alone", c->small, c->small_and_wrong, c->several);
    for (i = 0; i < faults; i++) {
        printf("%s %s: %" PRIu64, i ? "," : "", fault_name[i], c->alone[i]);
        missing |= !c->alone[i];
    }
    printf("\n");
    if (missing)
        fail("%s: one of these never came", what);
    memset(c, 0, sizeof *c);
}

void report_wire(const char *what)
{
    report_calls(what, WRITING, path_fault_name, PATH_FAULTS);
    report_calls(what, READING, wire_fault_name, WIRE_FAULTS);
}

/* ---- calls */

/* Of a path of these counts: the bytes of its infos and hops. */
static size_t carried(const uint8_t *path)
{
    return COMBINATOR_INFO_SIZE * (size_t)path[COMBINATOR_PATH_INFO_COUNT] + COMBINATOR_HOP_SIZE * (size_t)path[COMBINATOR_PATH_HOP_COUNT];
}

/* The wire that a path was just written to is read. */
static void read_back(const uint8_t *wire, uint32_t wire_len)
{
    static uint8_t path[MAX_GIVEN];
    const uint8_t *out;
    uint32_t answer;
    size_t i, n;
    memcpy(path, now.given, now.given_len);
    n = COMBINATOR_PATH_HEAD_SIZE + carried(path);
    memcpy(now.given, wire, wire_len);
    now.given_len = wire_len;
    out = check(READING, COMBINATOR_PATH_SIZE, &answer);
    if (answer != n || out[COMBINATOR_PATH_INFO_COUNT] != path[COMBINATOR_PATH_INFO_COUNT] ||
        out[COMBINATOR_PATH_HOP_COUNT] != path[COMBINATOR_PATH_HOP_COUNT] ||
        memcmp(path_infos(out), path_infos(path), n - COMBINATOR_PATH_HEAD_SIZE))
        wrong(READING, "other infos or hops than were written", COMBINATOR_PATH_SIZE, answer, (uint32_t)n);
    for (i = COMBINATOR_PATH_INTERFACE_COUNT; i < COMBINATOR_PATH_SIZE; i = i + 1 == COMBINATOR_PATH_HEAD_SIZE ? n : i + 1)
        if (out[i])
            wrong(READING, "more than infos and hops", COMBINATOR_PATH_SIZE, answer, (uint32_t)n);
}

/* The path that a wire was just read to is written. */
static void write_back(const uint8_t *path, uint32_t path_len)
{
    static uint8_t wire[MAX_GIVEN];
    size_t wire_len = now.given_len;
    const uint8_t *out;
    uint32_t answer;
    memcpy(wire, now.given, wire_len);
    memcpy(now.given, path, path_len);
    now.given_len = path_len;
    out = check(WRITING, COMBINATOR_WIRE_SIZE, &answer);
    if (answer != wire_len || memcmp(out, wire, wire_len))
        wrong(WRITING, "other bytes than were read", COMBINATOR_WIRE_SIZE, answer, (uint32_t)wire_len);
}

/* Writing or reading, and back again where it is not refused. */
static uint32_t ask(enum kind kind, const uint8_t *given, size_t len, size_t out_len)
{
    const uint8_t *out;
    uint32_t answer;
    if (len)
        memmove(now.given, given, len);
    now.given_len = len;
    count(kind, out_len);
    out = check(kind, out_len, &answer);
    if (!COMBINATOR_IS_REFUSAL(answer)) {
        if (kind == WRITING)
            read_back(out, answer);
        else
            write_back(out, answer);
    }
    return answer;
}

static void ask_usual(enum kind kind, const uint8_t *given, size_t len)
{
    ask(kind, given, len, least_out(kind));
}

/* ---- paths and wires of given counts */

/* Every byte drawn but the counts and flags, which are in order. Its length. */
static size_t make_path(uint8_t *path, unsigned infos, const unsigned hops_of[], unsigned hops, unsigned interfaces)
{
    size_t len, i;
    path[COMBINATOR_PATH_INFO_COUNT] = (uint8_t)infos;
    path[COMBINATOR_PATH_HOP_COUNT] = (uint8_t)hops;
    path[COMBINATOR_PATH_INTERFACE_COUNT] = (uint8_t)interfaces;
    len = path_length(path);
    for (i = COMBINATOR_PATH_INTERFACE_COUNT + 1; i < len; i++)
        path[i] = (uint8_t)draw();
    for (i = 0; i < infos; i++) {
        uint8_t *info = path + COMBINATOR_PATH_HEAD_SIZE + COMBINATOR_INFO_SIZE * i;
        info[COMBINATOR_INFO_FLAGS] &= COMBINATOR_CONSTRUCTION + COMBINATOR_PEERING;
        info[COMBINATOR_INFO_HOP_COUNT] = (uint8_t)hops_of[i];
    }
    return len;
}

static uint8_t *wire_info(uint8_t *wire, unsigned index)
{
    return wire + COMBINATOR_WIRE_META_SIZE + COMBINATOR_WIRE_INFO_SIZE * index;
}

static uint8_t *wire_hop(uint8_t *wire, unsigned infos, unsigned index)
{
    return wire_info(wire, infos) + COMBINATOR_WIRE_HOP_SIZE * index;
}

/* The meta header as a number: the bits of a length, the largest one; where the lengths, the reserved bits, the current hop and the current info
 * begin, and their end. */
#define LENGTH_BITS 6
#define LENGTH_MOST 63u
#define META_BITS (8 * COMBINATOR_WIRE_META_SIZE)
static const unsigned meta_field[] = {0, 3 * LENGTH_BITS, 24, 30, META_BITS};
#define META_FIELDS (sizeof meta_field / sizeof *meta_field - 1)

static unsigned sum_of(const unsigned length[COMBINATOR_MAX_EDGES])
{
    unsigned sum = 0, i;
    for (i = 0; i < COMBINATOR_MAX_EDGES; i++)
        sum += length[i];
    return sum;
}

static unsigned used_of(const unsigned length[COMBINATOR_MAX_EDGES])
{
    unsigned used = 0, i;
    for (i = 0; i < COMBINATOR_MAX_EDGES; i++)
        used += length[i] > 0;
    return used;
}

/* As many infos as are said, and hops as the lengths say. Its length. */
static size_t make_wire(uint8_t *wire, const unsigned length[COMBINATOR_MAX_EDGES], unsigned infos)
{
    unsigned hops = sum_of(length), i;
    uint32_t meta = 0;
    size_t len = (size_t)(wire_hop(wire, infos, hops) - wire), k;
    for (k = COMBINATOR_WIRE_META_SIZE; k < len; k++)
        wire[k] = (uint8_t)draw();
    for (i = 0; i < COMBINATOR_MAX_EDGES; i++)
        meta = meta << LENGTH_BITS | length[i];
    put32(wire, meta);
    for (i = 0; i < infos; i++) {
        wire_info(wire, i)[COMBINATOR_WIRE_INFO_FLAGS] &= COMBINATOR_CONSTRUCTION + COMBINATOR_PEERING;
        wire_info(wire, i)[COMBINATOR_WIRE_INFO_RESERVED] = 0;
    }
    for (i = 0; i < hops; i++)
        wire_hop(wire, infos, i)[COMBINATOR_WIRE_HOP_FLAGS] = 0;
    return len;
}

/* ---- turns */

static uint8_t made[MAX_GIVEN];

static size_t some_room(enum kind kind)
{
    switch (pick(8)) {
    case 0:
        return least_out(kind) - 1;
    case 1:
        return pick((unsigned)least_out(kind));
    case 2:
        return least_out(kind) + pick(40);
    case 3:
        return COMBINATOR_WIRE_SIZE - 1 + pick(3);
    case 4:
        return COMBINATOR_PATH_SIZE - 1 + pick(3);
    default:
        return least_out(kind);
    }
}

/* Cut within the head, the infos, the hops or the interfaces; or longer. */
static size_t other_path_length(uint8_t *path, size_t len)
{
    size_t part[5];
    unsigned k = pick(5), n;
    part[0] = 0;
    part[1] = COMBINATOR_PATH_HEAD_SIZE;
    part[2] = (size_t)(path_hops(path) - path);
    part[3] = (size_t)(path_ases(path) - path);
    part[4] = len;
    if (k < 4)
        return part[k] < part[k + 1] ? part[k] + pick((unsigned)(part[k + 1] - part[k])) : len;
    for (n = 1 + pick(40); n > 0; n--)
        path[len++] = (uint8_t)draw();
    return len;
}

/* One byte of a path: a count, an info's flags or hop count, or any. */
static void change_path(uint8_t *path, size_t len)
{
    unsigned infos = path[COMBINATOR_PATH_INFO_COUNT];
    uint8_t *info = path + COMBINATOR_PATH_HEAD_SIZE + COMBINATOR_INFO_SIZE * (infos ? pick(infos) : 0), *at;
    switch (pick(4)) {
    case 0:
        at = path + pick(COMBINATOR_PATH_INTERFACE_COUNT + 1);
        break;
    case 1:
        at = info + (one_in(2) ? COMBINATOR_INFO_FLAGS : COMBINATOR_INFO_HOP_COUNT);
        break;
    default:
        at = path + pick((unsigned)len);
    }
    if (at >= path + len)
        return;
    *at = (uint8_t)(one_in(3) ? draw() : one_in(2) ? *at + 1u : *at - 1u);
}

/* A bit of the meta header; or a byte or bit of a wire, of flags and reserved bytes, or any. */
static void change_wire(uint8_t *wire, size_t len)
{
    unsigned length[COMBINATOR_MAX_EDGES], i;
    uint32_t meta = number32(wire), lengths = meta;
    uint8_t *at;
    for (i = COMBINATOR_MAX_EDGES; i-- > 0; lengths >>= LENGTH_BITS)
        length[i] = lengths & LENGTH_MOST;
    switch (pick(7)) {
    case 0:
    case 6:
        i = pick(META_FIELDS);
        put32(wire, meta ^ UINT32_C(1) << (meta_field[i] + pick(meta_field[i + 1] - meta_field[i])));
        return;
    case 1:
        at = wire_info(wire, pick(used_of(length) + 1)) + COMBINATOR_WIRE_INFO_FLAGS;
        break;
    case 2:
        at = wire_info(wire, pick(used_of(length) + 1)) + COMBINATOR_WIRE_INFO_RESERVED;
        break;
    case 3:
    case 4:
        at = wire_hop(wire, used_of(length), pick(sum_of(length) + 1)) + COMBINATOR_WIRE_HOP_FLAGS;
        break;
    default:
        at = wire + pick((unsigned)len);
    }
    if (at < wire + len)
        *at = (uint8_t)(one_in(3) ? draw() : *at ^ 1u << pick(8));
}

static size_t other_wire_length(uint8_t *wire, size_t len)
{
    unsigned n;
    if (one_in(2))
        return one_in(2) && len ? len - 1 : pick((unsigned)len + 1);
    for (n = 1 + pick(one_in(2) ? 2 : 40); n > 0; n--)
        wire[len++] = (uint8_t)(one_in(2) ? 0 : draw());
    return len;
}

static void damage_and_ask(enum kind kind, size_t len)
{
    if (one_in(2) && len) {
        if (kind == WRITING)
            change_path(made, len);
        else
            change_wire(made, len);
    }
    if (one_in(4))
        len = kind == WRITING ? other_path_length(made, len) : other_wire_length(made, len);
    ask(kind, made, len, one_in(4) ? some_room(kind) : least_out(kind));
}

void use_path(const uint8_t *path)
{
    uint8_t wire[COMBINATOR_WIRE_SIZE];
    size_t len = path_length(path), wire_len;
    uint32_t answer = ask(WRITING, path, len, COMBINATOR_WIRE_SIZE);
    if (COMBINATOR_IS_REFUSAL(answer))
        wrong(WRITING, "a path that assembly left is refused", COMBINATOR_WIRE_SIZE, answer, answer);
    /* The whole output of assembly. */
    ask(WRITING, path, COMBINATOR_PATH_SIZE, some_room(WRITING));
    memcpy(made, path, len);
    damage_and_ask(WRITING, len);
    wire_len = model_write(path, len, wire, sizeof wire);
    ask(READING, wire, wire_len, some_room(READING));
    memcpy(made, wire, wire_len);
    damage_and_ask(READING, wire_len);
}

#define DRAWS 16 /* of a turn */

/* Infos, hops of each and their sum as a rule as they may be, and one or the other as they may not. */
static size_t draw_path(void)
{
    unsigned hops_of[COMBINATOR_MAX_EDGES + 3], infos = 1 + pick(COMBINATOR_MAX_EDGES), sum = 0, i;
    if (one_in(8))
        infos = one_in(2) ? 0 : COMBINATOR_MAX_EDGES + 1 + pick(3);
    for (i = 0; i < infos; i++)
        sum += hops_of[i] = 1 + pick(one_in(3) ? COMBINATOR_MAX_ENTRIES : 4);
    if (infos && one_in(6)) {
        i = pick(infos);
        sum -= hops_of[i];
        sum += hops_of[i] = one_in(2) ? 0 : COMBINATOR_MAX_ENTRIES + 1 + pick(one_in(2) ? 2 : 100);
    }
    if (one_in(10))
        sum = one_in(2) && sum ? sum - 1 : sum + 1;
    return make_path(made, infos, hops_of, sum & UINT8_MAX, one_in(2) ? pick(6) : pick(COMBINATOR_MAX_INTERFACES + 3));
}

void turn_path(void)
{
    unsigned i;
    now.kind = "paths drawn";
    for (i = 0; i < DRAWS; i++)
        damage_and_ask(WRITING, draw_path());
}

/* Lengths as a rule as they may be; the infos that are used, or one more or less. */
static size_t draw_wire(void)
{
    unsigned length[COMBINATOR_MAX_EDGES] = {0}, infos = 1 + pick(COMBINATOR_MAX_EDGES), i;
    for (i = 0; i < infos; i++)
        length[i] = 1 + pick(one_in(3) ? COMBINATOR_MAX_ENTRIES : 4);
    if (one_in(8)) {
        /* The first is 0, or one that a used one follows. */
        i = pick(COMBINATOR_MAX_EDGES - 1);
        length[i] = 0;
        length[i + 1] = 1 + pick(4);
    } else if (one_in(8)) {
        length[pick(infos)] = COMBINATOR_MAX_ENTRIES + 1 + pick(one_in(2) ? 2 : LENGTH_MOST - COMBINATOR_MAX_ENTRIES);
    }
    return make_wire(made, length, one_in(12) ? pick(COMBINATOR_MAX_EDGES + 1) : used_of(length));
}

void turn_wire(void)
{
    unsigned i;
    now.kind = "wires drawn";
    for (i = 0; i < DRAWS; i++)
        damage_and_ask(READING, draw_wire());
}

/* ---- the sweep */

#define E COMBINATOR_MAX_ENTRIES
static const unsigned shapes[][COMBINATOR_MAX_EDGES] = {{1}, {2}, {E}, {1, 1}, {2, E}, {E, 1}, {3, 1, 2}, {1, 1, 1}, {E, E, E}};
#define SHAPES (sizeof shapes / sizeof *shapes)

/* May a value of this byte make a path, or a wire, be refused? Of hops on the wire just the first one's. */
static int decides_path(size_t n, unsigned infos)
{
    return n <= COMBINATOR_PATH_INTERFACE_COUNT || (n >= COMBINATOR_PATH_HEAD_SIZE && (n - COMBINATOR_PATH_HEAD_SIZE) / COMBINATOR_INFO_SIZE < infos &&
                                                    (n - COMBINATOR_PATH_HEAD_SIZE) % COMBINATOR_INFO_SIZE <= COMBINATOR_INFO_HOP_COUNT);
}

static int decides_wire(size_t n, unsigned infos)
{
    size_t k = n - COMBINATOR_WIRE_META_SIZE;
    return n < COMBINATOR_WIRE_META_SIZE || (k / COMBINATOR_WIRE_INFO_SIZE < infos && k % COMBINATOR_WIRE_INFO_SIZE <= COMBINATOR_WIRE_INFO_RESERVED) ||
           k == COMBINATOR_WIRE_INFO_SIZE * infos + COMBINATOR_WIRE_HOP_FLAGS;
}

/* Every length of a path and of its wire; every byte to some values, and to every value where it decides. */
static void sweep_bytes(const unsigned shape[COMBINATOR_MAX_EDGES], unsigned interfaces)
{
    static uint8_t given[MAX_GIVEN];
    uint8_t wire[COMBINATOR_WIRE_SIZE];
    unsigned infos = used_of(shape), value;
    size_t len = make_path(given, infos, shape, sum_of(shape), interfaces), wire_len = model_write(given, len, wire, sizeof wire), n;
    now.kind = "lengths of a path";
    for (n = len; n < len + 20; n++)
        given[n] = (uint8_t)draw();
    for (n = 0; n < len + 20; n++)
        ask_usual(WRITING, given, n);
    now.kind = "bytes of a path";
    for (n = 0; n < len; n++)
        for (value = 0; value <= UINT8_MAX; value += decides_path(n, infos) ? 1 : 85) {
            memcpy(made, given, len);
            made[n] = (uint8_t)value;
            ask_usual(WRITING, made, len);
        }
    now.kind = "lengths of a wire";
    memcpy(made, wire, wire_len);
    for (n = wire_len; n < wire_len + 20; n++)
        made[n] = n % 2 ? (uint8_t)draw() : 0;
    for (n = 0; n < wire_len + 20; n++)
        ask_usual(READING, made, n);
    now.kind = "bytes of a wire";
    for (n = 0; n < wire_len; n++)
        for (value = 0; value <= UINT8_MAX; value += decides_wire(n, infos) ? 1 : 51) {
            memcpy(made, wire, wire_len);
            made[n] = (uint8_t)value;
            ask_usual(READING, made, wire_len);
        }
}

/* Every two bits of the meta header. */
static void sweep_meta(void)
{
    const unsigned shape[COMBINATOR_MAX_EDGES] = {3, 1, 2};
    size_t len = make_wire(made, shape, used_of(shape));
    uint32_t meta = number32(made);
    unsigned i, j;
    now.kind = "bits of a meta header";
    for (i = 0; i < META_BITS; i++)
        for (j = 0; j <= i; j++) {
            put32(made, meta ^ (UINT32_C(1) << i | UINT32_C(1) << j));
            ask_usual(READING, made, len);
        }
}

/* Numbers of hops around both ends of what an info may have, and the largest that a byte and a length hold. */
static const unsigned around[] = {0, 1, 2, E - 1, E, E + 1, E + 2, LENGTH_MOST, LENGTH_MOST + 1, UINT8_MAX};
#define AROUND (sizeof around / sizeof *around)

static void sweep_counts(void)
{
    unsigned hops_of[UINT8_MAX], infos, sum, off, i, k;
    size_t n;
    now.kind = "hop counts of a path";
    for (infos = 1, n = AROUND; infos <= COMBINATOR_MAX_EDGES; infos++, n *= AROUND)
        for (i = 0; i < n; i++) {
            hops_of[0] = around[i % AROUND];
            hops_of[1] = around[i / AROUND % AROUND];
            hops_of[2] = around[i / AROUND / AROUND];
            for (k = 0, sum = 0; k < infos; k++)
                sum += hops_of[k];
            for (off = 0; off < 3; off++)
                ask_usual(WRITING, made, make_path(made, infos, hops_of, (sum + off - 1) & UINT8_MAX, 1));
        }
    /* Any count of infos of one hop each, any of hops, any of interfaces. */
    now.kind = "counts of a path";
    for (i = 0; i < UINT8_MAX; i++)
        hops_of[i] = 1;
    for (i = 0; i <= UINT8_MAX; i++) {
        for (k = 0; k <= UINT8_MAX; k += 85)
            ask_usual(WRITING, made, make_path(made, i < UINT8_MAX ? i : 0, hops_of, i, k));
        ask_usual(WRITING, made, make_path(made, 2, hops_of, i, 0));
        n = make_path(made, 2, hops_of, 2, i);
        ask_usual(WRITING, made, n);
        ask_usual(WRITING, made, n - 1);
    }
}

/* Every three lengths around their ends, with as many infos as are used and with others, a byte more and less. */
static void sweep_lengths_of_segments(void)
{
    unsigned length[COMBINATOR_MAX_EDGES], infos, i;
    size_t len;
    now.kind = "lengths of segments";
    for (i = 0; i < AROUND * AROUND * AROUND; i++) {
        length[0] = around[i % AROUND];
        length[1] = around[i / AROUND % AROUND];
        length[2] = around[i / AROUND / AROUND];
        if (length[0] > LENGTH_MOST || length[1] > LENGTH_MOST || length[2] > LENGTH_MOST)
            continue;
        for (infos = 0; infos <= COMBINATOR_MAX_EDGES; infos++) {
            len = make_wire(made, length, infos);
            ask_usual(READING, made, len);
            made[len] = 0;
            ask_usual(READING, made, len + 1);
            ask_usual(READING, made, len - 1);
        }
    }
}

/* Every output length near both least ones, of what is taken and of what is not. */
static void sweep_rooms(void)
{
    const unsigned shape[COMBINATOR_MAX_EDGES] = {E, E, E};
    const size_t rooms[] = {0, COMBINATOR_WIRE_SIZE, COMBINATOR_PATH_SIZE, MAX_OUT};
    enum kind kind;
    unsigned r, whole;
    size_t len, n;
    now.kind = "lengths of an output";
    for (kind = WRITING; kind <= READING; kind++)
        for (whole = 0; whole < 2; whole++) {
            len = kind == WRITING ? make_path(made, used_of(shape), shape, sum_of(shape), COMBINATOR_MAX_INTERFACES)
                                  : make_wire(made, shape, used_of(shape));
            for (r = 0; r < sizeof rooms / sizeof *rooms; r++)
                for (n = rooms[r] < 40 ? 0 : rooms[r] - 40; n <= rooms[r] + 40 && n <= MAX_OUT; n++)
                    ask(kind, made, whole ? len : len - 1, n);
        }
}

void sweep_wire(void)
{
    unsigned i;
    for (i = 0; i < SHAPES; i++)
        sweep_bytes(shapes[i], i % 3 == 0 ? 2 : i % 3 == 1 ? 0 : COMBINATOR_MAX_INTERFACES);
    sweep_meta();
    sweep_counts();
    sweep_lengths_of_segments();
    sweep_rooms();
}
