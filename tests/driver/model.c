#include "model.h"

#include <stdlib.h>
#include <string.h>

#include "common.h"

/* ---- SHA-256, FIPS 180-4 */

static const uint32_t K[64] = {
    0x428a2f98, 0x71374491, 0xb5c0fbcf, 0xe9b5dba5, 0x3956c25b, 0x59f111f1, 0x923f82a4, 0xab1c5ed5, 0xd807aa98, 0x12835b01, 0x243185be,
    0x550c7dc3, 0x72be5d74, 0x80deb1fe, 0x9bdc06a7, 0xc19bf174, 0xe49b69c1, 0xefbe4786, 0x0fc19dc6, 0x240ca1cc, 0x2de92c6f, 0x4a7484aa,
    0x5cb0a9dc, 0x76f988da, 0x983e5152, 0xa831c66d, 0xb00327c8, 0xbf597fc7, 0xc6e00bf3, 0xd5a79147, 0x06ca6351, 0x14292967, 0x27b70a85,
    0x2e1b2138, 0x4d2c6dfc, 0x53380d13, 0x650a7354, 0x766a0abb, 0x81c2c92e, 0x92722c85, 0xa2bfe8a1, 0xa81a664b, 0xc24b8b70, 0xc76c51a3,
    0xd192e819, 0xd6990624, 0xf40e3585, 0x106aa070, 0x19a4c116, 0x1e376c08, 0x2748774c, 0x34b0bcb5, 0x391c0cb3, 0x4ed8aa4a, 0x5b9cca4f,
    0x682e6ff3, 0x748f82ee, 0x78a5636f, 0x84c87814, 0x8cc70208, 0x90befffa, 0xa4506ceb, 0xbef9a3f7, 0xc67178f2,
};

static uint32_t rotate(uint32_t x, int n)
{
    return x >> n | x << (32 - n);
}

static void block(uint32_t h[8], const uint8_t *p)
{
    uint32_t w[64], s[8];
    int t;
    for (t = 0; t < 16; t++)
        w[t] = number32(p + 4 * t);
    for (; t < 64; t++) {
        uint32_t a = w[t - 15], b = w[t - 2];
        w[t] = w[t - 16] + (rotate(a, 7) ^ rotate(a, 18) ^ a >> 3) + w[t - 7] + (rotate(b, 17) ^ rotate(b, 19) ^ b >> 10);
    }
    memcpy(s, h, sizeof s);
    for (t = 0; t < 64; t++) {
        uint32_t e = s[4], a = s[0];
        uint32_t t1 = s[7] + (rotate(e, 6) ^ rotate(e, 11) ^ rotate(e, 25)) + ((e & s[5]) ^ (~e & s[6])) + K[t] + w[t];
        uint32_t t2 = (rotate(a, 2) ^ rotate(a, 13) ^ rotate(a, 22)) + ((a & s[1]) ^ (a & s[2]) ^ (s[1] & s[2]));
        memmove(s + 1, s, 7 * sizeof *s);
        s[4] += t1;
        s[0] = t1 + t2;
    }
    for (t = 0; t < 8; t++)
        h[t] += s[t];
}

static void sha256(const uint8_t *data, size_t len, uint8_t digest[DIGEST_SIZE])
{
    uint32_t h[8] = {0x6a09e667, 0xbb67ae85, 0x3c6ef372, 0xa54ff53a, 0x510e527f, 0x9b05688c, 0x1f83d9ab, 0x5be0cd19};
    uint8_t last[128] = {0};
    size_t whole = len / 64 * 64, rest = len - whole, end = rest < 56 ? 64 : 128, i;
    for (i = 0; i < whole; i += 64)
        block(h, data + i);
    memcpy(last, data + whole, rest);
    last[rest] = 0x80;
    put64(last + end - 8, (uint64_t)len * 8);
    for (i = 0; i < end; i += 64)
        block(h, last + i);
    for (i = 0; i < 8; i++)
        put32(digest + 4 * i, h[i]);
}

/* ---- the book: docs/SPECIFICATION.md 9.3 */

static unsigned segments_of(const uint8_t *book)
{
    return number16(book + COMBINATOR_COUNTS_CORES) + number16(book + COMBINATOR_COUNTS_NON_CORES);
}

static const uint8_t *head_of(const uint8_t *book, unsigned position)
{
    return book + COMBINATOR_COUNTS_SIZE + COMBINATOR_HEAD_SIZE * position;
}

/* The refusal of a body, or 0: first its bytes, then its ASes. */
static uint32_t body_verdict(const uint8_t *body, size_t left, unsigned entries)
{
    uint64_t as[COMBINATOR_MAX_ENTRIES];
    unsigned i, j;
    for (i = 0; i < entries; i++) {
        unsigned peers;
        if (left < COMBINATOR_ENTRY_SIZE)
            return COMBINATOR_MISFIT;
        as[i] = number64(body + COMBINATOR_ENTRY_AS);
        peers = body[COMBINATOR_ENTRY_PEER_COUNT];
        if (peers > COMBINATOR_MAX_PEERS)
            return COMBINATOR_PEERS;
        body += COMBINATOR_ENTRY_SIZE;
        left -= COMBINATOR_ENTRY_SIZE;
        if (left < COMBINATOR_PEER_SIZE * peers)
            return COMBINATOR_MISFIT;
        body += COMBINATOR_PEER_SIZE * peers;
        left -= COMBINATOR_PEER_SIZE * peers;
    }
    if (left)
        return COMBINATOR_MISFIT;
    for (i = 0; i < entries; i++)
        for (j = 0; j < i; j++)
            if (as[j] == as[i])
                return COMBINATOR_TWICE;
    return 0;
}

/* The refusal of a book, or 0. */
static uint32_t verdict(const uint8_t *book, size_t len)
{
    unsigned count, p;
    uint64_t total, sum = 0;
    const uint8_t *body;
    if (len > COMBINATOR_MAX_BOOK)
        return COMBINATOR_OVERSIZE;
    if (len < COMBINATOR_COUNTS_SIZE)
        return COMBINATOR_CUT;
    count = segments_of(book);
    total = number32(book + COMBINATOR_COUNTS_BODIES);
    if (count > COMBINATOR_MAX_SEGMENTS)
        return COMBINATOR_CROWDED;
    if (len < COMBINATOR_COUNTS_SIZE + COMBINATOR_HEAD_SIZE * count + total)
        return COMBINATOR_CUT;
    if (len > COMBINATOR_COUNTS_SIZE + COMBINATOR_HEAD_SIZE * count + total)
        return COMBINATOR_SURPLUS;
    for (p = 0; p < count; p++) {
        if (number16(head_of(book, p) + COMBINATOR_HEAD_ENTRY_COUNT) > COMBINATOR_MAX_ENTRIES)
            return COMBINATOR_LONG;
        sum += number16(head_of(book, p) + COMBINATOR_HEAD_BODY_LENGTH);
    }
    if (sum != total)
        return COMBINATOR_MISFIT;
    for (p = 0, body = head_of(book, count); p < count; p++) {
        size_t length = number16(head_of(book, p) + COMBINATOR_HEAD_BODY_LENGTH);
        uint32_t refusal = body_verdict(body, length, number16(head_of(book, p) + COMBINATOR_HEAD_ENTRY_COUNT));
        if (refusal)
            return refusal;
        body += length;
    }
    return 0;
}

/* ---- stored edges: docs/SPECIFICATION.md 3 */

/* An AS, or a peering end. */
struct vertex {
    int peering;
    uint64_t local;
    unsigned local_interface;
    uint64_t peer;
    unsigned peer_interface;
};

struct edge {
    unsigned position, shortcut, weight;
    int peer; /* -1 for none */
    struct vertex start, end;
};

struct chain {
    unsigned edges, cost;
    const struct edge *edge[COMBINATOR_MAX_EDGES];
};

/* What was worked out of one source, destination and book. */
static struct {
    int known;
    uint64_t src, dst;
    uint8_t book[COMBINATOR_MAX_BOOK];
    size_t len;
    unsigned count;
    struct segment segment[COMBINATOR_MAX_SEGMENTS];
    struct edge *edge; /* by start */
    size_t edges, edge_room;
    struct chain *chain;
    size_t chains, chain_room;
    uint8_t *record;
    int routes_known;
    struct route *route;
    size_t routes, route_room;
} m;

static struct vertex as_vertex(uint64_t as)
{
    struct vertex v = {0, 0, 0, 0, 0};
    v.local = as;
    return v;
}

static struct vertex peering(uint64_t local, unsigned local_interface, uint64_t peer, unsigned peer_interface)
{
    struct vertex v;
    v.peering = 1;
    v.local = local;
    v.local_interface = local_interface;
    v.peer = peer;
    v.peer_interface = peer_interface;
    return v;
}

static int compare(uint64_t a, uint64_t b)
{
    return (a > b) - (a < b);
}

static int compare_vertices(const struct vertex *a, const struct vertex *b)
{
    int c = compare((uint64_t)a->peering, (uint64_t)b->peering);
    if (!c)
        c = compare(a->local, b->local);
    if (!c)
        c = compare(a->local_interface, b->local_interface);
    if (!c)
        c = compare(a->peer, b->peer);
    if (!c)
        c = compare(a->peer_interface, b->peer_interface);
    return c;
}

/* Of edges of one segment (those from `from` on) with equal ends, which are peers of one entry or a core of one entry, the last stands. */
static void store(size_t from, unsigned position, struct vertex start, struct vertex end, unsigned shortcut, int peer, unsigned weight)
{
    size_t i;
    for (i = from; i < m.edges; i++)
        if (!compare_vertices(&m.edge[i].start, &start) && !compare_vertices(&m.edge[i].end, &end))
            break;
    if (i == m.edges) {
        if (m.edges == m.edge_room)
            m.edge = grow(m.edge, &m.edge_room, sizeof *m.edge);
        m.edges++;
    }
    m.edge[i].position = position;
    m.edge[i].start = start;
    m.edge[i].end = end;
    m.edge[i].shortcut = shortcut;
    m.edge[i].peer = peer;
    m.edge[i].weight = weight;
}

static void store_segment(unsigned position)
{
    const struct segment *s = &m.segment[position];
    unsigned n = s->entries, i, p;
    size_t from = m.edges;
    struct vertex leaf;
    if (n == 0)
        return;
    leaf = as_vertex(s->entry[n - 1].as);
    if (s->core) {
        struct vertex first = as_vertex(s->entry[0].as);
        store(from, position, first, leaf, 0, -1, n - 1);
        store(from, position, leaf, first, 0, -1, n - 1);
        return;
    }
    for (i = n; i-- > 0;) {
        const struct entry *e = &s->entry[i];
        if (i < n - 1) {
            store(from, position, leaf, as_vertex(e->as), i, -1, n - 1 - i);
            store(from, position, as_vertex(e->as), leaf, i, -1, n - 1 - i);
        }
        for (p = 0; p < e->peers; p++) {
            const struct peer *q = &e->peer[p];
            store(from, position, leaf, peering(e->as, q->hop.ingress, q->as, q->interface), i, (int)p, n - i);
            store(from, position, peering(q->as, q->interface, e->as, q->hop.ingress), leaf, i, (int)p, n - 1 - i);
        }
    }
}

static int by_start(const void *a, const void *b)
{
    return compare_vertices(&((const struct edge *)a)->start, &((const struct edge *)b)->start);
}

/* ---- chains: docs/SPECIFICATION.md 4 */

/* The first edge that leaves v, if any does. */
static size_t first_from(const struct vertex *v)
{
    size_t low = 0, high = m.edges;
    while (low < high) {
        size_t middle = (low + high) / 2;
        if (compare_vertices(&m.edge[middle].start, v) < 0)
            low = middle + 1;
        else
            high = middle;
    }
    return low;
}

static int core(const struct edge *e)
{
    return m.segment[e->position].core;
}

/* One of any kind; two, not both core; three, only non-core, core, non-core. */
static int allowed(const struct chain *c)
{
    switch (c->edges) {
    case 1:
        return 1;
    case 2:
        return !(core(c->edge[0]) && core(c->edge[1]));
    default:
        return !core(c->edge[0]) && core(c->edge[1]) && !core(c->edge[2]);
    }
}

/* Every chain that begins with `c`, which stands at `at`. */
static void extend(const struct chain *c, const struct vertex *at)
{
    struct vertex destination = as_vertex(m.dst);
    size_t i;
    for (i = first_from(at); i < m.edges && !compare_vertices(&m.edge[i].start, at); i++) {
        struct chain longer = *c;
        longer.edge[longer.edges++] = &m.edge[i];
        longer.cost += m.edge[i].weight;
        if (!allowed(&longer))
            continue;
        if (!compare_vertices(&m.edge[i].end, &destination)) {
            if (m.chains == m.chain_room)
                m.chain = grow(m.chain, &m.chain_room, sizeof *m.chain);
            m.chain[m.chains++] = longer;
        } else if (longer.edges < COMBINATOR_MAX_EDGES) {
            extend(&longer, &m.edge[i].end);
        }
    }
}

/* ---- order: docs/SPECIFICATION.md 5 */

static int in_order(const void *x, const void *y)
{
    const struct chain *a = x, *b = y;
    unsigned i;
    int c = compare(a->cost, b->cost);
    if (!c)
        c = compare(a->edges, b->edges);
    for (i = 0; !c && i < a->edges; i++) {
        const struct edge *e = a->edge[i], *f = b->edge[i];
        c = compare((uint64_t)(e->peer + 1), (uint64_t)(f->peer + 1));
        if (!c)
            c = compare(f->shortcut, e->shortcut);
        if (!c)
            c = memcmp(m.segment[e->position].fingerprint, m.segment[f->position].fingerprint, DIGEST_SIZE);
    }
    for (i = 0; !c && i < a->edges; i++)
        c = compare(a->edge[i]->position, b->edge[i]->position);
    return c;
}

/* ---- records: docs/SPECIFICATION.md 8.1 */

static int along(const struct edge *e)
{
    const struct segment *s = &m.segment[e->position];
    struct vertex leaf = as_vertex(s->entry[s->entries - 1].as);
    return !compare_vertices(&e->end, &leaf);
}

static void put_record(uint8_t *r, const struct chain *c)
{
    uint8_t *edge = r + COMBINATOR_RECORD_HEAD_SIZE;
    unsigned i;
    memset(r, 0, COMBINATOR_RECORD_SIZE);
    put16(r + COMBINATOR_RECORD_COST, c->cost);
    r[COMBINATOR_RECORD_EDGE_COUNT] = (uint8_t)c->edges;
    for (i = 0; i < c->edges; i++, edge += COMBINATOR_EDGE_SIZE) {
        edge[COMBINATOR_EDGE_POSITION] = (uint8_t)c->edge[i]->position;
        edge[COMBINATOR_EDGE_SHORTCUT] = (uint8_t)c->edge[i]->shortcut;
        edge[COMBINATOR_EDGE_PEER] = (uint8_t)(c->edge[i]->peer + 1);
        edge[COMBINATOR_EDGE_DIRECTION] = along(c->edge[i]) ? COMBINATOR_CONSTRUCTION : 0;
    }
}

/* ---- working out a book once: docs/SPECIFICATION.md 2 */

static struct hop hop_at(const uint8_t *units, const uint8_t *ingress, const uint8_t *egress, const uint8_t *mac)
{
    struct hop h;
    h.units = *units;
    h.ingress = number16(ingress);
    h.egress = number16(egress);
    h.mac = mac;
    return h;
}

static const uint8_t *decode_peer(struct peer *p, const uint8_t *at)
{
    p->as = number64(at + COMBINATOR_PEER_AS);
    p->interface = number16(at + COMBINATOR_PEER_INTERFACE);
    p->mtu = number16(at + COMBINATOR_PEER_MTU);
    p->hop = hop_at(at + COMBINATOR_PEER_UNITS, at + COMBINATOR_PEER_INGRESS, at + COMBINATOR_PEER_EGRESS, at + COMBINATOR_PEER_MAC);
    return at + COMBINATOR_PEER_SIZE;
}

static const uint8_t *decode_entry(struct entry *e, const uint8_t *at)
{
    unsigned i;
    e->as = number64(at + COMBINATOR_ENTRY_AS);
    e->mtu = number32(at + COMBINATOR_ENTRY_MTU);
    e->ingress_mtu = number16(at + COMBINATOR_ENTRY_INGRESS_MTU);
    e->hop = hop_at(at + COMBINATOR_ENTRY_UNITS, at + COMBINATOR_ENTRY_INGRESS, at + COMBINATOR_ENTRY_EGRESS, at + COMBINATOR_ENTRY_MAC);
    e->peers = at[COMBINATOR_ENTRY_PEER_COUNT];
    at += COMBINATOR_ENTRY_SIZE;
    for (i = 0; i < e->peers; i++)
        at = decode_peer(&e->peer[i], at);
    return at;
}

/* Of each entry AS, ingress and egress. */
static void find_fingerprint(struct segment *s)
{
    uint8_t input[COMBINATOR_MAX_ENTRIES * (COMBINATOR_AS_SIZE + 2 * COMBINATOR_INTERFACE_ID_SIZE)], *at = input;
    unsigned i;
    for (i = 0; i < s->entries; i++) {
        put64(at, s->entry[i].as);
        at += COMBINATOR_AS_SIZE;
        put16(at, s->entry[i].hop.ingress);
        at += COMBINATOR_INTERFACE_ID_SIZE;
        put16(at, s->entry[i].hop.egress);
        at += COMBINATOR_INTERFACE_ID_SIZE;
    }
    sha256(input, (size_t)(at - input), s->fingerprint);
}

static void decode(void)
{
    unsigned cores = number16(m.book + COMBINATOR_COUNTS_CORES), p, i;
    const uint8_t *at;
    m.count = segments_of(m.book);
    at = head_of(m.book, m.count);
    for (p = 0; p < m.count; p++) {
        struct segment *s = &m.segment[p];
        const uint8_t *head = head_of(m.book, p);
        s->core = p < cores;
        s->timestamp = number32(head + COMBINATOR_HEAD_TIMESTAMP);
        s->id = number16(head + COMBINATOR_HEAD_ID);
        s->entries = number16(head + COMBINATOR_HEAD_ENTRY_COUNT);
        s->length = number16(head + COMBINATOR_HEAD_BODY_LENGTH);
        s->body = at;
        for (i = 0; i < s->entries; i++)
            at = decode_entry(&s->entry[i], at);
        find_fingerprint(s);
    }
}

static int equal_segments(const struct segment *a, const struct segment *b)
{
    return a->core == b->core && a->timestamp == b->timestamp && a->id == b->id && a->length == b->length &&
           !memcmp(a->body, b->body, a->length);
}

static int first_of_equals(unsigned p)
{
    unsigned q;
    for (q = 0; q < p; q++)
        if (equal_segments(&m.segment[q], &m.segment[p]))
            return 0;
    return 1;
}

/* The book is accepted. */
static void work_out(uint64_t src, uint64_t dst, const uint8_t *book, size_t len)
{
    struct chain none;
    struct vertex source = as_vertex(src);
    unsigned p;
    size_t i;
    int same = m.known && m.len == len && !memcmp(m.book, book, len);
    if (same && m.src == src && m.dst == dst)
        return;
    m.routes_known = 0;
    m.src = src;
    m.dst = dst;
    if (!same) {
        memcpy(m.book, book, len);
        m.len = len;
        m.known = 1;
        decode();
        m.edges = 0;
        for (p = 0; p < m.count; p++)
            if (first_of_equals(p))
                store_segment(p);
        if (m.edges)
            qsort(m.edge, m.edges, sizeof *m.edge, by_start);
    }
    m.chains = 0;
    memset(&none, 0, sizeof none);
    if (src != dst)
        extend(&none, &source);
    if (m.chains)
        qsort(m.chain, m.chains, sizeof *m.chain, in_order);
    m.record = resize(m.record, COMBINATOR_RECORD_SIZE * m.chains);
    for (i = 0; i < m.chains; i++)
        put_record(m.record + COMBINATOR_RECORD_SIZE * i, &m.chain[i]);
}

const struct segment *model_segments(const uint8_t *book, size_t len, unsigned *count)
{
    work_out(m.src, m.dst, book, len);
    *count = m.count;
    return m.segment;
}

const uint8_t *model_records(uint64_t src, uint64_t dst, const uint8_t *book, size_t len, size_t *count)
{
    work_out(src, dst, book, len);
    *count = m.chains;
    return m.record;
}

/* ---- listing: docs/SPECIFICATION.md 9.5 */

uint32_t model_list(uint64_t src, uint64_t dst, const uint8_t *book, size_t book_len, uint8_t *out, size_t out_len)
{
    size_t slots = out_len / COMBINATOR_RECORD_SIZE < COMBINATOR_MAX_SOLUTIONS ? out_len / COMBINATOR_RECORD_SIZE : COMBINATOR_MAX_SOLUTIONS;
    uint32_t refusal = verdict(book, book_len);
    memset(out, 0, out_len);
    if (refusal)
        return refusal;
    work_out(src, dst, book, book_len);
    if (m.chains > slots)
        return COMBINATOR_FULL;
    memcpy(out, m.record, COMBINATOR_RECORD_SIZE * m.chains);
    return (uint32_t)m.chains;
}

/* ---- assembly: docs/SPECIFICATION.md 6 and 9.6 */

struct interface {
    uint64_t as;
    unsigned id;
};

struct path {
    unsigned infos, hops, interfaces;
    unsigned mtu;
    uint64_t expiry;
    uint8_t info[COMBINATOR_MAX_EDGES * COMBINATOR_INFO_SIZE];
    struct hop hop[COMBINATOR_MAX_HOPS];
    struct interface interface[COMBINATOR_MAX_INTERFACES];
};

static unsigned least(unsigned a, unsigned b)
{
    return a < b ? a : b;
}

static void add_edge(struct path *path, const struct edge *e)
{
    const struct segment *s = &m.segment[e->position];
    unsigned n = s->entries, hops = 0, interfaces = 0, units = UINT8_MAX, i, k, id;
    struct hop hop[COMBINATOR_MAX_ENTRIES];
    struct interface interface[2 * COMBINATOR_MAX_ENTRIES];
    uint8_t *info = path->info + COMBINATOR_INFO_SIZE * path->infos++;
    uint64_t end;

    for (i = n; i-- > e->shortcut;) {
        const struct entry *a = &s->entry[i];
        int at_shortcut = i == e->shortcut, peer = at_shortcut && e->peer >= 0;
        struct hop h = peer ? a->peer[e->peer].hop : a->hop;
        if (peer)
            path->mtu = least(path->mtu, a->peer[e->peer].mtu);
        else if (a->ingress_mtu && !(at_shortcut && e->shortcut > 0))
            path->mtu = least(path->mtu, a->ingress_mtu);
        path->mtu = least(path->mtu, a->mtu & UINT16_MAX);
        if (h.egress) {
            interface[interfaces].as = a->as;
            interface[interfaces++].id = h.egress;
        }
        if (h.ingress && (!at_shortcut || e->shortcut == 0 || peer)) {
            interface[interfaces].as = a->as;
            interface[interfaces++].id = h.ingress;
        }
        units = least(units, h.units);
        hop[hops++] = h;
    }
    for (i = 0; i < hops; i++)
        path->hop[path->hops++] = hop[along(e) ? hops - 1 - i : i];
    for (i = 0; i < interfaces; i++)
        path->interface[path->interfaces++] = interface[along(e) ? interfaces - 1 - i : i];

    k = along(e) ? e->shortcut : n - 1;
    if (e->peer >= 0 && e->shortcut == k)
        k++;
    id = s->id;
    for (i = 0; i < k; i++)
        id ^= number16(s->entry[i].hop.mac);
    info[COMBINATOR_INFO_FLAGS] = (uint8_t)((along(e) ? COMBINATOR_CONSTRUCTION : 0) + (e->peer >= 0 ? COMBINATOR_PEERING : 0));
    info[COMBINATOR_INFO_HOP_COUNT] = (uint8_t)hops;
    put16(info + COMBINATOR_INFO_ID, id);
    put32(info + COMBINATOR_INFO_TIMESTAMP, s->timestamp);

    end = s->timestamp + ((uint64_t)units + 1) * 675 / 2;
    if (end < path->expiry)
        path->expiry = end;
}

static int loops(const struct path *p)
{
    unsigned i, j;
    for (i = 0; i < p->interfaces; i++) {
        unsigned shown = 0;
        for (j = 0; j < p->interfaces; j++)
            shown += p->interface[j].as == p->interface[i].as;
        if (shown > 2)
            return 1;
    }
    return 0;
}

static void put_path(uint8_t *out, const struct path *p)
{
    unsigned i;
    out[COMBINATOR_PATH_INFO_COUNT] = (uint8_t)p->infos;
    out[COMBINATOR_PATH_HOP_COUNT] = (uint8_t)p->hops;
    out[COMBINATOR_PATH_INTERFACE_COUNT] = (uint8_t)p->interfaces;
    put16(out + COMBINATOR_PATH_MTU, p->mtu);
    put32(out + COMBINATOR_PATH_EXPIRY, (uint32_t)p->expiry);
    put64(out + COMBINATOR_PATH_FIRST_AS, p->interface[0].as);
    put64(out + COMBINATOR_PATH_LAST_AS, p->interface[p->interfaces - 1].as);
    out += COMBINATOR_PATH_HEAD_SIZE;
    memcpy(out, p->info, COMBINATOR_INFO_SIZE * p->infos);
    out += COMBINATOR_INFO_SIZE * p->infos;
    for (i = 0; i < p->hops; i++, out += COMBINATOR_HOP_SIZE) {
        out[COMBINATOR_HOP_UNITS] = (uint8_t)p->hop[i].units;
        put16(out + COMBINATOR_HOP_INGRESS, p->hop[i].ingress);
        put16(out + COMBINATOR_HOP_EGRESS, p->hop[i].egress);
        memcpy(out + COMBINATOR_HOP_MAC, p->hop[i].mac, COMBINATOR_MAC_SIZE);
    }
    for (i = 0; i < p->interfaces; i++, out += COMBINATOR_AS_SIZE)
        put64(out, p->interface[i].as);
    for (i = 0; i < p->interfaces; i++, out += COMBINATOR_INTERFACE_ID_SIZE)
        put16(out, p->interface[i].id);
}

/* The path of a chain: COMBINATOR_PATH, COMBINATOR_LOOP or COMBINATOR_BARE. */
static uint32_t find_path(struct path *path, const struct chain *c)
{
    unsigned i;
    memset(path, 0, sizeof *path);
    path->mtu = UINT16_MAX;
    path->expiry = UINT32_MAX;
    for (i = 0; i < c->edges; i++)
        add_edge(path, c->edge[i]);
    return path->interfaces == 0 ? COMBINATOR_BARE : loops(path) ? COMBINATOR_LOOP : COMBINATOR_PATH;
}

uint32_t model_assemble(uint64_t src, uint64_t dst, const uint8_t *book, size_t book_len, const uint8_t *record,
                        size_t record_len, uint8_t *out, size_t out_len)
{
    uint32_t answer = verdict(book, book_len);
    struct path path;
    size_t c;
    memset(out, 0, out_len);
    if (answer)
        return answer;
    if (out_len < COMBINATOR_PATH_SIZE)
        return COMBINATOR_SMALL;
    work_out(src, dst, book, book_len);
    for (c = 0; c < m.chains; c++)
        if (record_len == COMBINATOR_RECORD_SIZE && !memcmp(m.record + COMBINATOR_RECORD_SIZE * c, record, COMBINATOR_RECORD_SIZE))
            break;
    if (c == m.chains)
        return COMBINATOR_STRANGER;
    answer = find_path(&path, &m.chain[c]);
    if (answer == COMBINATOR_PATH)
        put_path(out, &path);
    return answer;
}

/* ---- routes: the chains with a path, one for each list of interfaces */

/* A route: its interfaces, the chain that is held for it, and the expiry of that chain's path. */
struct route {
    unsigned interfaces;
    struct interface interface[COMBINATOR_MAX_INTERFACES];
    size_t chain;
    uint64_t expiry;
};

static int is_route(const struct route *r, const struct path *p)
{
    unsigned i;
    if (r->interfaces != p->interfaces)
        return 0;
    for (i = 0; i < p->interfaces; i++)
        if (r->interface[i].as != p->interface[i].as || r->interface[i].id != p->interface[i].id)
            return 0;
    return 1;
}

/* The first chain of a route gives it its place; a later one is held there in its stead only if its path lives longer. */
static void find_routes(void)
{
    struct path path;
    struct route *r;
    size_t c, i;
    m.routes = 0;
    for (c = 0; c < m.chains; c++) {
        if (find_path(&path, &m.chain[c]) != COMBINATOR_PATH)
            continue;
        for (i = 0; i < m.routes && !is_route(&m.route[i], &path); i++)
            ;
        if (i == m.routes) {
            if (m.routes == m.route_room)
                m.route = grow(m.route, &m.route_room, sizeof *m.route);
            r = &m.route[m.routes++];
            r->interfaces = path.interfaces;
            memcpy(r->interface, path.interface, sizeof path.interface);
        } else if (path.expiry <= m.route[i].expiry) {
            continue;
        }
        m.route[i].chain = c;
        m.route[i].expiry = path.expiry;
    }
    m.routes_known = 1;
}

uint32_t model_routes(uint64_t src, uint64_t dst, const uint8_t *book, size_t book_len, uint8_t *out, size_t out_len)
{
    uint32_t answer = model_list(src, dst, book, book_len, out, out_len);
    size_t i;
    if (COMBINATOR_IS_REFUSAL(answer))
        return answer;
    if (!m.routes_known)
        find_routes();
    memset(out, 0, out_len);
    for (i = 0; i < m.routes; i++)
        memcpy(out + COMBINATOR_RECORD_SIZE * i, m.record + COMBINATOR_RECORD_SIZE * m.route[i].chain, COMBINATOR_RECORD_SIZE);
    return (uint32_t)m.routes;
}

/* ---- paths on the wire: docs/SPECIFICATION.md 15, field after field, each of so many bits */

#define CURRENT_INFO_BITS 2
#define CURRENT_HOP_BITS 6
#define META_RESERVED_BITS 6
#define LENGTH_BITS 6
#define FLAGS_RESERVED_BITS 6 /* of an info and of a hop; two flags follow */
#define FLAG_BITS 1
#define INFO_RESERVED_BYTE_BITS 8
#define ID_BITS 16
#define TIMESTAMP_BITS 32
#define UNITS_BITS 8
#define INTERFACE_BITS 16
#define MAC_BITS (8 * COMBINATOR_MAC_SIZE)

/* The next bits from bit *at on, the highest of each byte first. */
static uint64_t take_bits(const uint8_t *bytes, size_t *at, unsigned count)
{
    uint64_t n = 0;
    for (; count > 0; count--, ++*at)
        n = n << 1 | (bytes[*at / 8] >> (7 - *at % 8) & 1u);
    return n;
}

/* Into bytes that are zero. */
static void put_bits(uint8_t *bytes, size_t *at, unsigned count, uint64_t n)
{
    for (; count > 0; count--, ++*at)
        bytes[*at / 8] |= (uint8_t)((n >> (count - 1) & 1u) << (7 - *at % 8));
}

unsigned model_path_faults(const uint8_t *path, size_t path_len)
{
    unsigned infos, hops, interfaces, sum = 0, faults = 0, i;
    size_t need = COMBINATOR_PATH_HEAD_SIZE;
    if (path_len < need)
        return 1u << CUT_HEAD;
    infos = path[COMBINATOR_PATH_INFO_COUNT];
    hops = path[COMBINATOR_PATH_HOP_COUNT];
    interfaces = path[COMBINATOR_PATH_INTERFACE_COUNT];
    if (infos == 0)
        faults |= 1u << NO_INFO;
    if (infos > COMBINATOR_MAX_EDGES)
        faults |= 1u << MANY_INFOS;
    if (path_len < (need += COMBINATOR_INFO_SIZE * infos))
        return faults | 1u << CUT_INFOS;
    for (i = 0; i < infos; i++) {
        const uint8_t *info = path_infos(path) + COMBINATOR_INFO_SIZE * i;
        if (info[COMBINATOR_INFO_FLAGS] > COMBINATOR_CONSTRUCTION + COMBINATOR_PEERING)
            faults |= 1u << INFO_FLAGS;
        if (info[COMBINATOR_INFO_HOP_COUNT] == 0)
            faults |= 1u << NO_HOP_OF_INFO;
        if (info[COMBINATOR_INFO_HOP_COUNT] > COMBINATOR_MAX_ENTRIES)
            faults |= 1u << MANY_HOPS_OF_INFO;
        sum += info[COMBINATOR_INFO_HOP_COUNT];
    }
    if (sum != hops)
        faults |= 1u << OTHER_SUM;
    if (path_len < (need += COMBINATOR_HOP_SIZE * hops))
        return faults | 1u << CUT_HOPS;
    if (path_len < need + COMBINATOR_INTERFACE_SIZE * interfaces)
        faults |= 1u << CUT_INTERFACES;
    return faults;
}

/* Of a path without a fault. */
static size_t put_wire(uint8_t *out, const uint8_t *path)
{
    const uint8_t *info, *hop;
    unsigned infos = path[COMBINATOR_PATH_INFO_COUNT], hops = path[COMBINATOR_PATH_HOP_COUNT], i;
    size_t at = 0;
    put_bits(out, &at, CURRENT_INFO_BITS, 0);
    put_bits(out, &at, CURRENT_HOP_BITS, 0);
    put_bits(out, &at, META_RESERVED_BITS, 0);
    for (i = 0, info = path_infos(path); i < COMBINATOR_MAX_EDGES; i++, info += COMBINATOR_INFO_SIZE)
        put_bits(out, &at, LENGTH_BITS, i < infos ? info[COMBINATOR_INFO_HOP_COUNT] : 0);
    for (i = 0, info = path_infos(path); i < infos; i++, info += COMBINATOR_INFO_SIZE) {
        put_bits(out, &at, FLAGS_RESERVED_BITS, 0);
        put_bits(out, &at, FLAG_BITS, (info[COMBINATOR_INFO_FLAGS] & COMBINATOR_PEERING) != 0);
        put_bits(out, &at, FLAG_BITS, (info[COMBINATOR_INFO_FLAGS] & COMBINATOR_CONSTRUCTION) != 0);
        put_bits(out, &at, INFO_RESERVED_BYTE_BITS, 0);
        put_bits(out, &at, ID_BITS, number16(info + COMBINATOR_INFO_ID));
        put_bits(out, &at, TIMESTAMP_BITS, number32(info + COMBINATOR_INFO_TIMESTAMP));
    }
    for (i = 0, hop = path_hops(path); i < hops; i++, hop += COMBINATOR_HOP_SIZE) {
        put_bits(out, &at, FLAGS_RESERVED_BITS, 0);
        put_bits(out, &at, FLAG_BITS, 0); /* the alert at the ingress, and the one at the egress */
        put_bits(out, &at, FLAG_BITS, 0);
        put_bits(out, &at, UNITS_BITS, hop[COMBINATOR_HOP_UNITS]);
        put_bits(out, &at, INTERFACE_BITS, number16(hop + COMBINATOR_HOP_INGRESS));
        put_bits(out, &at, INTERFACE_BITS, number16(hop + COMBINATOR_HOP_EGRESS));
        put_bits(out, &at, MAC_BITS, number(hop + COMBINATOR_HOP_MAC, COMBINATOR_MAC_SIZE));
    }
    return at / 8;
}

uint32_t model_write(const uint8_t *path, size_t path_len, uint8_t *out, size_t out_len)
{
    memset(out, 0, out_len);
    if (out_len < COMBINATOR_WIRE_SIZE)
        return COMBINATOR_SMALL;
    if (model_path_faults(path, path_len))
        return COMBINATOR_WIRE;
    return (uint32_t)put_wire(out, path);
}

/* The lengths of a meta header whose other fields are passed over; how many are not 0, and their sum. */
static void take_lengths(const uint8_t *wire, unsigned length[COMBINATOR_MAX_EDGES], unsigned *infos, unsigned *hops)
{
    size_t at = CURRENT_INFO_BITS + CURRENT_HOP_BITS + META_RESERVED_BITS;
    unsigned i;
    *infos = *hops = 0;
    for (i = 0; i < COMBINATOR_MAX_EDGES; i++) {
        length[i] = (unsigned)take_bits(wire, &at, LENGTH_BITS);
        *infos += length[i] > 0;
        *hops += length[i];
    }
}

unsigned model_wire_faults(const uint8_t *wire, size_t wire_len)
{
    unsigned length[COMBINATOR_MAX_EDGES], infos, hops, faults = 0, i;
    size_t at = 0, need;
    if (wire_len < COMBINATOR_WIRE_META_SIZE)
        return 1u << CUT_WIRE;
    if (take_bits(wire, &at, CURRENT_INFO_BITS))
        faults |= 1u << CURRENT_INFO;
    if (take_bits(wire, &at, CURRENT_HOP_BITS))
        faults |= 1u << CURRENT_HOP;
    if (take_bits(wire, &at, META_RESERVED_BITS))
        faults |= 1u << META_RESERVED;
    take_lengths(wire, length, &infos, &hops);
    if (length[0] == 0)
        faults |= 1u << NO_FIRST_LENGTH;
    for (i = 0; i < COMBINATOR_MAX_EDGES; i++) {
        if (length[i] > COMBINATOR_MAX_ENTRIES)
            faults |= 1u << LARGE_LENGTH;
        if (i > 0 && length[0] > 0 && length[i - 1] == 0 && length[i] > 0)
            faults |= 1u << NO_LENGTH_BETWEEN;
    }
    need = COMBINATOR_WIRE_META_SIZE + COMBINATOR_WIRE_INFO_SIZE * infos + COMBINATOR_WIRE_HOP_SIZE * hops;
    if (wire_len < need)
        return faults | 1u << CUT_WIRE;
    if (wire_len > need)
        faults |= 1u << SURPLUS_WIRE;
    for (i = 0; i < infos; i++) {
        at = 8 * (COMBINATOR_WIRE_META_SIZE + COMBINATOR_WIRE_INFO_SIZE * (size_t)i);
        if (take_bits(wire, &at, FLAGS_RESERVED_BITS))
            faults |= 1u << INFO_RESERVED_BITS;
        at += 2 * FLAG_BITS;
        if (take_bits(wire, &at, INFO_RESERVED_BYTE_BITS))
            faults |= 1u << INFO_RESERVED_BYTE;
    }
    for (i = 0; i < hops; i++) {
        at = 8 * (COMBINATOR_WIRE_META_SIZE + COMBINATOR_WIRE_INFO_SIZE * infos + COMBINATOR_WIRE_HOP_SIZE * (size_t)i);
        if (take_bits(wire, &at, FLAGS_RESERVED_BITS + 2 * FLAG_BITS))
            faults |= 1u << HOP_FLAGS;
    }
    return faults;
}

/* Of a path on the wire without a fault; what the wire does not have is zero. */
static size_t put_read(uint8_t *out, const uint8_t *wire)
{
    unsigned length[COMBINATOR_MAX_EDGES], infos, hops, i;
    size_t at = 8 * COMBINATOR_WIRE_META_SIZE;
    uint8_t *put_at = out + COMBINATOR_PATH_HEAD_SIZE;
    take_lengths(wire, length, &infos, &hops);
    out[COMBINATOR_PATH_INFO_COUNT] = (uint8_t)infos;
    out[COMBINATOR_PATH_HOP_COUNT] = (uint8_t)hops;
    for (i = 0; i < infos; i++, put_at += COMBINATOR_INFO_SIZE) {
        at += FLAGS_RESERVED_BITS;
        if (take_bits(wire, &at, FLAG_BITS))
            put_at[COMBINATOR_INFO_FLAGS] |= COMBINATOR_PEERING;
        if (take_bits(wire, &at, FLAG_BITS))
            put_at[COMBINATOR_INFO_FLAGS] |= COMBINATOR_CONSTRUCTION;
        at += INFO_RESERVED_BYTE_BITS;
        put_at[COMBINATOR_INFO_HOP_COUNT] = (uint8_t)length[i];
        put16(put_at + COMBINATOR_INFO_ID, (unsigned)take_bits(wire, &at, ID_BITS));
        put32(put_at + COMBINATOR_INFO_TIMESTAMP, (uint32_t)take_bits(wire, &at, TIMESTAMP_BITS));
    }
    for (i = 0; i < hops; i++, put_at += COMBINATOR_HOP_SIZE) {
        at += FLAGS_RESERVED_BITS + 2 * FLAG_BITS;
        put_at[COMBINATOR_HOP_UNITS] = (uint8_t)take_bits(wire, &at, UNITS_BITS);
        put16(put_at + COMBINATOR_HOP_INGRESS, (unsigned)take_bits(wire, &at, INTERFACE_BITS));
        put16(put_at + COMBINATOR_HOP_EGRESS, (unsigned)take_bits(wire, &at, INTERFACE_BITS));
        put(put_at + COMBINATOR_HOP_MAC, COMBINATOR_MAC_SIZE, take_bits(wire, &at, MAC_BITS));
    }
    return (size_t)(put_at - out);
}

uint32_t model_read(const uint8_t *wire, size_t wire_len, uint8_t *out, size_t out_len)
{
    memset(out, 0, out_len);
    if (out_len < COMBINATOR_PATH_SIZE)
        return COMBINATOR_SMALL;
    if (model_wire_faults(wire, wire_len))
        return COMBINATOR_WIRE;
    return (uint32_t)put_read(out, wire);
}
