/* combinator_helpers.h - beside combinator.h, for hosts in C99 and C++11: words of refusals, ISD-ASes
 * as text, numbers of a buffer, and books written part by part.
 *
 * All of it is static inline: there is nothing to link, nothing is allocated, nothing is printed.
 */
#ifndef COMBINATOR_HELPERS_H
#define COMBINATOR_HELPERS_H

#include <string.h>

#include "combinator.h"

#ifdef __cplusplus
extern "C" {
#endif

/* ---- Refusals */

/* The word of a refusal, such as "Cut"; "" for every other answer. */
static inline const char *combinator_word(uint32_t answer)
{
    switch (answer) {
    case COMBINATOR_CUT: return "Cut";
    case COMBINATOR_SURPLUS: return "Surplus";
    case COMBINATOR_OVERSIZE: return "Oversize";
    case COMBINATOR_CROWDED: return "Crowded";
    case COMBINATOR_LONG: return "Long";
    case COMBINATOR_PEERS: return "Peers";
    case COMBINATOR_MISFIT: return "Misfit";
    case COMBINATOR_FULL: return "Full";
    case COMBINATOR_SMALL: return "Small";
    case COMBINATOR_STRANGER: return "Stranger";
    case COMBINATOR_TWICE: return "Twice";
    case COMBINATOR_WIRE: return "Wire";
    default: return "";
    }
}

/* ---- Numbers of a buffer: big-endian, of `size` bytes */

static inline uint64_t combinator_number(const uint8_t *at, size_t size)
{
    uint64_t number = 0;
    while (size-- > 0)
        number = number << 8 | *at++;
    return number;
}

static inline void combinator_put(uint8_t *at, size_t size, uint64_t number)
{
    for (; size > 0; number >>= 8)
        at[--size] = (uint8_t)(number & 0xff);
}

/* ---- ISD-ASes as people write them
 *
 * The ISD in base ten, `-`, and the AS in base ten below 2 to the 32 (2-64496), else as three groups
 * of hex digits (1-ff00:0:110). Reading takes three groups, of one to four digits each, for every AS. */

/* The longest text, 65535-ffff:ffff:ffff, and its end. */
#define COMBINATOR_AS_TEXT_SIZE 21
#define COMBINATOR_AS_BITS 48

/* Reads digits at *text, of which there must be one, up to the number `most`; *text is then past them. */
static inline int combinator_digits(const char **text, unsigned base, uint64_t most,
                                    uint64_t *number)
{
    const char *begun = *text;
    for (*number = 0;; (*text)++) {
        char c = **text;
        unsigned digit = c >= '0' && c <= '9'   ? (unsigned)(c - '0')
                         : c >= 'a' && c <= 'f' ? (unsigned)(c - 'a') + 10
                         : c >= 'A' && c <= 'F' ? (unsigned)(c - 'A') + 10
                                                : base;
        if (digit >= base)
            return *text > begun;
        *number = *number * base + digit;
        if (*number > most)
            return 0;
    }
}

/* The AS of three groups. */
static inline int combinator_groups(const char *text, uint64_t *as)
{
    int i;
    for (i = 0, *as = 0; i < 3; i++) {
        const char *begun = text;
        uint64_t group;
        if (!combinator_digits(&text, 16, 0xffff, &group) || text - begun > 4)
            return 0;
        if (*text++ != (i < 2 ? ':' : '\0'))
            return 0;
        *as = *as << 16 | group;
    }
    return 1;
}

/* Reads an ISD-AS: 1; or 0 for a text that is none, and *isd_as stays as it is. */
COMBINATOR_CALL static inline int combinator_as_read(const char *text, uint64_t *isd_as)
{
    uint64_t isd, as;
    const char *rest;
    if (!combinator_digits(&text, 10, 0xffff, &isd) || *text++ != '-')
        return 0;
    rest = text;
    if (!(combinator_digits(&rest, 10, 0xffffffff, &as) && *rest == '\0') &&
        !combinator_groups(text, &as))
        return 0;
    *isd_as = isd << COMBINATOR_AS_BITS | as;
    return 1;
}

/* Writes a number without leading zeros; the place past it. */
static inline char *combinator_write_number(char *text, unsigned base, uint64_t number)
{
    uint64_t rest;
    char *end;
    for (end = text + 1, rest = number; rest >= base; rest /= base)
        end++;
    for (text = end, rest = number; text == end || rest > 0; rest /= base)
        *--text = "0123456789abcdef"[rest % base];
    return end;
}

/* Writes an ISD-AS into `text` of COMBINATOR_AS_TEXT_SIZE chars; answers `text`. */
static inline char *combinator_as_write(uint64_t isd_as, char *text)
{
    uint64_t as = isd_as & ((UINT64_C(1) << COMBINATOR_AS_BITS) - 1);
    char *at = combinator_write_number(text, 10, isd_as >> COMBINATOR_AS_BITS);
    *at++ = '-';
    if (as <= 0xffffffff) {
        at = combinator_write_number(at, 10, as);
    } else {
        at = combinator_write_number(at, 16, as >> 32);
        *at++ = ':';
        at = combinator_write_number(at, 16, as >> 16 & 0xffff);
        *at++ = ':';
        at = combinator_write_number(at, 16, as & 0xffff);
    }
    *at = '\0';
    return text;
}

/* ---- Books
 *
 *     struct combinator_writer w;
 *     combinator_write_book(&w, room, sizeof room)          then for each segment
 *     combinator_write_core(&w, timestamp, id)              or combinator_write_non_core
 *     combinator_write_entry(&w, &entry)                    in construction order, each followed by
 *     combinator_write_peer(&w, &peer)                      its peers
 *
 * After every call w.length bytes of the room are a book that the library accepts, of all that was
 * written so far. Core and non-core segments may come in any order: the book has the cores first,
 * each kind as it came. Cores written first take less time, since nothing has to move.
 *
 * Each answers 0, or refuses with the library's numbers and writes nothing past the room:
 *
 *     Oversize   the book would be above COMBINATOR_MAX_BOOK bytes, or above the room's
 *     Crowded, Long, Peers   a segment, entry or peer too many
 *     Misfit     an entry before any segment, or a peer before any entry
 *     Twice      an entry whose AS stands earlier in its segment
 *
 * A segment of which a part was refused is no longer in the book, and what still comes of it is
 * refused likewise. The next segment begins as if it had not been. */

struct combinator_hop {
    uint8_t units;
    uint16_t ingress, egress; /* interfaces, or 0 */
    uint8_t mac[COMBINATOR_MAC_SIZE];
};

struct combinator_entry {
    uint64_t as;
    uint32_t mtu;         /* within the AS */
    uint16_t ingress_mtu; /* of the link at the ingress, or 0 */
    struct combinator_hop hop;
};

struct combinator_peer {
    uint64_t as;           /* of the peer */
    uint16_t interface_id; /* of the peer */
    uint16_t mtu;          /* of the link */
    struct combinator_hop hop;
};

/* book and length are for the host to read, the others the writer's own. */
struct combinator_writer {
    uint8_t *book;
    size_t length;
    size_t room;      /* what may be written of the host's */
    size_t cores_end; /* where the bodies of the cores end */
    unsigned cores, non_cores;
    int core;         /* of the segment being written: is it a core, */
    size_t head;      /* where its head stands, */
    size_t entry;     /* its last entry, or 0, */
    uint32_t refused; /* and why it is refused, or 0 */
};

#if COMBINATOR_MAX_ENTRIES * \
        (COMBINATOR_ENTRY_SIZE + COMBINATOR_MAX_PEERS * COMBINATOR_PEER_SIZE) > 65535
#error "the length of a body does not fit into its head"
#endif

/* Begins a book without segments in a room of room_len bytes; COMBINATOR_MAX_BOOK take every book. */
COMBINATOR_CALL static inline uint32_t combinator_write_book(struct combinator_writer *w,
                                                             uint8_t *room, size_t room_len)
{
    memset(w, 0, sizeof *w);
    w->book = room;
    w->room = room_len < COMBINATOR_MAX_BOOK ? room_len : COMBINATOR_MAX_BOOK;
    w->refused = COMBINATOR_MISFIT; /* no segment yet */
    if (w->room < COMBINATOR_COUNTS_SIZE)
        return COMBINATOR_OVERSIZE;
    memset(room, 0, COMBINATOR_COUNTS_SIZE);
    w->length = w->cores_end = COMBINATOR_COUNTS_SIZE;
    return 0;
}

/* Adds to the number of `size` bytes at a place of the book; `by` may be negative. */
static inline void combinator_add(struct combinator_writer *w, size_t at, size_t size, int by)
{
    uint64_t number = combinator_number(w->book + at, size);
    combinator_put(w->book + at, size, number + (uint64_t)by);
}

/* Makes a gap of zeros in the book; 0 where there is no room for it. */
static inline int combinator_open(struct combinator_writer *w, size_t at, size_t size)
{
    if (size > w->room - w->length)
        return 0;
    memmove(w->book + at + size, w->book + at, w->length - at);
    memset(w->book + at, 0, size);
    w->length += size;
    return 1;
}

static inline void combinator_close(struct combinator_writer *w, size_t at, size_t size)
{
    memmove(w->book + at, w->book + at + size, w->length - at - size);
    w->length -= size;
}

/* Counts the segment being written, by 1 or -1: its head has come, or has gone. */
static inline void combinator_count(struct combinator_writer *w, int by)
{
    unsigned *kind = w->core ? &w->cores : &w->non_cores;
    *kind += (unsigned)by;
    w->cores_end += (size_t)(by * COMBINATOR_HEAD_SIZE);
    combinator_put(w->book + COMBINATOR_COUNTS_CORES, 2, w->cores);
    combinator_put(w->book + COMBINATOR_COUNTS_NON_CORES, 2, w->non_cores);
}

static inline uint32_t combinator_write_segment(struct combinator_writer *w, int core,
                                                uint32_t timestamp, uint16_t id)
{
    unsigned before = core ? w->cores : w->cores + w->non_cores;
    w->core = core;
    w->head = COMBINATOR_COUNTS_SIZE + (size_t)COMBINATOR_HEAD_SIZE * before;
    w->entry = 0;
    w->refused = 0;
    if (w->cores + w->non_cores >= COMBINATOR_MAX_SEGMENTS)
        return w->refused = COMBINATOR_CROWDED;
    if (!combinator_open(w, w->head, COMBINATOR_HEAD_SIZE))
        return w->refused = COMBINATOR_OVERSIZE;
    combinator_put(w->book + w->head + COMBINATOR_HEAD_TIMESTAMP, 4, timestamp);
    combinator_put(w->book + w->head + COMBINATOR_HEAD_ID, 2, id);
    combinator_count(w, 1);
    return 0;
}

COMBINATOR_CALL static inline uint32_t combinator_write_core(struct combinator_writer *w,
                                                             uint32_t timestamp, uint16_t id)
{
    return combinator_write_segment(w, 1, timestamp, id);
}

COMBINATOR_CALL static inline uint32_t combinator_write_non_core(struct combinator_writer *w,
                                                                 uint32_t timestamp, uint16_t id)
{
    return combinator_write_segment(w, 0, timestamp, id);
}

/* Where the body of the segment being written ends. */
static inline size_t combinator_body_end(const struct combinator_writer *w)
{
    return w->core ? w->cores_end : w->length;
}

/* The body of the segment being written has grown by so many bytes; negative: it has gone. */
static inline void combinator_grown(struct combinator_writer *w, int by)
{
    if (w->core)
        w->cores_end += (size_t)by;
    combinator_add(w, w->head + COMBINATOR_HEAD_BODY_LENGTH, 2, by);
    combinator_add(w, COMBINATOR_COUNTS_BODIES, 4, by);
}

/* Takes the segment being written out of the book. */
static inline uint32_t combinator_refuse(struct combinator_writer *w, uint32_t refusal)
{
    size_t body = (size_t)combinator_number(w->book + w->head + COMBINATOR_HEAD_BODY_LENGTH, 2);
    combinator_close(w, combinator_body_end(w) - body, body);
    combinator_grown(w, -(int)body);
    combinator_close(w, w->head, COMBINATOR_HEAD_SIZE);
    combinator_count(w, -1);
    return w->refused = refusal;
}

/* Does the AS of the last entry stand earlier in the segment being written? */
static inline int combinator_repeats(const struct combinator_writer *w)
{
    size_t body = (size_t)combinator_number(w->book + w->head + COMBINATOR_HEAD_BODY_LENGTH, 2);
    const uint8_t *at = w->book + combinator_body_end(w) - body, *last = w->book + w->entry;
    while (at < last) {
        if (memcmp(at + COMBINATOR_ENTRY_AS, last + COMBINATOR_ENTRY_AS, COMBINATOR_AS_SIZE) == 0)
            return 1;
        at += COMBINATOR_ENTRY_SIZE + COMBINATOR_PEER_SIZE * at[COMBINATOR_ENTRY_PEER_COUNT];
    }
    return 0;
}

COMBINATOR_CALL static inline uint32_t combinator_write_entry(struct combinator_writer *w,
                                                              const struct combinator_entry *entry)
{
    size_t at = combinator_body_end(w);
    uint8_t *part = w->book + at;
    if (w->refused)
        return w->refused;
    if (combinator_number(w->book + w->head + COMBINATOR_HEAD_ENTRY_COUNT, 2) >=
        COMBINATOR_MAX_ENTRIES)
        return combinator_refuse(w, COMBINATOR_LONG);
    if (!combinator_open(w, at, COMBINATOR_ENTRY_SIZE))
        return combinator_refuse(w, COMBINATOR_OVERSIZE);
    combinator_grown(w, COMBINATOR_ENTRY_SIZE);
    combinator_add(w, w->head + COMBINATOR_HEAD_ENTRY_COUNT, 2, 1);
    w->entry = at;
    combinator_put(part + COMBINATOR_ENTRY_AS, COMBINATOR_AS_SIZE, entry->as);
    if (combinator_repeats(w))
        return combinator_refuse(w, COMBINATOR_TWICE);
    combinator_put(part + COMBINATOR_ENTRY_MTU, 4, entry->mtu);
    combinator_put(part + COMBINATOR_ENTRY_INGRESS_MTU, 2, entry->ingress_mtu);
    combinator_put(part + COMBINATOR_ENTRY_INGRESS, 2, entry->hop.ingress);
    combinator_put(part + COMBINATOR_ENTRY_EGRESS, 2, entry->hop.egress);
    part[COMBINATOR_ENTRY_UNITS] = entry->hop.units;
    memcpy(part + COMBINATOR_ENTRY_MAC, entry->hop.mac, COMBINATOR_MAC_SIZE);
    return 0;
}

COMBINATOR_CALL static inline uint32_t combinator_write_peer(struct combinator_writer *w,
                                                             const struct combinator_peer *peer)
{
    size_t at = combinator_body_end(w);
    uint8_t *part = w->book + at;
    if (w->refused)
        return w->refused;
    if (!w->entry)
        return combinator_refuse(w, COMBINATOR_MISFIT);
    if (w->book[w->entry + COMBINATOR_ENTRY_PEER_COUNT] >= COMBINATOR_MAX_PEERS)
        return combinator_refuse(w, COMBINATOR_PEERS);
    if (!combinator_open(w, at, COMBINATOR_PEER_SIZE))
        return combinator_refuse(w, COMBINATOR_OVERSIZE);
    combinator_grown(w, COMBINATOR_PEER_SIZE);
    w->book[w->entry + COMBINATOR_ENTRY_PEER_COUNT]++;
    combinator_put(part + COMBINATOR_PEER_AS, COMBINATOR_AS_SIZE, peer->as);
    combinator_put(part + COMBINATOR_PEER_INTERFACE, 2, peer->interface_id);
    combinator_put(part + COMBINATOR_PEER_MTU, 2, peer->mtu);
    part[COMBINATOR_PEER_UNITS] = peer->hop.units;
    combinator_put(part + COMBINATOR_PEER_INGRESS, 2, peer->hop.ingress);
    combinator_put(part + COMBINATOR_PEER_EGRESS, 2, peer->hop.egress);
    memcpy(part + COMBINATOR_PEER_MAC, peer->hop.mac, COMBINATOR_MAC_SIZE);
    return 0;
}

#ifdef __cplusplus
}
#endif

#endif
