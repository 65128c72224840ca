/* Books made by the driver itself. */
#ifndef BUILD_H
#define BUILD_H

#include <stddef.h>
#include <stdint.h>

#include "combinator.h"

/* Room past the limits, so that books can be made that are refused. */
#define BUILD_SEGMENTS (COMBINATOR_MAX_SEGMENTS + 16)
#define BUILD_BODIES (4 * COMBINATOR_MAX_BOOK)
#define BUILD_ROOM (COMBINATOR_COUNTS_SIZE + COMBINATOR_HEAD_SIZE * BUILD_SEGMENTS + BUILD_BODIES)

/* Segments are added one after the other, all cores before the first non-core; then `build_book` lays them out. */
struct build {
    unsigned cores, noncores;
    uint8_t heads[COMBINATOR_HEAD_SIZE * BUILD_SEGMENTS];
    uint8_t bodies[BUILD_BODIES];
    size_t length; /* of the bodies */
    uint8_t *head; /* the head added last */
    uint8_t *entry; /* the entry added last, or NULL */
    uint8_t *peer; /* the peer added last, or NULL */
};

/* The fields of an entry or a peer that the makers set; the others are set to fixed values. */
void build_start(struct build *b);
void build_segment(struct build *b, int core, uint32_t timestamp, unsigned id);
void build_entry(struct build *b, uint64_t as, unsigned ingress, unsigned egress, uint64_t mac);
void build_peer(struct build *b, uint64_t as, unsigned interface, unsigned ingress, unsigned egress, uint64_t mac);

/* The segment added before, once more, with another timestamp and id. */
void build_again(struct build *b, int core, uint32_t timestamp, unsigned id);

/* Writes the book to `out`, which has BUILD_ROOM bytes or enough; its length. */
size_t build_book(const struct build *b, uint8_t *out);

/* The worked example of docs/SPECIFICATION.md 10.6, from AS_SOURCE to AS_DESTINATION. */
#define AS_SOURCE UINT64_C(0x0001ff0000000111)
#define AS_DESTINATION UINT64_C(0x0001ff0000000110)

size_t build_worked(uint8_t *out);

/* ups × cores × downs chains of three edges from AS_SOURCE to AS_DESTINATION. With ties > 0 all fingerprints of a kind
 * are equal. */
size_t build_chains(uint8_t *out, unsigned ups, unsigned cores, unsigned downs, int ties);

/* Just as many such chains as there are slots, or with more > 0 so many more first segments, and a list that is Full. */
size_t build_slots(uint8_t *out, unsigned more, int ties);

/* One chain of two edges, over segments of `entries` entries with `peers` peers each, among `segments` segments of which
 * the others lead elsewhere. */
size_t build_few(uint8_t *out, unsigned segments, unsigned entries, unsigned peers);

/* The most bytes of a segment: its head, and every entry with every peer. */
#define FULL_ENTRY (COMBINATOR_ENTRY_SIZE + COMBINATOR_MAX_PEERS * COMBINATOR_PEER_SIZE)
#define FULL_BODY (COMBINATOR_MAX_ENTRIES * FULL_ENTRY)

/* How many full segments a book holds at either end. */
#define FULL_HALF ((COMBINATOR_MAX_BOOK - COMBINATOR_COUNTS_SIZE) / (COMBINATOR_HEAD_SIZE + FULL_BODY) / 2)

/* `half` segments to either end, every AS and every link shared: the most solutions known of a book, where its segments are
 * full. */
size_t build_worst(uint8_t *out, unsigned half, unsigned entries, unsigned peers);

/* `half` full segments to either end, where no link has its other side: every peer of the one half is held against the peers of the last
 * entry above the leaf of every segment of the other, and there is no solution. */
size_t build_links(uint8_t *out, unsigned half);

/* As many chains as there are slots, each over three segments of every entry and so of 90 interfaces, with `peers` peers to an entry
 * that lead nowhere. Each chain is a route of its own, or with `copies` > 0 all are one, of a timestamp that grows. */
size_t build_long(uint8_t *out, unsigned peers, int copies);

/* Chains like these, each a route of its own, whose interface lists have one and the same mark by the keys that hold for few solutions
 * (crates/path/src/mark.rt): COLLIDING chains, the most that these keys are used for, that differ in ids or in ASes; or as many as there are
 * slots, which would take seconds by these keys. */
#define COLLIDING 128
enum colliding { FEW_IDS, FEW_ASES, MANY_IDS };
size_t build_colliding(uint8_t *out, enum colliding how);

/* Segments of every entry, whose ASes all end in the same bits: each AS is held against those before it in its segment, if only to see that it
 * stands there once. With `twice` the last segment has one twice, at its two ends. */
size_t build_one_ending(uint8_t *out, unsigned segments, int twice);

/* Segments of one timestamp and id whose bodies differ in the last MAC alone: every body is held against every other. */
size_t build_alike(uint8_t *out, unsigned segments);

#endif
