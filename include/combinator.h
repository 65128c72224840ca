/* combinator.h - SCION path combination: five functions over byte buffers.
 *
 *     combinator_list       lists every way to join the segments of a book into a path from a
 *                           source to a destination: one record for each solution
 *     combinator_routes     lists each route once: of the solutions whose paths pass the same
 *                           interfaces, the record of the one that lives longest
 *     combinator_assemble   makes the path of one such record
 *     combinator_write      writes such a path as the bytes that routers take
 *     combinator_read       reads such bytes back into a path
 *
 * The library needs nothing but memcpy, memset and their like from the C library. It allocates
 * nothing, reads and writes nothing but the buffers passed to it, and every call ends.
 *
 * Link with -lcombinator (x86-64). All numbers within buffers are big-endian. combinator_helpers.h
 * writes books, reads such numbers, and has the words of refusals and the text of ISD-ASes.
 *
 *
 * Answers
 *
 * Below COMBINATOR_REFUSED a number is the answer itself: of combinator_list the count of
 * solutions, of combinator_routes the count of routes, both 0 to COMBINATOR_MAX_SOLUTIONS; of
 * combinator_assemble COMBINATOR_PATH, COMBINATOR_LOOP or COMBINATOR_BARE; of combinator_write and
 * combinator_read a count of bytes. COMBINATOR_REFUSED + N is refusal N, a number that is no count:
 * test an answer before it is used.
 *
 *     count = combinator_list(src, dst, book, book_len, list, sizeof list);
 *     if (COMBINATOR_IS_REFUSAL(count))
 *         return COMBINATOR_REFUSAL(count);
 *
 * The refusals:
 *
 *      1 Cut       the book is under COMBINATOR_COUNTS_SIZE bytes, or shorter than its counts say
 *      2 Surplus   the book is longer than its counts say
 *      3 Oversize  the book is above COMBINATOR_MAX_BOOK bytes
 *      4 Crowded   more than COMBINATOR_MAX_SEGMENTS segments
 *      5 Long      a segment with more than COMBINATOR_MAX_ENTRIES entries
 *      6 Peers     an entry with more than COMBINATOR_MAX_PEERS peers
 *      7 Misfit    body lengths do not sum to the total, or a body is not filled exactly
 *      8 Full      (listing, also of routes) more solutions than slots
 *      9 Small     the output is too short: of assembly and the reader under COMBINATOR_PATH_SIZE
 *                  bytes, of the writer under COMBINATOR_WIRE_SIZE
 *     10 Stranger  (assembly) the record is not COMBINATOR_RECORD_SIZE bytes, or is no solution of
 *                  this book, source and destination
 *     11 Twice     an entry whose AS, ISD and AS number, stands earlier in the same segment
 *     12 Wire      (writer) the path has no form on the wire; (reader) no path has these bytes
 *
 * 1 to 7 and 11 are about the book alone, and every function that takes one answers them. Of several
 * that hold, the one tested first is answered: 3, 1 (the counts themselves), 4, 1, 2, 5 over all
 * heads, 7 (the sum); then body by body 6 and 7, and 11 of a body that has passed these, before the
 * next body; then 8 in listing, 9 and 10 in assembly. So combinator_routes refuses where
 * combinator_list does, and with the same number. Writer and reader take no book: 9, then 12.
 *
 *
 * Buffers
 *
 * Every length is a count of bytes, and any length is allowed: what is too short or too long is
 * refused, not read past. Bytes need no alignment. A pointer is never NULL, also where its length
 * is 0. No buffer overlaps out; all but out are only read.
 *
 * After every call all out_len bytes of out are set, whatever they held before: first the records,
 * the path or its bytes, then zeros to the end. After a refusal, COMBINATOR_LOOP or COMBINATOR_BARE
 * they are all zero. Zeroing takes time: an output no longer than needed is cheaper.
 *
 *
 * Words
 *
 *     units      the life of a hop, in parts of 337.5 seconds: a hop of u units lives
 *                floor((u + 1) * 337.5) seconds from its segment's timestamp on. A path expires
 *                with the first of its hops
 *     cost       the links that a solution passes, peering links among them
 *     shortcut   a segment is used between its last entry and the entry of this index; those before
 *                it are not passed. 0: the whole segment
 *     best       the order of solutions is by cost; then by their count of edges; then edge by edge:
 *                none before a peer and the smaller index of a peer first, the larger shortcut
 *                first, the smaller fingerprint first; then by position. No two tie
 *     route      the list of a path's interfaces: their ASes and ids, in the order of travel. A
 *                carrier that reissues a segment gives a route once more, with another expiry
 *     wire       the standard path of the SCION data plane: what stands in a packet's header, for
 *                the routers
 *
 *
 * Time, threads and stack
 *
 * Every call ends after a number of steps that the limits of a book bind. The tests hold a listing,
 * of solutions or of routes, to COMBINATOR_LIST_NS and an assembly, a write and a read each to
 * COMBINATOR_ASSEMBLE_NS, of the thread's own time; of the dearest books known the solutions took
 * 1.6 ms and the routes 10 ms.
 *
 * There is no state: all functions may be called at the same time from any threads, each call with
 * an output of its own.
 *
 * A call needs at most COMBINATOR_STACK_SIZE bytes of stack: `driver stack` measured 75,159 for
 * combinator_list, 77,271 for combinator_routes and 3,607 for combinator_assemble; for
 * combinator_write and combinator_read at most 1,024, the least that it tells.
 *
 * The library has unwind tables: a debugger, or backtrace() in a signal handler, passes through it.
 */
#ifndef COMBINATOR_H
#define COMBINATOR_H

#include <stddef.h>
#include <stdint.h>

#define COMBINATOR_VERSION "0.1.0"
#define COMBINATOR_VERSION_MAJOR 0
#define COMBINATOR_VERSION_MINOR 1
#define COMBINATOR_VERSION_PATCH 0

/* What a compiler is told of the functions, to warn of wrong calls; nothing where it does not know:
 * no pointer is NULL, the answer is looked at, and of each buffer, by the places of its parameters,
 * its length and that it is only read or only written. */
#ifdef __has_attribute
#if __has_attribute(__nonnull__) && __has_attribute(__warn_unused_result__)
#define COMBINATOR_CALL __attribute__((__nonnull__, __warn_unused_result__))
#endif
#if __has_attribute(__access__)
#define COMBINATOR_READS(buffer, length) __attribute__((__access__(__read_only__, buffer, length)))
#define COMBINATOR_WRITES(buffer, length) __attribute__((__access__(__write_only__, buffer, length)))
#endif
#endif
#ifndef COMBINATOR_CALL
#define COMBINATOR_CALL
#endif
#ifndef COMBINATOR_READS
#define COMBINATOR_READS(buffer, length)
#define COMBINATOR_WRITES(buffer, length)
#endif

#ifdef __cplusplus
extern "C" {
#endif

/* ---- Limits */

#define COMBINATOR_MAX_BOOK 61440 /* bytes of a book */
#define COMBINATOR_MAX_SEGMENTS 64
#define COMBINATOR_MAX_ENTRIES 16     /* of a segment */
#define COMBINATOR_MAX_PEERS 4        /* of an entry */
#define COMBINATOR_MAX_EDGES 3        /* of a solution */
#define COMBINATOR_MAX_SOLUTIONS 4096 /* slots that are used of a longer output */

/* A path has at most a hop for each entry, and two interfaces for each hop. */
#define COMBINATOR_MAX_HOPS (COMBINATOR_MAX_EDGES * COMBINATOR_MAX_ENTRIES)
#define COMBINATOR_MAX_INTERFACES (2 * COMBINATOR_MAX_HOPS)

/* What a call takes: bytes of stack, nanoseconds. */
#define COMBINATOR_STACK_SIZE 98304
#define COMBINATOR_LIST_NS 20000000
#define COMBINATOR_ASSEMBLE_NS 2000000

/* ---- Layouts
 *
 * Of each part of a buffer: where its fields stand in it, with the bytes of each in the comment, and
 * its own size. */

#define COMBINATOR_AS_SIZE 8 /* an ISD-AS: the ISD in the top 16 bits, the AS in the low 48 */
#define COMBINATOR_MAC_SIZE 6

/* A book: its counts; a head for each segment, cores first; then a body for each, in the same order.
 * A segment's position counts from 0 over both kinds. */
#define COMBINATOR_COUNTS_CORES 0     /* 2, core segments */
#define COMBINATOR_COUNTS_NON_CORES 2 /* 2, non-core segments */
#define COMBINATOR_COUNTS_BODIES 4    /* 4, bytes of all bodies */
#define COMBINATOR_COUNTS_SIZE 8

#define COMBINATOR_HEAD_TIMESTAMP 0   /* 4, seconds */
#define COMBINATOR_HEAD_ID 4          /* 2, segment id */
#define COMBINATOR_HEAD_ENTRY_COUNT 6 /* 2 */
#define COMBINATOR_HEAD_BODY_LENGTH 8 /* 2, bytes */
#define COMBINATOR_HEAD_SIZE 10

/* A body is its segment's entries in construction order, no two of one AS, each followed by its
 * peers. */
#define COMBINATOR_ENTRY_AS 0           /* COMBINATOR_AS_SIZE */
#define COMBINATOR_ENTRY_MTU 8          /* 4, within the AS */
#define COMBINATOR_ENTRY_INGRESS_MTU 12 /* 2, of the link at the ingress, or 0 */
#define COMBINATOR_ENTRY_INGRESS 14     /* 2, interface, or 0 */
#define COMBINATOR_ENTRY_EGRESS 16      /* 2, interface, or 0 */
#define COMBINATOR_ENTRY_UNITS 18       /* 1, expiry in units */
#define COMBINATOR_ENTRY_MAC 19         /* COMBINATOR_MAC_SIZE */
#define COMBINATOR_ENTRY_PEER_COUNT 25  /* 1 */
#define COMBINATOR_ENTRY_SIZE 26        /* without its peers */

#define COMBINATOR_PEER_AS 0        /* COMBINATOR_AS_SIZE, of the peer */
#define COMBINATOR_PEER_INTERFACE 8 /* 2, of the peer */
#define COMBINATOR_PEER_MTU 10      /* 2, of the link */
#define COMBINATOR_PEER_UNITS 12    /* 1, expiry in units */
#define COMBINATOR_PEER_INGRESS 13  /* 2, interface, or 0 */
#define COMBINATOR_PEER_EGRESS 15   /* 2, interface, or 0 */
#define COMBINATOR_PEER_MAC 17      /* COMBINATOR_MAC_SIZE */
#define COMBINATOR_PEER_SIZE 23

/* A solution's record: a head, then COMBINATOR_MAX_EDGES edges, unused ones zero. */
#define COMBINATOR_RECORD_COST 0       /* 2, links in all */
#define COMBINATOR_RECORD_EDGE_COUNT 2 /* 1 */
#define COMBINATOR_RECORD_ZERO 3       /* 1 */
#define COMBINATOR_RECORD_HEAD_SIZE 4

#define COMBINATOR_EDGE_POSITION 0  /* 1, of the segment */
#define COMBINATOR_EDGE_SHORTCUT 1  /* 1, index of the entry at which the used part ends */
#define COMBINATOR_EDGE_PEER 2      /* 1, index of the peer plus 1, or 0 for none */
#define COMBINATOR_EDGE_DIRECTION 3 /* 1, COMBINATOR_CONSTRUCTION or 0 */
#define COMBINATOR_EDGE_SIZE 4

#define COMBINATOR_RECORD_SIZE \
    (COMBINATOR_RECORD_HEAD_SIZE + COMBINATOR_MAX_EDGES * COMBINATOR_EDGE_SIZE)

/* An output of combinator_list or combinator_routes with every slot. */
#define COMBINATOR_LIST_SIZE (COMBINATOR_MAX_SOLUTIONS * COMBINATOR_RECORD_SIZE)

/* A path: a head; its infos; its hops; the AS of each interface; then the id of each interface. */
#define COMBINATOR_PATH_INFO_COUNT 0      /* 1 */
#define COMBINATOR_PATH_HOP_COUNT 1       /* 1 */
#define COMBINATOR_PATH_INTERFACE_COUNT 2 /* 1 */
#define COMBINATOR_PATH_ZERO 3            /* 1 */
#define COMBINATOR_PATH_MTU 4             /* 2 */
#define COMBINATOR_PATH_EXPIRY 6          /* 4, in the unit of the timestamps: seconds */
#define COMBINATOR_PATH_FIRST_AS 10       /* COMBINATOR_AS_SIZE, of the first interface */
#define COMBINATOR_PATH_LAST_AS 18        /* COMBINATOR_AS_SIZE, of the last interface */
#define COMBINATOR_PATH_HEAD_SIZE 26

#define COMBINATOR_INFO_FLAGS 0     /* 1, COMBINATOR_CONSTRUCTION and COMBINATOR_PEERING */
#define COMBINATOR_INFO_HOP_COUNT 1 /* 1 */
#define COMBINATOR_INFO_ID 2        /* 2, segment id */
#define COMBINATOR_INFO_TIMESTAMP 4 /* 4, seconds */
#define COMBINATOR_INFO_SIZE 8

#define COMBINATOR_HOP_UNITS 0   /* 1, expiry in units */
#define COMBINATOR_HOP_INGRESS 1 /* 2 */
#define COMBINATOR_HOP_EGRESS 3  /* 2 */
#define COMBINATOR_HOP_MAC 5     /* COMBINATOR_MAC_SIZE */
#define COMBINATOR_HOP_SIZE 11

#define COMBINATOR_INTERFACE_ID_SIZE 2
#define COMBINATOR_INTERFACE_SIZE (COMBINATOR_AS_SIZE + COMBINATOR_INTERFACE_ID_SIZE)

/* The longest path: the least output of combinator_assemble and of combinator_read. */
#define COMBINATOR_PATH_SIZE                                                   \
    (COMBINATOR_PATH_HEAD_SIZE + COMBINATOR_MAX_EDGES * COMBINATOR_INFO_SIZE + \
     COMBINATOR_MAX_HOPS * COMBINATOR_HOP_SIZE +                               \
     COMBINATOR_MAX_INTERFACES * COMBINATOR_INTERFACE_SIZE)

/* A path on the wire: the meta header; its infos; its hops; nothing after them.
 *
 * The meta header is one number, from its high end down: current info, 2 bits, and current hop, 6,
 * both 0 as written; 6 reserved bits; then the hop counts of three segments, 6 bits each, those
 * after the last info 0. Reserved bits and bytes are 0. */
#define COMBINATOR_WIRE_META_SIZE 4

#define COMBINATOR_WIRE_INFO_FLAGS 0     /* 1, COMBINATOR_CONSTRUCTION and COMBINATOR_PEERING */
#define COMBINATOR_WIRE_INFO_RESERVED 1  /* 1 */
#define COMBINATOR_WIRE_INFO_ID 2        /* 2, segment id */
#define COMBINATOR_WIRE_INFO_TIMESTAMP 4 /* 4, seconds */
#define COMBINATOR_WIRE_INFO_SIZE 8

#define COMBINATOR_WIRE_HOP_FLAGS 0   /* 1, two router alerts, 0 as written */
#define COMBINATOR_WIRE_HOP_UNITS 1   /* 1, expiry in units */
#define COMBINATOR_WIRE_HOP_INGRESS 2 /* 2 */
#define COMBINATOR_WIRE_HOP_EGRESS 4  /* 2 */
#define COMBINATOR_WIRE_HOP_MAC 6     /* COMBINATOR_MAC_SIZE */
#define COMBINATOR_WIRE_HOP_SIZE 12

/* The longest path on the wire: the least output of combinator_write. */
#define COMBINATOR_WIRE_SIZE                                                        \
    (COMBINATOR_WIRE_META_SIZE + COMBINATOR_MAX_EDGES * COMBINATOR_WIRE_INFO_SIZE + \
     COMBINATOR_MAX_HOPS * COMBINATOR_WIRE_HOP_SIZE)

/* Flags of an info; the first is the direction of a record's edge too. */
#define COMBINATOR_CONSTRUCTION 1 /* in construction direction */
#define COMBINATOR_PEERING 2      /* through a peer */

/* ---- Answers */

/* Of combinator_assemble, where it does not refuse. */
#define COMBINATOR_PATH 0u /* out holds the path */
#define COMBINATOR_LOOP 1u /* the interfaces show one AS more than twice: no path */
#define COMBINATOR_BARE 2u /* there are no interfaces: no path */

/* Refusals. */
#define COMBINATOR_REFUSED 65536u
#define COMBINATOR_CUT (COMBINATOR_REFUSED + 1u)
#define COMBINATOR_SURPLUS (COMBINATOR_REFUSED + 2u)
#define COMBINATOR_OVERSIZE (COMBINATOR_REFUSED + 3u)
#define COMBINATOR_CROWDED (COMBINATOR_REFUSED + 4u)
#define COMBINATOR_LONG (COMBINATOR_REFUSED + 5u)
#define COMBINATOR_PEERS (COMBINATOR_REFUSED + 6u)
#define COMBINATOR_MISFIT (COMBINATOR_REFUSED + 7u)
#define COMBINATOR_FULL (COMBINATOR_REFUSED + 8u)
#define COMBINATOR_SMALL (COMBINATOR_REFUSED + 9u)
#define COMBINATOR_STRANGER (COMBINATOR_REFUSED + 10u)
#define COMBINATOR_TWICE (COMBINATOR_REFUSED + 11u)
#define COMBINATOR_WIRE (COMBINATOR_REFUSED + 12u)

/* Is an answer a refusal, its number, and the last number. */
#define COMBINATOR_IS_REFUSAL(answer) ((answer) >= COMBINATOR_REFUSED)
#define COMBINATOR_REFUSAL(answer) ((answer) - COMBINATOR_REFUSED)
#define COMBINATOR_LAST_REFUSAL COMBINATOR_REFUSAL(COMBINATOR_WIRE)

/* ---- Functions */

/* Lists the solutions from src to dst of a book into out, the best first.
 *
 * src, dst: ISD-AS numbers. Where they are equal the list is empty.
 *
 * out: out_len / COMBINATOR_RECORD_SIZE slots, but not more than COMBINATOR_MAX_SOLUTIONS.
 * COMBINATOR_LIST_SIZE bytes suffice for every book that can be listed at all.
 *
 * Returns the count of solutions, or a refusal: about the book, or COMBINATOR_FULL. */
uint32_t combinator_list(uint64_t src, uint64_t dst, const uint8_t *book, size_t book_len,
                         uint8_t *out, size_t out_len)
    COMBINATOR_CALL COMBINATOR_READS(3, 4) COMBINATOR_WRITES(5, 6);

/* Lists the routes from src to dst of a book into out, each once.
 *
 * It goes over the solutions in the order of combinator_list, and leaves out those without a path,
 * COMBINATOR_LOOP and COMBINATOR_BARE. Two paths are the same route where their lists of interfaces
 * are equal: the same ASes, the same ids, in the same order. The first of a route keeps its place.
 * A later one takes over the record at that place only if the expiry of its path is greater than
 * that of the record held there. So
 *
 *     every record has a path, and no two have the same route;
 *     of the solutions of its route that live longest, a record is that of the first;
 *     routes stand in the order in which each first appears among the solutions, and so their
 *     records need not stand in the order of solutions.
 *
 * src, dst, book: as for combinator_list.
 *
 * out: as for combinator_list. There must be a slot for every solution, also where the routes are
 * fewer.
 *
 * Returns the count of routes, or the refusal of combinator_list with the same arguments:
 * COMBINATOR_FULL counts solutions. */
uint32_t combinator_routes(uint64_t src, uint64_t dst, const uint8_t *book, size_t book_len,
                           uint8_t *out, size_t out_len)
    COMBINATOR_CALL COMBINATOR_READS(3, 4) COMBINATOR_WRITES(5, 6);

/* Makes the path of a solution into out.
 *
 * src, dst, book: those of the listing. record: COMBINATOR_RECORD_SIZE bytes as listed, by either
 * function. A record of any solution is taken, also where listing answers COMBINATOR_FULL.
 *
 * out: at least COMBINATOR_PATH_SIZE bytes.
 *
 * Returns COMBINATOR_PATH, COMBINATOR_LOOP or COMBINATOR_BARE, or a refusal: about the book,
 * COMBINATOR_SMALL or COMBINATOR_STRANGER. */
uint32_t combinator_assemble(uint64_t src, uint64_t dst, const uint8_t *book, size_t book_len,
                             const uint8_t *record, size_t record_len, uint8_t *out,
                             size_t out_len)
    COMBINATOR_CALL COMBINATOR_READS(3, 4) COMBINATOR_READS(5, 6) COMBINATOR_WRITES(7, 8);

/* Writes a path as the bytes that routers take: the standard path of the SCION data plane, with
 * both current indexes 0.
 *
 * path: as combinator_assemble leaves it; path_len may go past its end. Only the counts, the infos
 * and the hops are written; the interfaces must be there, and may be anything. A path that
 * combinator_assemble left is never refused.
 *
 * out: at least COMBINATOR_WIRE_SIZE bytes.
 *
 * Returns the count of bytes written, or COMBINATOR_SMALL, then COMBINATOR_WIRE: no info or more
 * than COMBINATOR_MAX_EDGES; flags of an info above 3; its hop count 0 or above
 * COMBINATOR_MAX_ENTRIES; hop counts that do not sum to the path's; or fewer bytes than the three
 * counts need, those of interfaces among them. */
uint32_t combinator_write(const uint8_t *path, size_t path_len, uint8_t *out, size_t out_len)
    COMBINATOR_CALL COMBINATOR_READS(1, 2) COMBINATOR_WRITES(3, 4);

/* Reads the bytes of a path on the wire back into a path of which infos and hops alone are known:
 * all else in it is 0, the count of interfaces too. Written again it gives the same bytes.
 *
 * wire: exactly the bytes of the path, as combinator_write leaves them.
 *
 * out: at least COMBINATOR_PATH_SIZE bytes.
 *
 * Returns the count of the path's bytes, or COMBINATOR_SMALL, then COMBINATOR_WIRE: bytes that
 * combinator_write can not have written, whatever the path. */
uint32_t combinator_read(const uint8_t *wire, size_t wire_len, uint8_t *out, size_t out_len)
    COMBINATOR_CALL COMBINATOR_READS(1, 2) COMBINATOR_WRITES(3, 4);

#ifdef __cplusplus
}
#endif

#endif
