/* docs/SPECIFICATION.md once more, in plain C: what the library's answers are held to on every book, also where the Rust has
 * no answer. It shares no code with crates/; sizes and places are the header's. tests/compare holds it to the Rust itself. */
#ifndef MODEL_H
#define MODEL_H

#include <stddef.h>
#include <stdint.h>

#include "combinator.h"

#define DIGEST_SIZE 32 /* of SHA-256 */

struct hop {
    unsigned units, ingress, egress;
    const uint8_t *mac;
};

struct peer {
    uint64_t as;
    unsigned interface, mtu;
    struct hop hop;
};

struct entry {
    uint64_t as;
    uint32_t mtu;
    unsigned ingress_mtu;
    struct hop hop;
    unsigned peers;
    struct peer peer[COMBINATOR_MAX_PEERS];
};

struct segment {
    int core;
    uint32_t timestamp;
    unsigned id, entries;
    struct entry entry[COMBINATOR_MAX_ENTRIES];
    const uint8_t *body;
    size_t length;
    uint8_t fingerprint[DIGEST_SIZE];
};

/* Segments of an accepted book, by position; valid until the next call with another book. */
const struct segment *model_segments(const uint8_t *book, size_t len, unsigned *count);

/* Every solution's record in order, also past the last slot, of an accepted book; valid until the next call. */
const uint8_t *model_records(uint64_t src, uint64_t dst, const uint8_t *book, size_t len, size_t *count);

/* What the exported functions answer. */
uint32_t model_list(uint64_t src, uint64_t dst, const uint8_t *book, size_t book_len, uint8_t *out, size_t out_len);
uint32_t model_routes(uint64_t src, uint64_t dst, const uint8_t *book, size_t book_len, uint8_t *out, size_t out_len);
uint32_t model_assemble(uint64_t src, uint64_t dst, const uint8_t *book, size_t book_len, const uint8_t *record,
                        size_t record_len, uint8_t *out, size_t out_len);
uint32_t model_write(const uint8_t *path, size_t path_len, uint8_t *out, size_t out_len);
uint32_t model_read(const uint8_t *wire, size_t wire_len, uint8_t *out, size_t out_len);

/* What the writer refuses in a path. Of the bytes that are lacking, the first ones. */
enum path_fault {
    NO_INFO,
    MANY_INFOS,
    INFO_FLAGS,
    NO_HOP_OF_INFO,
    MANY_HOPS_OF_INFO,
    OTHER_SUM,
    CUT_HEAD,
    CUT_INFOS,
    CUT_HOPS,
    CUT_INTERFACES,
    PATH_FAULTS
};

/* What the reader refuses in a path on the wire. */
enum wire_fault {
    CURRENT_INFO,
    CURRENT_HOP,
    META_RESERVED,
    NO_FIRST_LENGTH,
    NO_LENGTH_BETWEEN,
    LARGE_LENGTH,
    CUT_WIRE,
    SURPLUS_WIRE,
    INFO_RESERVED_BITS,
    INFO_RESERVED_BYTE,
    HOP_FLAGS,
    WIRE_FAULTS
};

/* A bit for each fault that there is: 1 << fault. */
unsigned model_path_faults(const uint8_t *path, size_t path_len);
unsigned model_wire_faults(const uint8_t *wire, size_t wire_len);

#endif
