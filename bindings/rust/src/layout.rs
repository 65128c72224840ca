//! Sizes, places, limits and answers of `include/combinator.h`, under its names; tests/layout of the
//! repository holds them equal.

/// The most bytes of a book.
pub const MAX_BOOK: usize = 61_440;
/// The most segments of a book, of both kinds.
pub const MAX_SEGMENTS: usize = 64;
/// The most entries of a segment.
pub const MAX_ENTRIES: usize = 16;
/// The most peers of an entry.
pub const MAX_PEERS: usize = 4;
/// The most edges of a solution.
pub const MAX_EDGES: usize = 3;
/// The most solutions that can be listed.
pub const MAX_SOLUTIONS: usize = 4_096;
/// The most hops of a path: one for each entry.
pub const MAX_HOPS: usize = MAX_EDGES * MAX_ENTRIES;
/// The most interfaces of a path: two for each hop.
pub const MAX_INTERFACES: usize = 2 * MAX_HOPS;

pub const AS_SIZE: usize = 8;
pub const MAC_SIZE: usize = 6;

pub const COUNTS_CORES: usize = 0;
pub const COUNTS_NON_CORES: usize = 2;
pub const COUNTS_BODIES: usize = 4;
pub const COUNTS_SIZE: usize = 8;

pub const HEAD_TIMESTAMP: usize = 0;
pub const HEAD_ID: usize = 4;
pub const HEAD_ENTRY_COUNT: usize = 6;
pub const HEAD_BODY_LENGTH: usize = 8;
pub const HEAD_SIZE: usize = 10;

pub const ENTRY_AS: usize = 0;
pub const ENTRY_MTU: usize = 8;
pub const ENTRY_INGRESS_MTU: usize = 12;
pub const ENTRY_INGRESS: usize = 14;
pub const ENTRY_EGRESS: usize = 16;
pub const ENTRY_UNITS: usize = 18;
pub const ENTRY_MAC: usize = 19;
pub const ENTRY_PEER_COUNT: usize = 25;
pub const ENTRY_SIZE: usize = 26;

pub const PEER_AS: usize = 0;
pub const PEER_INTERFACE: usize = 8;
pub const PEER_MTU: usize = 10;
pub const PEER_UNITS: usize = 12;
pub const PEER_INGRESS: usize = 13;
pub const PEER_EGRESS: usize = 15;
pub const PEER_MAC: usize = 17;
pub const PEER_SIZE: usize = 23;

pub const RECORD_COST: usize = 0;
pub const RECORD_EDGE_COUNT: usize = 2;
pub const RECORD_HEAD_SIZE: usize = 4;
pub const RECORD_SIZE: usize = RECORD_HEAD_SIZE + MAX_EDGES * EDGE_SIZE;

pub const EDGE_POSITION: usize = 0;
pub const EDGE_SHORTCUT: usize = 1;
pub const EDGE_PEER: usize = 2;
pub const EDGE_DIRECTION: usize = 3;
pub const EDGE_SIZE: usize = 4;

/// The bytes of an output of [`list`](crate::list) that takes [`MAX_SOLUTIONS`].
pub const LIST_SIZE: usize = MAX_SOLUTIONS * RECORD_SIZE;

pub const PATH_INFO_COUNT: usize = 0;
pub const PATH_HOP_COUNT: usize = 1;
pub const PATH_INTERFACE_COUNT: usize = 2;
pub const PATH_MTU: usize = 4;
pub const PATH_EXPIRY: usize = 6;
pub const PATH_FIRST_AS: usize = 10;
pub const PATH_LAST_AS: usize = 18;
pub const PATH_HEAD_SIZE: usize = 26;

pub const INFO_FLAGS: usize = 0;
pub const INFO_HOP_COUNT: usize = 1;
pub const INFO_ID: usize = 2;
pub const INFO_TIMESTAMP: usize = 4;
pub const INFO_SIZE: usize = 8;

pub const HOP_UNITS: usize = 0;
pub const HOP_INGRESS: usize = 1;
pub const HOP_EGRESS: usize = 3;
pub const HOP_MAC: usize = 5;
pub const HOP_SIZE: usize = 11;

pub const INTERFACE_ID_SIZE: usize = 2;
pub const INTERFACE_SIZE: usize = AS_SIZE + INTERFACE_ID_SIZE;

pub const PATH_SIZE: usize =
    PATH_HEAD_SIZE + MAX_EDGES * INFO_SIZE + MAX_HOPS * HOP_SIZE + MAX_INTERFACES * INTERFACE_SIZE;

pub const WIRE_META_SIZE: usize = 4;
pub const WIRE_INFO_SIZE: usize = 8;
pub const WIRE_HOP_SIZE: usize = 12;

/// The most bytes of a path on the wire: the least output of [`write`](crate::write).
pub const WIRE_SIZE: usize = WIRE_META_SIZE + MAX_EDGES * WIRE_INFO_SIZE + MAX_HOPS * WIRE_HOP_SIZE;

pub const CONSTRUCTION: u8 = 1;
pub const PEERING: u8 = 2;

pub const PATH: u32 = 0;
pub const LOOP: u32 = 1;
pub const BARE: u32 = 2;

/// In the library's answers a refusal stands this far up.
pub const REFUSED: u32 = 65_536;
