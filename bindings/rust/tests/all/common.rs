//! What the tests of the package and those of the repository share: the worked example, and books read
//! field by field.

use combinator::{AsEntry, HopField, IsdAsn, PathSegment, PeerEntry};

/// The bytes of an ISD-AS, and of a MAC.
pub const AS_SIZE: usize = 8;
const MAC_SIZE: usize = 6;

/// The book of docs/SPECIFICATION.md 10.6, part by part.
const WORKED: &str = "
    0000 0001 00000034
    000f4240 1234 0002 0034
    0001ff0000000110 000005dc 0000 0000 0005 3f 010203040506 00
    0001ff0000000111 00000578 0546 0007 0000 3f 0a0b0c0d0e0f 00
";

pub fn worked() -> Vec<u8> {
    bytes(WORKED)
}

/// The bytes of hex digits, which may stand apart.
pub fn bytes(text: &str) -> Vec<u8> {
    let digits: Vec<u32> = text.chars().filter_map(|c| c.to_digit(16)).collect();
    digits
        .chunks_exact(2)
        .map(|d| (d[0] << 4 | d[1]) as u8)
        .collect()
}

pub fn zero(bytes: &[u8]) -> bool {
    bytes.iter().all(|b| *b == 0)
}

/// Bytes that are taken from the front.
pub struct Reader<'a>(pub &'a [u8]);

impl<'a> Reader<'a> {
    pub fn take(&mut self, n: usize) -> &'a [u8] {
        let (taken, rest) = self.0.split_at(n);
        self.0 = rest;
        taken
    }

    pub fn number(&mut self, size: usize) -> u64 {
        self.take(size)
            .iter()
            .fold(0, |n, b| n << 8 | u64::from(*b))
    }

    pub fn u8(&mut self) -> u8 {
        self.number(1) as u8
    }

    pub fn u16(&mut self) -> u16 {
        self.number(2) as u16
    }

    pub fn u32(&mut self) -> u32 {
        self.number(4) as u32
    }

    pub fn len(&mut self, size: usize) -> usize {
        self.number(size) as usize
    }

    fn mac(&mut self) -> [u8; MAC_SIZE] {
        self.take(MAC_SIZE).try_into().unwrap()
    }
}

pub type Entries = Vec<(AsEntry, Vec<PeerEntry>)>;

#[derive(Clone, Debug, PartialEq)]
pub struct Given {
    pub timestamp: u32,
    pub id: u16,
    pub entries: Entries,
}

impl PathSegment for Given {
    fn timestamp(&self) -> u32 {
        self.timestamp
    }

    fn id(&self) -> u16 {
        self.id
    }

    fn entries(&self) -> impl IntoIterator<Item = (AsEntry, impl IntoIterator<Item = PeerEntry>)> {
        self.entries.clone()
    }
}

/// The segments of an accepted book: cores and non-cores.
pub fn decode(book: &[u8]) -> [Vec<Given>; 2] {
    let mut r = Reader(book);
    let (cores, non_cores) = (r.len(2), r.len(2));
    r.take(4);
    let heads: Vec<_> = (0..cores + non_cores)
        .map(|_| (r.u32(), r.u16(), r.u16(), r.u16()))
        .collect();
    let mut segments = heads.into_iter().map(|(timestamp, id, count, _)| Given {
        timestamp,
        id,
        entries: (0..count).map(|_| entry(&mut r)).collect(),
    });
    let cores = segments.by_ref().take(cores).collect();
    [cores, segments.collect()]
}

fn entry(r: &mut Reader) -> (AsEntry, Vec<PeerEntry>) {
    let (local, mtu, ingress_mtu) = (IsdAsn(r.number(AS_SIZE)), r.u32(), r.u16());
    let (ingress, egress, units) = (r.u16(), r.u16(), r.u8());
    let hop = HopField {
        units,
        ingress,
        egress,
        mac: r.mac(),
    };
    let entry = AsEntry {
        local,
        mtu,
        ingress_mtu,
        hop,
    };
    let peers = r.u8();
    (entry, (0..peers).map(|_| peer(r)).collect())
}

fn peer(r: &mut Reader) -> PeerEntry {
    PeerEntry {
        peer: IsdAsn(r.number(AS_SIZE)),
        interface: r.u16(),
        mtu: r.u16(),
        hop: HopField {
            units: r.u8(),
            ingress: r.u16(),
            egress: r.u16(),
            mac: r.mac(),
        },
    }
}
