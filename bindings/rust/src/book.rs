use crate::{layout::*, HopField, IsdAsn, Refusal};

/// An entry of a segment, without its peers.
#[derive(Clone, Copy, Debug, Default, PartialEq, Eq, Hash)]
pub struct AsEntry {
    /// Its AS.
    pub local: IsdAsn,
    /// The MTU within the AS.
    pub mtu: u32,
    /// The MTU of the link at the ingress, or 0.
    pub ingress_mtu: u16,
    /// The hop.
    pub hop: HopField,
}

impl AsEntry {
    /// The bytes of an entry in a book.
    pub const SIZE: usize = ENTRY_SIZE;
}

/// A peer of an entry.
#[derive(Clone, Copy, Debug, Default, PartialEq, Eq, Hash)]
pub struct PeerEntry {
    /// The peer's AS.
    pub peer: IsdAsn,
    /// The peer's interface.
    pub interface: u16,
    /// The MTU of the peering link.
    pub mtu: u16,
    /// The hop over the peering link.
    pub hop: HopField,
}

impl PeerEntry {
    /// The bytes of a peer in a book.
    pub const SIZE: usize = PEER_SIZE;
}

/// A segment as a caller holds it, to be written into a book.
pub trait PathSegment {
    /// Its timestamp, in seconds.
    fn timestamp(&self) -> u32;

    /// Its id.
    fn id(&self) -> u16;

    /// Its entries in construction order, each with its peers.
    fn entries(&self) -> impl IntoIterator<Item = (AsEntry, impl IntoIterator<Item = PeerEntry>)>;
}

impl<S: PathSegment> PathSegment for &S {
    fn timestamp(&self) -> u32 {
        (**self).timestamp()
    }

    fn id(&self) -> u16 {
        (**self).id()
    }

    fn entries(&self) -> impl IntoIterator<Item = (AsEntry, impl IntoIterator<Item = PeerEntry>)> {
        (**self).entries()
    }
}

/// Writes a book into a lent buffer: segments with their entries and peers, laid out as the library
/// reads them.
///
/// A segment's kind goes with the call that writes it, and core and non-core segments may follow each
/// other in any order. In the book the core segments stand first; each kind keeps the order of its calls.
///
/// It refuses with the library's words what the library would refuse. A segment that is refused leaves
/// the book as it was, and the next may be tried.
///
/// ```
/// use combinator::{list, AsEntry, BookWriter, HopField, IsdAsn, Solution, MAX_BOOK};
///
/// let (src, dst) = (IsdAsn(0x0001_ff00_0000_0111), IsdAsn(0x0001_ff00_0000_0110));
/// let entry = |local, ingress, egress| AsEntry {
///     local,
///     mtu: 1500,
///     hop: HopField { units: 63, ingress, egress, mac: [0; 6] },
///     ..AsEntry::default()
/// };
/// let mut room = [0; MAX_BOOK];
/// let mut book = BookWriter::new(&mut room)?;
/// book.non_core(1_000_000, 0x1234, [(entry(dst, 0, 5), []), (entry(src, 7, 0), [])])?;
/// assert_eq!(list(src, dst, book.finish(), &mut [0; Solution::SIZE])?.len(), 1);
/// # Ok::<(), combinator::Refusal>(())
/// ```
#[derive(Debug)]
pub struct BookWriter<'a> {
    /// The bodies of all segments, cores first, after the room of the counts. How many heads stand
    /// between the two is known at the end, so `finish` moves the bodies to make way.
    room: &'a mut [u8],
    /// Where the bodies of the cores end, and where those of all segments do.
    cores_end: usize,
    end: usize,
    /// The heads of all segments, cores first.
    heads: [[u8; HEAD_SIZE]; MAX_SEGMENTS],
    cores: usize,
    count: usize,
}

impl<'a> BookWriter<'a> {
    /// A book without segments.
    ///
    /// `room` of [`MAX_BOOK`] bytes takes every book. [`Refusal::Oversize`] is answered for a shorter one
    /// too, where the book outgrows it.
    pub fn new(room: &'a mut [u8]) -> Result<Self, Refusal> {
        let len = room.len().min(MAX_BOOK);
        if len < COUNTS_SIZE {
            return Err(Refusal::Oversize);
        }
        Ok(Self {
            room: &mut room[..len],
            cores_end: COUNTS_SIZE,
            end: COUNTS_SIZE,
            heads: [[0; HEAD_SIZE]; MAX_SEGMENTS],
            cores: 0,
            count: 0,
        })
    }

    /// Writes a core segment: its entries in construction order, each with its peers.
    pub fn core<P>(
        &mut self,
        timestamp: u32,
        id: u16,
        entries: impl IntoIterator<Item = (AsEntry, P)>,
    ) -> Result<(), Refusal>
    where
        P: IntoIterator<Item = PeerEntry>,
    {
        let len = self.last(timestamp, id, entries)?;
        // It goes before the non-cores.
        self.heads[self.cores..self.count].rotate_right(1);
        self.room[self.cores_end..self.end].rotate_right(len);
        self.cores += 1;
        self.cores_end += len;
        Ok(())
    }

    /// Writes a non-core segment, as [`core`](Self::core) a core one.
    pub fn non_core<P>(
        &mut self,
        timestamp: u32,
        id: u16,
        entries: impl IntoIterator<Item = (AsEntry, P)>,
    ) -> Result<(), Refusal>
    where
        P: IntoIterator<Item = PeerEntry>,
    {
        self.last(timestamp, id, entries).map(|_| ())
    }

    /// Writes each core segment that fits, and hands each that is refused to `left_out`.
    ///
    /// A path over a segment that is left out is not found.
    pub fn cores<S: PathSegment>(
        &mut self,
        segments: impl IntoIterator<Item = S>,
        mut left_out: impl FnMut(S, Refusal),
    ) {
        for segment in segments {
            let written = self.core(segment.timestamp(), segment.id(), segment.entries());
            if let Err(refusal) = written {
                left_out(segment, refusal);
            }
        }
    }

    /// Writes each non-core segment that fits, as [`cores`](Self::cores) the core ones.
    pub fn non_cores<S: PathSegment>(
        &mut self,
        segments: impl IntoIterator<Item = S>,
        mut left_out: impl FnMut(S, Refusal),
    ) {
        for segment in segments {
            let written = self.non_core(segment.timestamp(), segment.id(), segment.entries());
            if let Err(refusal) = written {
                left_out(segment, refusal);
            }
        }
    }

    /// The book.
    pub fn finish(self) -> &'a [u8] {
        let bodies = COUNTS_SIZE + HEAD_SIZE * self.count;
        let total = self.end - COUNTS_SIZE;
        let book = &mut self.room[..bodies + total];
        book.copy_within(COUNTS_SIZE..self.end, bodies);
        put(book, COUNTS_SIZE, self.heads[..self.count].as_flattened());

        let non_cores = self.count - self.cores;
        let counts = &mut book[..COUNTS_SIZE];
        counts.fill(0);
        put(counts, COUNTS_CORES, &(self.cores as u16).to_be_bytes());
        put(counts, COUNTS_NON_CORES, &(non_cores as u16).to_be_bytes());
        put(counts, COUNTS_BODIES, &(total as u32).to_be_bytes());
        book
    }

    /// Writes a segment after all others, and answers the length of its body.
    fn last<P>(
        &mut self,
        timestamp: u32,
        id: u16,
        entries: impl IntoIterator<Item = (AsEntry, P)>,
    ) -> Result<usize, Refusal>
    where
        P: IntoIterator<Item = PeerEntry>,
    {
        if self.count == MAX_SEGMENTS {
            return Err(Refusal::Crowded);
        }
        let heads = HEAD_SIZE * (self.count + 1);
        let left = self.room.len().checked_sub(self.end + heads);
        let room = &mut self.room[self.end..][..left.ok_or(Refusal::Oversize)?];
        let mut body = Body { room, at: 0 };
        let mut ases = [IsdAsn(0); MAX_ENTRIES];
        let mut count = 0;
        for (entry, peers) in entries {
            if count == MAX_ENTRIES {
                return Err(Refusal::Long);
            }
            body.entry(&entry, peers)?;
            ases[count] = entry.local;
            count += 1;
        }
        if (1..count).any(|i| ases[..i].contains(&ases[i])) {
            return Err(Refusal::Twice);
        }
        let len = body.at;

        let head = &mut self.heads[self.count];
        put(head, HEAD_TIMESTAMP, &timestamp.to_be_bytes());
        put(head, HEAD_ID, &id.to_be_bytes());
        put(head, HEAD_ENTRY_COUNT, &(count as u16).to_be_bytes());
        put(head, HEAD_BODY_LENGTH, &(len as u16).to_be_bytes());
        self.count += 1;
        self.end += len;
        Ok(len)
    }
}

// The longest body's length fits into its head.
const _: () = assert!(MAX_ENTRIES * (ENTRY_SIZE + MAX_PEERS * PEER_SIZE) <= u16::MAX as usize);

/// Writes a field of a part at its place.
fn put(part: &mut [u8], at: usize, field: &[u8]) {
    part[at..at + field.len()].copy_from_slice(field);
}

struct Body<'a> {
    room: &'a mut [u8],
    at: usize,
}

impl Body<'_> {
    fn entry(
        &mut self,
        entry: &AsEntry,
        peers: impl IntoIterator<Item = PeerEntry>,
    ) -> Result<(), Refusal> {
        let at = self.at;
        let part = self.part(ENTRY_SIZE)?;
        put(part, ENTRY_AS, &entry.local.0.to_be_bytes());
        put(part, ENTRY_MTU, &entry.mtu.to_be_bytes());
        put(part, ENTRY_INGRESS_MTU, &entry.ingress_mtu.to_be_bytes());
        put(part, ENTRY_INGRESS, &entry.hop.ingress.to_be_bytes());
        put(part, ENTRY_EGRESS, &entry.hop.egress.to_be_bytes());
        put(part, ENTRY_UNITS, &[entry.hop.units]);
        put(part, ENTRY_MAC, &entry.hop.mac);
        let mut count = 0;
        for peer in peers {
            if usize::from(count) == MAX_PEERS {
                return Err(Refusal::Peers);
            }
            count += 1;
            self.peer(&peer)?;
        }
        self.room[at + ENTRY_PEER_COUNT] = count;
        Ok(())
    }

    fn peer(&mut self, peer: &PeerEntry) -> Result<(), Refusal> {
        let part = self.part(PEER_SIZE)?;
        put(part, PEER_AS, &peer.peer.0.to_be_bytes());
        put(part, PEER_INTERFACE, &peer.interface.to_be_bytes());
        put(part, PEER_MTU, &peer.mtu.to_be_bytes());
        put(part, PEER_UNITS, &[peer.hop.units]);
        put(part, PEER_INGRESS, &peer.hop.ingress.to_be_bytes());
        put(part, PEER_EGRESS, &peer.hop.egress.to_be_bytes());
        put(part, PEER_MAC, &peer.hop.mac);
        Ok(())
    }

    /// The next bytes of the body, set to zero.
    fn part(&mut self, size: usize) -> Result<&mut [u8], Refusal> {
        let end = self.at + size;
        let part = self.room.get_mut(self.at..end).ok_or(Refusal::Oversize)?;
        part.fill(0);
        self.at = end;
        Ok(part)
    }
}
