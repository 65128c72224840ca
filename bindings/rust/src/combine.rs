//! Segments in, paths out, in memory that is allocated.

use alloc::{boxed::Box, vec, vec::Vec};

use crate::{
    assemble, list, routes, AsEntry, Assembled, BookWriter, IsdAsn, Path, PathSegment, PeerEntry,
    Refusal, Solutions, LIST_SIZE, MAX_BOOK,
};

/// A segment that owns its entries.
#[derive(Clone, Debug, PartialEq, Eq, Hash)]
pub struct OwnedSegment {
    /// Its timestamp, in seconds.
    pub timestamp: u32,
    /// Its id.
    pub id: u16,
    /// Its entries in construction order, each with its peers.
    pub entries: Vec<(AsEntry, Vec<PeerEntry>)>,
}

impl PathSegment for OwnedSegment {
    fn timestamp(&self) -> u32 {
        self.timestamp
    }

    fn id(&self) -> u16 {
        self.id
    }

    fn entries(&self) -> impl IntoIterator<Item = (AsEntry, impl IntoIterator<Item = PeerEntry>)> {
        let entries = self.entries.iter();
        entries.map(|(entry, peers)| (*entry, peers.iter().copied()))
    }
}

/// A path that owns its bytes.
#[derive(Clone, PartialEq, Eq)]
pub struct OwnedPath(Box<[u8]>);

impl OwnedPath {
    /// The path, to be looked at.
    pub fn as_path(&self) -> Path<'_> {
        Path::of_record(&self.0)
    }
}

impl From<Path<'_>> for OwnedPath {
    fn from(path: Path<'_>) -> Self {
        Self(path.as_bytes().into())
    }
}

impl core::fmt::Debug for OwnedPath {
    fn fmt(&self, f: &mut core::fmt::Formatter<'_>) -> core::fmt::Result {
        self.as_path().fmt(f)
    }
}

/// Combines segments into every path from `src` to `dst`, the best first.
///
/// It has the shape of scion-sdk's `combine`. Solutions without a path, Loop and Bare, are left out, and
/// where `src` equals `dst` there are no paths. But paths over the same route are all answered
/// ([`combine_routes`] answers one of them), and what is above a limit is refused: segments, or more
/// than [`MAX_SOLUTIONS`](crate::MAX_SOLUTIONS) solutions. So is a segment that passes an AS twice. The
/// table of README.md, "What differs", has all of it.
///
/// To leave out single segments that are refused, write the book with [`BookWriter::cores`] and
/// [`BookWriter::non_cores`], and ask [`paths`].
///
/// ```
/// use combinator::{combine, AsEntry, HopField, IsdAsn, OwnedSegment};
///
/// let (src, dst) = (IsdAsn(0x0001_ff00_0000_0111), IsdAsn(0x0001_ff00_0000_0110));
/// let entry = |local, ingress, egress| AsEntry {
///     local,
///     mtu: 1500,
///     hop: HopField { units: 63, ingress, egress, mac: [0; 6] },
///     ..AsEntry::default()
/// };
/// let up = OwnedSegment {
///     timestamp: 1_000_000,
///     id: 0x1234,
///     entries: vec![(entry(dst, 0, 5), vec![]), (entry(src, 7, 0), vec![])],
/// };
/// let paths = combine(src, dst, &[], &[up])?;
/// assert_eq!(paths.len(), 1);
/// assert_eq!(paths[0].as_path().mtu(), 1500);
/// # Ok::<(), combinator::Refusal>(())
/// ```
pub fn combine<S: PathSegment>(
    src: IsdAsn,
    dst: IsdAsn,
    cores: impl IntoIterator<Item = S>,
    non_cores: impl IntoIterator<Item = S>,
) -> Result<Vec<OwnedPath>, Refusal> {
    let mut room = vec![0; MAX_BOOK];
    paths(src, dst, written(cores, non_cores, &mut room)?)
}

/// Combines segments into one path for each route from `src` to `dst`: of several over the same
/// interfaces, the first of those that live longest.
///
/// The paths stand in the order in which [`combine`] first answers each route, and it refuses where
/// [`combine`] does. A carrier that reissues a segment so adds no path, and renews those that it has.
pub fn combine_routes<S: PathSegment>(
    src: IsdAsn,
    dst: IsdAsn,
    cores: impl IntoIterator<Item = S>,
    non_cores: impl IntoIterator<Item = S>,
) -> Result<Vec<OwnedPath>, Refusal> {
    let mut room = vec![0; MAX_BOOK];
    route_paths(src, dst, written(cores, non_cores, &mut room)?)
}

/// The book of segments.
fn written<S: PathSegment>(
    cores: impl IntoIterator<Item = S>,
    non_cores: impl IntoIterator<Item = S>,
    room: &mut [u8],
) -> Result<&[u8], Refusal> {
    let mut book = BookWriter::new(room)?;
    for s in cores {
        book.core(s.timestamp(), s.id(), s.entries())?;
    }
    for s in non_cores {
        book.non_core(s.timestamp(), s.id(), s.entries())?;
    }
    Ok(book.finish())
}

/// Every path from `src` to `dst` of a book, the best first, as [`combine`] answers them.
pub fn paths(src: IsdAsn, dst: IsdAsn, book: &[u8]) -> Result<Vec<OwnedPath>, Refusal> {
    let mut slots = vec![0; LIST_SIZE];
    let solutions = list(src, dst, book, &mut slots)?;
    assembled(src, dst, book, solutions)
}

/// One path for each route from `src` to `dst` of a book, as [`combine_routes`] answers them.
pub fn route_paths(src: IsdAsn, dst: IsdAsn, book: &[u8]) -> Result<Vec<OwnedPath>, Refusal> {
    let mut slots = vec![0; LIST_SIZE];
    let solutions = routes(src, dst, book, &mut slots)?;
    assembled(src, dst, book, solutions)
}

/// The paths of solutions that have one.
fn assembled(
    src: IsdAsn,
    dst: IsdAsn,
    book: &[u8],
    solutions: Solutions<'_>,
) -> Result<Vec<OwnedPath>, Refusal> {
    let mut room = [0; Path::SIZE];
    let mut paths = Vec::new();
    for solution in solutions {
        if let Assembled::Path(path) = assemble(src, dst, book, solution, &mut room)? {
            paths.push(path.into());
        }
    }
    Ok(paths)
}
