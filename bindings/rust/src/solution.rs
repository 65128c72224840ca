use core::{
    fmt::{self, Debug, Formatter},
    iter::FusedIterator,
};

use crate::{
    bytes::{array, records, u16_at, Records},
    layout::*,
};

/// The solutions that [`list`](crate::list) found, the best first, or one for each route, as
/// [`routes`](crate::routes) did.
#[derive(Clone, Copy, PartialEq, Eq)]
pub struct Solutions<'a> {
    records: &'a [u8],
}

impl<'a> Solutions<'a> {
    pub(crate) fn new(out: &'a [u8], count: usize) -> Self {
        Self {
            records: &out[..Solution::SIZE * count],
        }
    }

    /// The count of solutions.
    pub fn len(&self) -> usize {
        self.records.len() / Solution::SIZE
    }

    /// Are there none?
    pub fn is_empty(&self) -> bool {
        self.records.is_empty()
    }

    /// The solution at a place in the order, from 0.
    pub fn get(&self, place: usize) -> Option<Solution> {
        self.iter().nth(place)
    }

    /// The solutions in order.
    pub fn iter(&self) -> SolutionIter<'a> {
        SolutionIter(records(self.records, Solution::SIZE, Solution::read))
    }

    /// The records, [`Solution::SIZE`] bytes each.
    pub fn as_bytes(&self) -> &'a [u8] {
        self.records
    }
}

impl<'a> IntoIterator for Solutions<'a> {
    type Item = Solution;
    type IntoIter = SolutionIter<'a>;

    fn into_iter(self) -> SolutionIter<'a> {
        self.iter()
    }
}

impl<'a> IntoIterator for &Solutions<'a> {
    type Item = Solution;
    type IntoIter = SolutionIter<'a>;

    fn into_iter(self) -> SolutionIter<'a> {
        self.iter()
    }
}

impl Debug for Solutions<'_> {
    fn fmt(&self, f: &mut Formatter<'_>) -> fmt::Result {
        f.debug_list().entries(self).finish()
    }
}

/// Solutions one by one.
#[derive(Clone)]
pub struct SolutionIter<'a>(Records<'a, Solution>);

impl Iterator for SolutionIter<'_> {
    type Item = Solution;

    fn next(&mut self) -> Option<Solution> {
        self.0.next()
    }

    fn nth(&mut self, n: usize) -> Option<Solution> {
        self.0.nth(n)
    }

    fn size_hint(&self) -> (usize, Option<usize>) {
        self.0.size_hint()
    }
}

impl DoubleEndedIterator for SolutionIter<'_> {
    fn next_back(&mut self) -> Option<Solution> {
        self.0.next_back()
    }
}

impl ExactSizeIterator for SolutionIter<'_> {}

impl FusedIterator for SolutionIter<'_> {}

/// A way to join segments of a book into a path: its record.
///
/// It says something only together with the book, source and destination that it was listed for.
#[derive(Clone, Copy, PartialEq, Eq, Hash)]
pub struct Solution([u8; Solution::SIZE]);

impl Solution {
    /// The bytes of a record.
    pub const SIZE: usize = RECORD_SIZE;

    fn read(record: &[u8]) -> Self {
        Self(array(record, 0))
    }

    /// The sum of the edges' weights: the count of links.
    pub fn cost(&self) -> u16 {
        u16_at(&self.0, RECORD_COST)
    }

    /// The uses of segments in turn, one to [`MAX_EDGES`].
    pub fn edges(
        &self,
    ) -> impl ExactSizeIterator<Item = SolutionEdge> + DoubleEndedIterator + Clone {
        let record = self.0;
        let count = usize::from(record[RECORD_EDGE_COUNT]).min(MAX_EDGES);
        (0..count).map(move |i| SolutionEdge::read(&record[RECORD_HEAD_SIZE + EDGE_SIZE * i..]))
    }

    /// The record.
    pub const fn as_bytes(&self) -> &[u8; Self::SIZE] {
        &self.0
    }
}

/// A record that was kept. Any bytes are taken here; assembly tells whether they are a solution.
impl From<[u8; Solution::SIZE]> for Solution {
    fn from(record: [u8; Solution::SIZE]) -> Self {
        Self(record)
    }
}

impl AsRef<[u8]> for Solution {
    fn as_ref(&self) -> &[u8] {
        &self.0
    }
}

impl Debug for Solution {
    fn fmt(&self, f: &mut Formatter<'_>) -> fmt::Result {
        struct Edges<'a>(&'a Solution);
        impl Debug for Edges<'_> {
            fn fmt(&self, f: &mut Formatter<'_>) -> fmt::Result {
                f.debug_list().entries(self.0.edges()).finish()
            }
        }
        f.debug_struct("Solution")
            .field("cost", &self.cost())
            .field("edges", &Edges(self))
            .finish()
    }
}

/// The use of one segment in a solution.
#[derive(Clone, Copy, Debug, PartialEq, Eq, Hash)]
pub struct SolutionEdge {
    /// The segment's position in the book, from 0, cores first.
    pub position: u8,
    /// The index of the entry at which the used part ends that starts at the leaf; 0 for the whole
    /// segment.
    pub shortcut: u8,
    /// The index of the peer at the shortcut's entry, where the edge goes through one.
    pub peer: Option<u8>,
    /// In construction direction?
    pub construction: bool,
}

impl SolutionEdge {
    fn read(edge: &[u8]) -> Self {
        Self {
            position: edge[EDGE_POSITION],
            shortcut: edge[EDGE_SHORTCUT],
            peer: edge[EDGE_PEER].checked_sub(1),
            construction: edge[EDGE_DIRECTION] == CONSTRUCTION,
        }
    }
}
