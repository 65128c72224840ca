//! SCION path combination: the proved C library of `include/combinator.h`, from Rust.
//!
//! [`list`] lists every way to join the segments of a book into a path from a source to a destination,
//! the best first. [`routes`] lists each route once, by the solution that lives longest. [`assemble`]
//! makes the path of one of them. [`write()`] writes a path as the bytes that routers take, and [`read`]
//! reads such bytes back. All write to a lent buffer, and what they answer borrows it; nothing is
//! allocated and nothing is kept between calls.
//!
//! With the feature `alloc`, `combine` and `combine_routes` take segments and answer paths that own
//! their bytes.
//!
//! README.md shows the switch from scion-sdk's `combine`.
#![no_std]
#![warn(missing_docs)]

#[cfg(feature = "alloc")]
extern crate alloc;

mod book;
mod bytes;
#[cfg(feature = "alloc")]
mod combine;
mod isd_asn;
mod layout;
mod path;
mod refusal;
mod solution;

pub use book::{AsEntry, BookWriter, PathSegment, PeerEntry};
#[cfg(feature = "alloc")]
pub use combine::{combine, combine_routes, paths, route_paths, OwnedPath, OwnedSegment};
pub use isd_asn::{IsdAsn, ParseError};
pub use layout::{
    LIST_SIZE, MAX_BOOK, MAX_EDGES, MAX_ENTRIES, MAX_HOPS, MAX_INTERFACES, MAX_PEERS, MAX_SEGMENTS,
    MAX_SOLUTIONS, WIRE_SIZE,
};
pub use path::{HopField, InfoField, Path, PathInterface, Segment};
pub use refusal::Refusal;
pub use solution::{Solution, SolutionEdge, SolutionIter, Solutions};

mod ffi {
    extern "C" {
        pub fn combinator_list(
            src: u64,
            dst: u64,
            book: *const u8,
            book_len: usize,
            out: *mut u8,
            out_len: usize,
        ) -> u32;

        pub fn combinator_routes(
            src: u64,
            dst: u64,
            book: *const u8,
            book_len: usize,
            out: *mut u8,
            out_len: usize,
        ) -> u32;

        pub fn combinator_assemble(
            src: u64,
            dst: u64,
            book: *const u8,
            book_len: usize,
            record: *const u8,
            record_len: usize,
            out: *mut u8,
            out_len: usize,
        ) -> u32;

        pub fn combinator_write(
            path: *const u8,
            path_len: usize,
            out: *mut u8,
            out_len: usize,
        ) -> u32;

        pub fn combinator_read(
            wire: *const u8,
            wire_len: usize,
            out: *mut u8,
            out_len: usize,
        ) -> u32;
    }
}

/// Lists the solutions from `src` to `dst` of a book, the best first.
///
/// There is a slot for each [`Solution::SIZE`] bytes of `out`, but not more than [`MAX_SOLUTIONS`]; with more solutions
/// than slots the answer is [`Refusal::Full`]. [`LIST_SIZE`] bytes suffice for every book that can be
/// listed at all, and a shorter output is cheaper, since all of it is set. Where `src` equals `dst` the
/// list is empty.
pub fn list<'a>(
    src: IsdAsn,
    dst: IsdAsn,
    book: &[u8],
    out: &'a mut [u8],
) -> Result<Solutions<'a>, Refusal> {
    // SAFETY: each pointer is a slice's, so it is not null, also where the slice is empty, and is good
    // for the length beside it. A slice lent mutably overlaps no other. The library keeps no pointer.
    let answer = unsafe {
        ffi::combinator_list(
            src.0,
            dst.0,
            book.as_ptr(),
            book.len(),
            out.as_mut_ptr(),
            out.len(),
        )
    };
    listed(answer, out)
}

/// Lists the routes from `src` to `dst` of a book, each once.
///
/// Two paths are the same route where their interfaces are equal: the same ASes and ids, in the same
/// order. Of the solutions of a route, the first of those whose paths live longest is answered, at the
/// place of the first of all. So routes stand in the order in which they first appear in [`list`], which
/// need not be the order of the solutions answered. Each of these has a path: Loop and Bare are left out.
///
/// It refuses where [`list`] does, with the same refusal: `out` has a slot for every solution, also
/// where the routes are fewer.
pub fn routes<'a>(
    src: IsdAsn,
    dst: IsdAsn,
    book: &[u8],
    out: &'a mut [u8],
) -> Result<Solutions<'a>, Refusal> {
    // SAFETY: as in `list`.
    let answer = unsafe {
        ffi::combinator_routes(
            src.0,
            dst.0,
            book.as_ptr(),
            book.len(),
            out.as_mut_ptr(),
            out.len(),
        )
    };
    listed(answer, out)
}

fn listed(answer: u32, out: &[u8]) -> Result<Solutions<'_>, Refusal> {
    Ok(Solutions::new(out, counted(answer)?))
}

/// The count that an answer is, where it is no refusal.
fn counted(answer: u32) -> Result<usize, Refusal> {
    match Refusal::of_answer(answer) {
        Some(refusal) => Err(refusal),
        None => Ok(answer as usize),
    }
}

/// What [`assemble`] makes of a solution.
#[derive(Clone, Copy, Debug, PartialEq, Eq)]
pub enum Assembled<'a> {
    /// The path.
    Path(Path<'a>),
    /// No path: its interfaces would show one AS more than twice.
    Loop,
    /// No path: it would have no interfaces.
    Bare,
}

impl<'a> Assembled<'a> {
    /// The path, where there is one.
    pub fn path(self) -> Option<Path<'a>> {
        match self {
            Self::Path(path) => Some(path),
            Self::Loop | Self::Bare => None,
        }
    }
}

/// Makes the path of a solution.
///
/// `src`, `dst` and `book` are those of the listing. `solution` is a [`Solution`], or the bytes of one;
/// other bytes are refused as [`Refusal::Stranger`]. A solution of a list that is too long
/// ([`Refusal::Full`]) is taken too. `out` has at least [`Path::SIZE`] bytes.
pub fn assemble<'a>(
    src: IsdAsn,
    dst: IsdAsn,
    book: &[u8],
    solution: impl AsRef<[u8]>,
    out: &'a mut [u8],
) -> Result<Assembled<'a>, Refusal> {
    let record = solution.as_ref();
    // SAFETY: as in `list`; `solution` lives until the call has ended.
    let answer = unsafe {
        ffi::combinator_assemble(
            src.0,
            dst.0,
            book.as_ptr(),
            book.len(),
            record.as_ptr(),
            record.len(),
            out.as_mut_ptr(),
            out.len(),
        )
    };
    match answer {
        layout::PATH => Ok(Assembled::Path(Path::at_front(out))),
        layout::LOOP => Ok(Assembled::Loop),
        layout::BARE => Ok(Assembled::Bare),
        _ => Err(Refusal::of_answer(answer).expect("an answer that combinator.h names")),
    }
}

/// Writes a path as the bytes that routers take: the standard path of the SCION data plane, with both
/// current indexes 0.
///
/// `path` is a [`Path`], or the bytes of one; other bytes are refused as [`Refusal::Wire`]. Its infos and
/// hops are written. Its interfaces must be there and are not looked at, nor are bytes after them. `out`
/// has at least [`WIRE_SIZE`] bytes. [`Path::encode`] is this call where nothing can be refused.
pub fn write(path: impl AsRef<[u8]>, out: &mut [u8]) -> Result<&[u8], Refusal> {
    let record = path.as_ref();
    // SAFETY: as in `list`; `path` lives until the call has ended.
    let answer = unsafe {
        ffi::combinator_write(record.as_ptr(), record.len(), out.as_mut_ptr(), out.len())
    };
    Ok(&out[..counted(answer)?])
}

/// Reads a path on the wire, which is all of `wire`, back into a path of which infos and hops alone are
/// known: all else in it is zero, and it has no interfaces. Written again it gives the same bytes.
///
/// Bytes that [`write()`] can not have written are refused as [`Refusal::Wire`]; those of a packet on its
/// way are, since its current indexes have moved. `out` has at least [`Path::SIZE`] bytes.
pub fn read<'a>(wire: &[u8], out: &'a mut [u8]) -> Result<Path<'a>, Refusal> {
    // SAFETY: as in `list`.
    let answer =
        unsafe { ffi::combinator_read(wire.as_ptr(), wire.len(), out.as_mut_ptr(), out.len()) };
    Ok(Path::of_record(&out[..counted(answer)?]))
}

/// Makes the examples of README.md tests.
#[cfg(doctest)]
#[doc = include_str!("../README.md")]
struct Readme;
