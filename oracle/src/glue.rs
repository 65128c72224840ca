//! The code of bindings/rust/README.md between scion-sdk and the library's crate, run on books: `to_book`
//! writes the bytes that were read, `after` answers the paths of the Rust, with the bytes of the wire that
//! the Rust encodes, and `before`, which is `combine`, those that are left of them without duplicates.

use std::{collections::BTreeMap, fmt};

use crate::{
    book,
    dataplane_path::view::ScionDpPathViewExt,
    path::combinator::graph::{InputSegment, MultiGraph, number_of_hops},
    run::{BARE, Came, path_of, split},
};

include!(concat!(env!("OUT_DIR"), "/readme.rs"));

/// What was held.
#[derive(Default)]
pub struct Held {
    books: usize,
    full: usize,
    paths: usize,
    duplicates: usize,
}

impl fmt::Display for Held {
    fn fmt(&self, f: &mut fmt::Formatter<'_>) -> fmt::Result {
        let Self { books, full, paths, duplicates } = self;
        write!(f, "{books} books, {full} of them full, {paths} paths, {duplicates} of them duplicates")
    }
}

/// Stops at the first case that differs.
pub fn hold(cases: Vec<&[u8]>) -> Held {
    let mut held = Held::default();
    for (i, case) in cases.into_iter().enumerate() {
        if let Some((source, destination, bytes)) = split(case) {
            hold_one(&format!("case {i}"), source, destination, bytes, &mut held);
        }
    }
    assert!(held.duplicates > 0, "too few books: {held}");
    held
}

fn hold_one(case: &str, source: IsdAsn, destination: IsdAsn, bytes: &[u8], held: &mut Held) {
    // A refused book has no segments.
    let Ok(book) = book::decode::<false>(bytes, false, false) else {
        return;
    };
    let (cores, non_cores) = book.segments.split_at(book.cores);
    let mut pages = vec![0; book::MAX_BOOK];
    let written = to_book(cores, non_cores, &mut pages, |_, refusal| panic!("{case}: {refusal}"));
    assert!(written == Ok(bytes), "{case}: to_book writes another book");
    held.books += 1;

    let paths = after(source, destination, cores, non_cores);
    if paths == Err(Refusal::Full) {
        held.full += 1;
        return;
    }
    let paths = paths.unwrap_or_else(|refusal| panic!("{case}: {refusal}"));
    held.paths += paths.len();
    let bare = hold_paths(case, source, destination, cores, non_cores, &paths);
    // `combine` panics where a solution is Bare.
    if !bare {
        let combined = before(source, destination, cores, non_cores);
        held.duplicates += paths.len() - combined.len();
        hold_combined(case, &paths, &combined);
    }
}

fn sorted(mut paths: Vec<ScionPath>) -> Vec<ScionPath> {
    paths.sort_by_cached_key(|path| format!("{path:?}"));
    paths
}

/// The paths are those of the Rust's solutions; answers whether one of these is Bare.
fn hold_paths<E: Entry>(
    case: &str,
    source: IsdAsn,
    destination: IsdAsn,
    cores: &[PathSegment<E>],
    non_cores: &[PathSegment<E>],
    paths: &[ScionPath],
) -> bool {
    if source == destination {
        assert!(paths.is_empty(), "{case}: a path from an AS to itself");
        return false;
    }
    let mut graph = MultiGraph::new(number_of_hops);
    let cores = cores.iter().map(InputSegment::new_core);
    graph.add_segments(cores.chain(non_cores.iter().map(InputSegment::new_non_core)));
    let (mut want, mut bare) = (Vec::new(), false);
    for solution in graph.get_paths(source, destination) {
        match path_of(&solution) {
            Came::Path(path) => {
                hold_wire(case, path.dp_path().as_slice());
                want.push(path);
            }
            Came::Loop => {}
            Came::Panic(m) if m == BARE => bare = true,
            Came::Panic(_) | Came::Refused => panic!("{case}: no answer of the Rust"),
        }
    }
    assert!(sorted(paths.to_vec()) == sorted(want), "{case}: other paths");
    bare
}

/// Bytes that the Rust encoded are read, and are written again.
fn hold_wire(case: &str, bytes: &[u8]) {
    let mut room = [0; Path::SIZE];
    let path = combinator::read(bytes, &mut room).unwrap_or_else(|refusal| panic!("{case}: {refusal}"));
    assert!(path.encode_to_vec() == bytes, "{case}: what is read is written otherwise");
}

/// Of paths with the same fingerprint `combine` has one, which lives longest.
fn hold_combined(case: &str, paths: &[ScionPath], combined: &[ScionPath]) {
    let mut longest = BTreeMap::new();
    for path in paths {
        let expiry = longest.entry(path.fingerprint()).or_insert(path.expiration());
        *expiry = path.expiration().max(*expiry);
    }
    for path in combined {
        assert!(paths.contains(path), "{case}: a path of combine that is not among ours");
        let expiry = longest.remove(&path.fingerprint());
        assert!(expiry == Some(path.expiration()), "{case}: another duplicate is kept");
    }
    assert!(longest.is_empty(), "{case}: a route that combine does not have");
}
