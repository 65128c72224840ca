//! Routes: each list of interfaces once. What is expected is worked out by hand.

use combinator::{
    assemble, list, routes, AsEntry, BookWriter, HopField, IsdAsn, Path, Refusal, Solution,
    Solutions, LIST_SIZE, MAX_BOOK,
};

use crate::{
    common::{worked, zero},
    worked::{DST, SRC},
};

const X: IsdAsn = IsdAsn(1);
const Y: IsdAsn = IsdAsn(2);

/// An entry with its ingress and egress. It lives 337 seconds.
type Entry = (IsdAsn, u16, u16);

/// A book of segments, each its timestamp, id and entries.
pub fn book(cores: &[(u32, u16, &[Entry])], non_cores: &[(u32, u16, &[Entry])]) -> Vec<u8> {
    let entry = |&(local, ingress, egress): &Entry| AsEntry {
        local,
        hop: HopField {
            ingress,
            egress,
            ..HopField::default()
        },
        ..AsEntry::default()
    };
    let mut room = vec![0; MAX_BOOK];
    let mut book = BookWriter::new(&mut room).unwrap();
    for &(timestamp, id, entries) in cores {
        let entries = entries.iter().map(|e| (entry(e), []));
        book.core(timestamp, id, entries).unwrap();
    }
    for &(timestamp, id, entries) in non_cores {
        let entries = entries.iter().map(|e| (entry(e), []));
        book.non_core(timestamp, id, entries).unwrap();
    }
    book.finish().to_vec()
}

/// The positions that each solution uses.
fn positions(solutions: Solutions) -> Vec<Vec<u8>> {
    let used = |s: Solution| s.edges().map(|e| e.position).collect();
    solutions.iter().map(used).collect()
}

fn listed(book: &[u8]) -> Vec<Vec<u8>> {
    positions(list(SRC, DST, book, &mut vec![0; LIST_SIZE]).unwrap())
}

fn kept(book: &[u8]) -> Vec<Vec<u8>> {
    positions(routes(SRC, DST, book, &mut vec![0xa5; LIST_SIZE]).unwrap())
}

/// A segment that was reissued three times, out of order, the last time to live as long as before.
pub fn reissued() -> Vec<u8> {
    let direct: &[Entry] = &[(DST, 0, 5), (SRC, 7, 0)];
    let around: &[Entry] = &[(DST, 0, 5), (X, 6, 8), (SRC, 7, 0)];
    let copies = [
        (1000, 1, direct),
        (3000, 2, direct),
        (2000, 3, direct),
        (3000, 4, direct),
    ];
    book(&[], &[&copies[..], &[(500, 5, around)]].concat())
}

#[test]
fn the_longest_lived_is_kept() {
    let book = reissued();
    assert_eq!(listed(&book), [[0], [1], [2], [3], [4]]);
    assert_eq!(kept(&book), [[1], [4]]);

    // Each has a path, and what is left of the slots is zero.
    let mut slots = [0xa5; LIST_SIZE];
    let found = routes(SRC, DST, &book, &mut slots).unwrap();
    let mut expiries = Vec::new();
    for solution in found {
        let mut room = [0; Path::SIZE];
        let answer = assemble(SRC, DST, &book, solution, &mut room).unwrap();
        expiries.push(answer.path().unwrap().expiry());
    }
    assert_eq!(expiries, [3337, 837]);
    assert!(zero(&slots[2 * Solution::SIZE..]));
}

/// By one segment, or by two that show the same interfaces: up to X by a shortcut, which lives as long, or
/// by another segment, which lives longer. That stands after another route, and takes the first's place.
#[test]
fn places_stay() {
    // Fingerprints 59cd5dc7... and ce7e27ca...
    let whole: &[Entry] = &[(DST, 0, 1), (X, 2, 3), (SRC, 4, 0)];
    let other: &[Entry] = &[(DST, 0, 5), (Y, 6, 7), (SRC, 8, 0)];
    let book = book(
        &[(2000, 1, &[(DST, 0, 1), (X, 2, 0)])],
        &[
            (1000, 2, whole),
            (9000, 3, other),
            (2000, 4, &[(X, 0, 3), (SRC, 4, 0)]),
        ],
    );
    assert_eq!(listed(&book), [vec![1], vec![2], vec![1, 0], vec![3, 0]]);
    assert_eq!(kept(&book), [vec![3, 0], vec![2]]);
}

/// Neither the ASes alone nor the ids alone make a route.
#[test]
fn different_routes() {
    let ids: &[Entry] = &[(DST, 0, 5), (SRC, 7, 0)];
    let same_ases: &[Entry] = &[(DST, 0, 5), (SRC, 8, 0)];
    assert_eq!(kept(&book(&[], &[(1, 1, ids), (2, 1, same_ases)])).len(), 2);
    let over_x: &[Entry] = &[(DST, 0, 5), (X, 6, 8), (SRC, 7, 0)];
    let over_y: &[Entry] = &[(DST, 0, 5), (Y, 6, 8), (SRC, 7, 0)];
    assert_eq!(kept(&book(&[], &[(1, 1, over_x), (2, 1, over_y)])).len(), 2);
}

/// A Loop and a Bare are solutions and no routes.
#[test]
fn without_a_path() {
    let [up, down]: [&[Entry]; 2] = [&[(X, 0, 2), (SRC, 1, 0)], &[(X, 4, 3), (DST, 1, 0)]];
    let looping = book(&[], &[(1, 1, up), (1, 2, down)]);
    assert_eq!(listed(&looping), [[0, 1]]);
    assert!(kept(&looping).is_empty());
    let bare = book(&[], &[(1, 1, &[(DST, 0, 0), (SRC, 0, 0)])]);
    assert_eq!(listed(&bare), [[0]]);
    assert!(kept(&bare).is_empty());
}

/// It refuses as listing does: a slot is needed for every solution.
#[test]
fn refused() {
    let book = reissued();
    let mut room = [0xa5; 5 * Solution::SIZE];
    let short = room.len() - 1;
    let refused = routes(SRC, DST, &book, &mut room[..short]);
    assert_eq!(refused, Err(Refusal::Full));
    assert!(zero(&room[..short]));
    let enough = routes(SRC, DST, &book, &mut room).map(|s| s.len());
    assert_eq!(enough, Ok(2));
    assert_eq!(routes(SRC, DST, &[], &mut []), Err(Refusal::Cut));
    let equal_ends = routes(SRC, SRC, &worked(), &mut []).map(|s| s.len());
    assert_eq!(equal_ends, Ok(0));
}
