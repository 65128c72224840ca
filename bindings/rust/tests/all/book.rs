//! The writer of books.

use combinator::{
    assemble, list, routes, AsEntry, BookWriter, IsdAsn, PeerEntry, Refusal, Solution, LIST_SIZE,
    MAX_BOOK, MAX_ENTRIES, MAX_PEERS, MAX_SEGMENTS,
};

use crate::common::{decode, worked, Entries, Given, AS_SIZE};

/// A segment of so many entries with so many peers each, which all hold its id: the entries in their ISD.
fn segment(id: u16, entries: usize, peers: usize) -> Given {
    let entry = |place: usize| AsEntry {
        local: IsdAsn(u64::from(id) << 48 | place as u64),
        ..AsEntry::default()
    };
    let peer = PeerEntry {
        interface: id,
        ..PeerEntry::default()
    };
    Given {
        timestamp: 1,
        id,
        entries: (0..entries)
            .map(|place| (entry(place), vec![peer; peers]))
            .collect(),
    }
}

/// A segment whose entries, without peers, are of these ASes.
fn over(id: u16, ases: &[u64]) -> Given {
    let mut made = segment(id, ases.len(), 0);
    for ((entry, _), isd_as) in made.entries.iter_mut().zip(ases) {
        entry.local = IsdAsn(*isd_as);
    }
    made
}

fn core(book: &mut BookWriter, s: &Given) -> Result<(), Refusal> {
    book.core(s.timestamp, s.id, s.entries.clone())
}

fn non_core(book: &mut BookWriter, s: &Given) -> Result<(), Refusal> {
    book.non_core(s.timestamp, s.id, s.entries.clone())
}

/// The bytes of a book of so many segments without entries.
fn empty(segments: usize) -> usize {
    let mut room = vec![0; MAX_BOOK];
    let mut book = BookWriter::new(&mut room).unwrap();
    for _ in 0..segments {
        book.core(1, 2, Entries::new()).unwrap();
    }
    book.finish().len()
}

#[test]
fn worked_is_written() {
    let [cores, non_cores] = decode(&worked());
    assert_eq!((cores.len(), non_cores.len()), (0, 1));
    // The room may be just as long, and no shorter.
    let mut room = vec![0xa5; worked().len()];
    let mut book = BookWriter::new(&mut room).unwrap();
    assert_eq!(non_core(&mut book, &non_cores[0]), Ok(()));
    assert_eq!(book.finish(), worked());
    let short = room.len() - 1;
    let mut book = BookWriter::new(&mut room[..short]).unwrap();
    assert_eq!(non_core(&mut book, &non_cores[0]), Err(Refusal::Oversize));
}

/// A refused segment leaves the book as it was: the next one's kind and place are not touched.
#[test]
fn refused_segments() {
    let (first, second) = (segment(1, 2, 1), segment(2, 3, 0));
    let long = segment(3, MAX_ENTRIES + 1, 0);
    let peers = segment(4, 2, MAX_PEERS + 1);
    let mut room = vec![0xa5; MAX_BOOK];
    let mut book = BookWriter::new(&mut room).unwrap();
    assert_eq!(core(&mut book, &long), Err(Refusal::Long));
    assert_eq!(core(&mut book, &peers), Err(Refusal::Peers));
    assert_eq!(non_core(&mut book, &first), Ok(()));
    assert_eq!(non_core(&mut book, &long), Err(Refusal::Long));
    assert_eq!(core(&mut book, &long), Err(Refusal::Long));
    assert_eq!(core(&mut book, &second), Ok(()));
    assert_eq!(non_core(&mut book, &peers), Err(Refusal::Peers));
    let book = book.finish();
    assert_eq!(decode(book), [vec![second], vec![first]]);
    assert!(list(IsdAsn(1), IsdAsn(9), book, &mut [0; LIST_SIZE]).is_ok());
}

/// The bytes of a book of non-cores as they are, whether it is accepted or not.
fn unchecked(segments: &[Given]) -> Vec<u8> {
    let bodies: Vec<Vec<u8>> = segments.iter().map(body).collect();
    let total: usize = bodies.iter().map(Vec::len).sum();
    let mut book = [0, segments.len() as u16].map(u16::to_be_bytes).concat();
    book.extend((total as u32).to_be_bytes());
    for (s, body) in segments.iter().zip(&bodies) {
        book.extend(s.timestamp.to_be_bytes());
        let rest = [s.id, s.entries.len() as u16, body.len() as u16];
        book.extend(rest.map(u16::to_be_bytes).concat());
    }
    book.extend(bodies.concat());
    book
}

/// Entries with their ASes, all else zero.
fn body(s: &Given) -> Vec<u8> {
    let mut bytes = Vec::new();
    for (entry, peers) in &s.entries {
        assert!(peers.is_empty());
        bytes.extend(entry.local.0.to_be_bytes());
        bytes.resize(bytes.len() + AsEntry::SIZE - AS_SIZE, 0);
    }
    bytes
}

/// A segment that passes an AS twice is refused by the writer and, where others wrote it, by every call.
#[test]
fn twice() {
    let (a, b, c) = (0x0001_ff00_0000_0110, 0x0001_ff00_0000_0111, 9);
    let other_isd = 0x0002_ff00_0000_0110;
    let whole: Vec<u64> = (1..=MAX_ENTRIES as u64).collect();
    let mut last_again = whole.clone();
    last_again[MAX_ENTRIES - 1] = last_again[0];
    for ases in [
        &[a, a][..],
        &[a, b, a],
        &[c, a, a],
        &[c, a, b, a],
        &[a, b, a, c],
        &[0, 0],
        &last_again,
    ] {
        let (fits, repeats) = (over(1, &[a, b]), over(2, ases));
        let mut room = vec![0xa5; MAX_BOOK];
        let mut book = BookWriter::new(&mut room).unwrap();
        assert_eq!(core(&mut book, &repeats), Err(Refusal::Twice), "{ases:x?}");
        assert_eq!(non_core(&mut book, &fits), Ok(()));
        assert_eq!(non_core(&mut book, &repeats), Err(Refusal::Twice));
        let mut out = Vec::new();
        book.cores([&repeats, &fits], |s, refusal| out.push((s.id, refusal)));
        book.non_cores([&repeats], |s, refusal| out.push((s.id, refusal)));
        assert_eq!(out, [(2, Refusal::Twice), (2, Refusal::Twice)]);
        assert_eq!(
            decode(book.finish()),
            [vec![fits.clone()], vec![fits.clone()]]
        );

        let book = unchecked(&[fits, repeats]);
        let mut slots = [0xa5; 4 * Solution::SIZE];
        let (src, dst) = (IsdAsn(a), IsdAsn(b));
        assert_eq!(list(src, dst, &book, &mut slots), Err(Refusal::Twice));
        assert!(slots.iter().all(|byte| *byte == 0));
        assert_eq!(routes(src, dst, &book, &mut slots), Err(Refusal::Twice));
        let answer = assemble(src, dst, &book, [], &mut slots);
        assert_eq!(answer, Err(Refusal::Twice));
    }
    // The same AS in another ISD or in another segment is none of it; nor is a segment that is there twice.
    for ases in [&[a, other_isd][..], &[a, b], &[b], &whole] {
        let segments = [over(1, &[a, b]), over(2, ases), over(2, ases)];
        let mut room = vec![0xa5; MAX_BOOK];
        let mut book = BookWriter::new(&mut room).unwrap();
        book.non_cores(&segments, |s, refusal| panic!("{refusal}: {s:?}"));
        let book = book.finish();
        assert_eq!(book, unchecked(&segments));
        let mut slots = [0; 4 * Solution::SIZE];
        assert!(list(IsdAsn(a), IsdAsn(b), book, &mut slots).is_ok());
    }
}

/// Of the refusals of one segment, the one that the library tests first.
#[test]
fn before_twice() {
    let mut peers = segment(1, 2, MAX_PEERS + 1);
    peers.entries[0].1.clear();
    peers.entries[1].0.local = peers.entries[0].0.local;
    let long = over(2, &[7; MAX_ENTRIES + 1]);
    let twice = over(3, &[7, 7]);
    let mut room = vec![0; empty(1) + 2 * AsEntry::SIZE];
    let mut book = BookWriter::new(&mut room).unwrap();
    assert_eq!(core(&mut book, &twice), Err(Refusal::Twice));
    let mut short = vec![0; empty(1) + 2 * AsEntry::SIZE - 1];
    let mut book = BookWriter::new(&mut short).unwrap();
    assert_eq!(core(&mut book, &twice), Err(Refusal::Oversize));
    let mut room = vec![0; MAX_BOOK];
    let mut book = BookWriter::new(&mut room).unwrap();
    assert_eq!(core(&mut book, &peers), Err(Refusal::Peers));
    assert_eq!(non_core(&mut book, &long), Err(Refusal::Long));
    for _ in 0..MAX_SEGMENTS {
        assert_eq!(core(&mut book, &segment(2, 0, 0)), Ok(()));
    }
    assert_eq!(non_core(&mut book, &twice), Err(Refusal::Crowded));
}

/// Calls of both kinds in every order make one book.
#[test]
fn any_order() {
    let cores: Vec<_> = (0..3).map(|i| segment(i, i.into(), 1)).collect();
    let non_cores: Vec<_> = (3..6).map(|i| segment(i, i.into(), 2)).collect();
    let mut orders = 0;
    for order in 0..64u32 {
        if order.count_ones() != 3 {
            continue;
        }
        let mut room = vec![0xa5; MAX_BOOK];
        let mut book = BookWriter::new(&mut room).unwrap();
        let (mut c, mut n) = (cores.iter(), non_cores.iter());
        for turn in 0..6 {
            if order >> turn & 1 == 1 {
                core(&mut book, c.next().unwrap()).unwrap();
            } else {
                non_core(&mut book, n.next().unwrap()).unwrap();
            }
        }
        let want = [cores.clone(), non_cores.clone()];
        assert_eq!(decode(book.finish()), want);
        orders += 1;
    }
    assert_eq!(orders, 20);
}

/// What fits is written, and the rest is reported.
#[test]
fn left_out() {
    let long = segment(1, MAX_ENTRIES + 1, 0);
    let peers = segment(2, 1, MAX_PEERS + 1);
    let fits = segment(3, 2, 1);
    let mut room = vec![0xa5; MAX_BOOK];
    let mut book = BookWriter::new(&mut room).unwrap();
    let mut out = Vec::new();
    book.cores([&long, &fits, &peers], |s, refusal| {
        out.push((s.id, refusal))
    });
    assert_eq!(out, [(1, Refusal::Long), (2, Refusal::Peers)]);
    let mut out = Vec::new();
    book.non_cores([&peers, &long], |s, refusal| out.push((s.id, refusal)));
    assert_eq!(out, [(2, Refusal::Peers), (1, Refusal::Long)]);
    // Owned segments are taken too, and come back.
    book.non_cores([fits.clone(), long.clone()], |s, _| assert_eq!(s, long));
    assert_eq!(decode(book.finish()), [vec![fits.clone()], vec![fits]]);

    // One that does not fit keeps no smaller one out.
    let (large, small) = (segment(1, 2, 0), segment(2, 1, 0));
    let mut room = vec![0; empty(1) + AsEntry::SIZE];
    let mut book = BookWriter::new(&mut room).unwrap();
    let mut out = Vec::new();
    let given = [&large, &small, &small];
    book.non_cores(given, |s, refusal| out.push((s.id, refusal)));
    assert_eq!(out, [(1, Refusal::Oversize), (2, Refusal::Oversize)]);
    assert_eq!(decode(book.finish()), [vec![], vec![small]]);
}

#[test]
fn limits() {
    let short = BookWriter::new(&mut vec![0; empty(0) - 1]).err();
    assert_eq!(short, Some(Refusal::Oversize));

    let mut room = vec![0xa5; 2 * MAX_BOOK];
    let mut book = BookWriter::new(&mut room).unwrap();
    let full = segment(1, MAX_ENTRIES, MAX_PEERS);
    assert_eq!(non_core(&mut book, &full), Ok(()));
    for _ in 1..MAX_SEGMENTS {
        assert_eq!(core(&mut book, &segment(2, 0, 0)), Ok(()));
    }
    assert_eq!(core(&mut book, &segment(3, 0, 0)), Err(Refusal::Crowded));
    assert_eq!(non_core(&mut book, &full), Err(Refusal::Crowded));
    let book = book.finish();
    let body = MAX_ENTRIES * (AsEntry::SIZE + MAX_PEERS * PeerEntry::SIZE);
    assert_eq!(book.len(), empty(MAX_SEGMENTS) + body);
    let [cores, non_cores] = decode(book);
    assert_eq!((cores.len(), non_cores), (MAX_SEGMENTS - 1, vec![full]));
    assert!(list(IsdAsn(7), IsdAsn(9), book, &mut [0; LIST_SIZE]).is_ok());

    // A book's bytes are too few for all segments to be full, however long the room.
    let mut book = BookWriter::new(&mut room).unwrap();
    let full = segment(1, MAX_ENTRIES, MAX_PEERS);
    let mut written = 0;
    while core(&mut book, &full) == Ok(()) {
        written += 1;
    }
    assert_eq!(core(&mut book, &full), Err(Refusal::Oversize));
    let book = book.finish();
    assert_eq!(book.len(), empty(written) + written * body);
    assert!(book.len() <= MAX_BOOK && MAX_BOOK < empty(written + 1) + (written + 1) * body);
    assert!(list(IsdAsn(7), IsdAsn(9), book, &mut [0; LIST_SIZE]).is_ok());
}

/// A room is filled to its last byte by heads and bodies together.
#[test]
fn room_for_heads() {
    for segments in 1..4 {
        let exact = empty(segments);
        let mut room = vec![0; exact];
        let mut book = BookWriter::new(&mut room).unwrap();
        for _ in 0..segments {
            assert_eq!(non_core(&mut book, &segment(1, 0, 0)), Ok(()));
        }
        assert_eq!(
            non_core(&mut book, &segment(1, 0, 0)),
            Err(Refusal::Oversize)
        );
        assert_eq!(book.finish().len(), exact);
    }
}
