//! The files of tests/stored: answers of the Rust, refusals, and paths on the wire.

use std::collections::BTreeSet;

use combinator::{
    assemble, list, read, routes, write, Assembled, HopField, IsdAsn, Path, Refusal, Solution,
    LIST_SIZE, MAX_EDGES, WIRE_SIZE,
};

use crate::{
    common::{zero, Reader, AS_SIZE},
    file,
};

pub struct Input<'a> {
    pub src: IsdAsn,
    pub dst: IsdAsn,
    pub book: &'a [u8],
}

fn input<'a>(r: &mut Reader<'a>) -> Input<'a> {
    let len = r.len(4);
    let mut r = Reader(r.take(len));
    Input {
        src: IsdAsn(r.number(AS_SIZE)),
        dst: IsdAsn(r.number(AS_SIZE)),
        book: r.0,
    }
}

/// The record of a solution, laid out anew from what its view says.
fn record(s: &Solution) -> Vec<u8> {
    let mut bytes = s.cost().to_be_bytes().to_vec();
    bytes.extend([s.edges().len() as u8, 0]);
    for e in s.edges() {
        let peer = e.peer.map_or(0, |p| p + 1);
        bytes.extend([e.position, e.shortcut, peer, e.construction as u8]);
    }
    bytes.resize(Solution::SIZE, 0);
    bytes
}

fn hop(h: &HopField) -> Vec<u8> {
    let mut bytes = vec![h.units];
    bytes.extend(h.ingress.to_be_bytes());
    bytes.extend(h.egress.to_be_bytes());
    bytes.extend(h.mac);
    bytes
}

/// The bytes of a path, laid out anew from what its view says.
fn path(p: &Path) -> Vec<u8> {
    let counts = [p.infos().len(), p.hops().len(), p.interfaces().len(), 0];
    let mut bytes = counts.map(|n| n as u8).to_vec();
    bytes.extend(p.mtu().to_be_bytes());
    bytes.extend(p.expiry().to_be_bytes());
    bytes.extend(p.first_as().0.to_be_bytes());
    bytes.extend(p.last_as().0.to_be_bytes());
    for i in p.infos() {
        bytes.extend([i.flags(), i.hops]);
        bytes.extend(i.id.to_be_bytes());
        bytes.extend(i.timestamp.to_be_bytes());
    }
    for h in p.hops() {
        bytes.extend(hop(&h));
    }
    for i in p.interfaces() {
        bytes.extend(i.isd_asn.0.to_be_bytes());
    }
    for i in p.interfaces() {
        bytes.extend(i.id.to_be_bytes());
    }
    bytes
}

/// The bytes of a path on the wire, laid out from what its view says.
fn wire(p: &Path) -> Vec<u8> {
    let mut lengths = p.infos().map(|i| u32::from(i.hops));
    let mut next = || lengths.next().unwrap_or(0);
    let meta = next() << 12 | next() << 6 | next();
    let mut bytes = meta.to_be_bytes().to_vec();
    for i in p.infos() {
        bytes.extend([i.flags(), 0]);
        bytes.extend(i.id.to_be_bytes());
        bytes.extend(i.timestamp.to_be_bytes());
    }
    for h in p.hops() {
        bytes.push(0);
        bytes.extend(hop(&h));
    }
    bytes
}

/// Hops by info are the hops, and as many to each info as it says.
fn grouped(p: &Path) -> bool {
    let infos = p.segments().map(|s| s.info);
    let hops = p.segments().flat_map(|s| s.hops());
    infos.eq(p.infos())
        && hops.eq(p.hops())
        && p.segments()
            .all(|s| s.hops().len() == usize::from(s.info.hops))
}

/// A case of answers.bin.
pub struct Case<'a> {
    pub input: Input<'a>,
    /// The records of the solutions.
    records: &'a [u8],
    /// For each solution the answer of assembly, and the path's bytes.
    pub answers: Vec<(u8, &'a [u8])>,
}

pub fn cases(stored: &[u8]) -> impl Iterator<Item = Case<'_>> {
    let mut r = Reader(stored);
    std::iter::from_fn(move || (!r.0.is_empty()).then(|| case(&mut r)))
}

fn case<'a>(r: &mut Reader<'a>) -> Case<'a> {
    let input = input(r);
    let count = r.len(2);
    let records = r.take(Solution::SIZE * count);
    let answer = |_| {
        let (answer, len) = (r.u8(), r.len(2));
        (answer, r.take(len))
    };
    Case {
        input,
        records,
        answers: (0..count).map(answer).collect(),
    }
}

pub fn answers() -> Vec<u8> {
    file("tests/stored/answers.bin")
}

#[test]
fn answers_are_given() {
    let mut slots = vec![0; LIST_SIZE];
    let mut counts = [0; 3];
    for case in cases(&answers()) {
        let Input { src, dst, book } = case.input;
        let count = case.answers.len();
        slots.fill(0xa5);
        let solutions = list(src, dst, book, &mut slots).unwrap();
        assert_eq!(solutions.len(), count);
        assert_eq!(solutions.iter().len(), count);
        assert_eq!(solutions.as_bytes(), case.records);
        for (place, (answer, want)) in case.answers.into_iter().enumerate() {
            let solution = solutions.get(place).unwrap();
            assert_eq!(solutions.iter().nth(place), Some(solution));
            assert_eq!(solution.as_bytes()[..], record(&solution));
            let mut room = [0xa5; Path::SIZE];
            match assemble(src, dst, book, solution, &mut room).unwrap() {
                Assembled::Path(p) => {
                    assert_eq!(answer, 0);
                    assert_eq!(p.as_bytes(), want);
                    assert_eq!(path(&p), want);
                    assert!(grouped(&p));
                }
                Assembled::Loop => assert_eq!(answer, 1),
                Assembled::Bare => assert_eq!(answer, 2),
            }
            assert!(zero(&room[want.len()..]));
            counts[usize::from(answer)] += 1;
        }
        assert!(zero(&slots[case.records.len()..]));
    }
    assert!(counts.iter().all(|n| *n > 0), "{counts:?}");
}

/// Every path is written, and read back but for what the wire does not have.
#[test]
fn paths_on_the_wire() {
    let mut counts = [0; MAX_EDGES];
    for (_, record) in cases(&answers()).flat_map(|case| case.answers) {
        // A Loop or a Bare has no record.
        if record.is_empty() {
            continue;
        }
        let mut out = [0xa5; WIRE_SIZE];
        let bytes = write(record, &mut out).unwrap().to_vec();
        assert!(zero(&out[bytes.len()..]));

        // The record up to its interfaces, with zeros but for the counts of infos and hops.
        let interfaces = usize::from(record[2]);
        let mut want = record[..record.len() - 10 * interfaces].to_vec();
        want[2..26].fill(0);
        let mut room = [0xa5; Path::SIZE];
        let back = read(&bytes, &mut room).unwrap();
        assert_eq!(back.as_bytes(), want);
        assert_eq!(wire(&back), bytes);
        assert_eq!(back.encode(&mut out), bytes);
        counts[back.infos().len() - 1] += 1;
        assert!(zero(&room[want.len()..]));
    }
    assert!(counts.iter().all(|n| *n > 0), "{counts:?}");
}

/// A record, and of its path the expiry and the bytes of the interfaces.
struct Held<'a> {
    record: &'a [u8],
    expiry: u32,
    interfaces: &'a [u8],
}

fn held<'a>(record: &'a [u8], path: &'a [u8]) -> Held<'a> {
    let mut r = Reader(path);
    let (infos, hops) = (r.len(1), r.len(1));
    r.take(4);
    let expiry = r.u32();
    r.take(2 * AS_SIZE + 8 * infos + 11 * hops);
    Held {
        record,
        expiry,
        interfaces: r.0,
    }
}

/// The first of a route keeps its place, and a later one takes it over that lives longer.
#[test]
fn routes_are_given() {
    let mut slots = vec![0; LIST_SIZE];
    let mut counts = [0; 2];
    for case in cases(&answers()) {
        let mut want: Vec<Held> = Vec::new();
        let records = case.records.chunks_exact(Solution::SIZE);
        for (record, (_, path)) in records.zip(&case.answers).filter(|(_, a)| a.0 == 0) {
            let new = held(record, path);
            match want.iter_mut().find(|h| h.interfaces == new.interfaces) {
                None => want.push(new),
                Some(here) => {
                    let longer = new.expiry > here.expiry;
                    counts[usize::from(longer)] += 1;
                    if longer {
                        *here = new;
                    }
                }
            }
        }
        let Input { src, dst, book } = case.input;
        slots.fill(0xa5);
        let found = routes(src, dst, book, &mut slots).unwrap().as_bytes();
        let want: Vec<u8> = want.iter().flat_map(|h| h.record).copied().collect();
        assert_eq!(found, want);
        assert!(zero(&slots[want.len()..]));
    }
    assert!(counts.iter().all(|n| *n > 0), "{counts:?}");
}

#[cfg(feature = "alloc")]
#[test]
fn combined() {
    for case in cases(&answers()) {
        let Input { src, dst, book } = case.input;
        let [cores, non_cores] = crate::common::decode(book);
        let got = combinator::combine(src, dst, &cores, &non_cores).unwrap();
        let got: Vec<_> = got.iter().map(|p| p.as_path().as_bytes()).collect();
        let paths = case.answers.iter().filter(|(answer, _)| *answer == 0);
        let want: Vec<_> = paths.map(|(_, path)| *path).collect();
        assert_eq!(got, want);
    }
}

#[test]
fn refusals_are_given() {
    let stored = file("tests/stored/refusals.bin");
    let mut r = Reader(&stored);
    let mut seen = BTreeSet::new();
    while !r.0.is_empty() {
        let Input { src, dst, book } = input(&mut r);
        let listing = r.u8() == 0;
        let mut out = vec![0xa5; r.len(4)];
        let len = r.len(2);
        let record = r.take(len);
        let want = Refusal::from_number(r.u8());
        let got = if listing {
            let mut other = out.clone();
            let refused = routes(src, dst, book, &mut other).err();
            assert_eq!(refused, want);
            assert!(refused.is_none() || zero(&other));
            list(src, dst, book, &mut out).err()
        } else {
            assemble(src, dst, book, record, &mut out).err()
        };
        assert_eq!(got, want);
        if let Some(refusal) = want {
            assert!(zero(&out));
            seen.insert(refusal);
        }
    }
    // Wire is about no book.
    let others = Refusal::ALL.into_iter().filter(|r| *r != Refusal::Wire);
    assert!(others.eq(seen));
}

#[test]
fn wire_is_given() {
    let stored = file("tests/stored/wire.bin");
    let mut r = Reader(&stored);
    let mut seen = BTreeSet::new();
    while !r.0.is_empty() {
        let len = r.len(4);
        let given = r.take(len);
        let writing = r.u8() == 0;
        let mut out = vec![0xa5; r.len(4)];
        let refusal = Refusal::from_number(r.u8());
        let len = r.len(2);
        let want = r.take(len);
        let got = if writing {
            write(given, &mut out)
        } else {
            read(given, &mut out).map(|p| p.as_bytes())
        };
        assert_eq!(got, refusal.map_or(Ok(want), Err));
        assert!(zero(&out[want.len()..]));
        seen.insert((writing, refusal));
    }
    let answers = [None, Some(Refusal::Small), Some(Refusal::Wire)];
    let each = [false, true].map(|writing| answers.map(|refusal| (writing, refusal)));
    assert!(seen.into_iter().eq(each.into_iter().flatten()));
}
