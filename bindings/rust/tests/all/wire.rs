//! Paths on the wire. What is expected is worked out by hand from the layout of the data draft: the meta
//! header is one number of 4 bytes, of current info 2 bits, current hop 6, reserved 6, and the lengths of
//! three segments, 6 each; infos and hops follow, of 8 and 12 bytes.

use combinator::{
    assemble, list, read, write, HopField, InfoField, Path, Refusal, Solution, MAX_EDGES,
    MAX_ENTRIES, MAX_HOPS, WIRE_SIZE,
};

use crate::{
    common::{bytes, worked, zero},
    worked::{DST, SRC},
};

/// Sizes on the wire.
const META: usize = 4;
const INFO: usize = 8;
const HOP: usize = 12;

/// Sizes in a path's record.
const HEAD: usize = 26;
const RECORD_INFO: usize = 8;
const RECORD_HOP: usize = 11;
const INTERFACE: usize = 10;

/// The path of docs/SPECIFICATION.md 10.6: a segment of two hops.
pub const WORKED: &str = "
    00002000
    00 00 1336 000f4240
    00 3f 0007 0000 0a0b0c0d0e0f
    00 3f 0000 0005 010203040506
";

/// A path of three segments, with 1, 2 and 3 hops and every flag: its record with two interfaces, the
/// bytes on the wire, and the record that is read of them.
const THREE: [&str; 3] = [
    "
    03 06 02 00 0546 000f96a0 0001ff0000000111 0001ff0000000110
    02 01 1336 000f4240
    01 02 abcd 01020304
    03 03 0100 ffffffff
    3f 0007 0008 0a0b0c0d0e0f
    00 0000 0005 010203040506
    ff ffff 0000 f1f2f3f4f5f6
    01 0102 0304 111213141516
    80 8000 0001 212223242526
    02 0405 0607 313233343536
    0001ff0000000111 0001ff0000000110
    0007 0005
    ",
    "
    00001083
    02 00 1336 000f4240
    01 00 abcd 01020304
    03 00 0100 ffffffff
    00 3f 0007 0008 0a0b0c0d0e0f
    00 00 0000 0005 010203040506
    00 ff ffff 0000 f1f2f3f4f5f6
    00 01 0102 0304 111213141516
    00 80 8000 0001 212223242526
    00 02 0405 0607 313233343536
    ",
    "
    03 06 00 00 0000 00000000 0000000000000000 0000000000000000
    02 01 1336 000f4240
    01 02 abcd 01020304
    03 03 0100 ffffffff
    3f 0007 0008 0a0b0c0d0e0f
    00 0000 0005 010203040506
    ff ffff 0000 f1f2f3f4f5f6
    01 0102 0304 111213141516
    80 8000 0001 212223242526
    02 0405 0607 313233343536
    ",
];

/// What [`write`] answers, and that it leaves zeros after that.
fn written(record: &[u8]) -> Result<Vec<u8>, Refusal> {
    let mut out = [0xa5; WIRE_SIZE + 3];
    let answer = write(record, &mut out).map(<[u8]>::to_vec);
    let used = answer.as_ref().map_or(0, Vec::len);
    assert!(zero(&out[used..]), "{record:x?}");
    answer
}

/// The record of what [`read`] answers, and that it leaves zeros after that.
fn recorded(wire: &[u8]) -> Result<Vec<u8>, Refusal> {
    let mut out = [0xa5; Path::SIZE + 3];
    let answer = read(wire, &mut out).map(|p| p.as_bytes().to_vec());
    let used = answer.as_ref().map_or(0, Vec::len);
    assert!(zero(&out[used..]), "{wire:x?}");
    answer
}

/// The worked example, from the book to the wire and back.
#[test]
fn worked_is_written() {
    let mut slots = [0; Solution::SIZE];
    let solution = list(SRC, DST, &worked(), &mut slots).unwrap().get(0);
    let mut room = [0; Path::SIZE];
    let path = assemble(SRC, DST, &worked(), solution.unwrap(), &mut room);
    let path = path.unwrap().path().unwrap();
    let mut out = [0xa5; WIRE_SIZE];
    assert_eq!(path.encode(&mut out), bytes(WORKED));
    assert!(zero(&out[bytes(WORKED).len()..]));
    assert_eq!(write(path, &mut out), Ok(&bytes(WORKED)[..]));

    let mut room = [0xa5; Path::SIZE];
    let back = read(&bytes(WORKED), &mut room).unwrap();
    assert!(back.infos().eq(path.infos()));
    assert!(back.hops().eq(path.hops()));
    assert_eq!(back.interfaces().len(), 0);
    assert_eq!((back.mtu(), back.expiry()), (0, 0));
    assert_eq!((back.first_as().0, back.last_as().0), (0, 0));
    assert_eq!(back.encode(&mut out), bytes(WORKED));
}

#[test]
fn three_segments() {
    let [record, wire, back] = THREE.map(bytes);
    assert_eq!(written(&record), Ok(wire.clone()));
    assert_eq!(recorded(&wire), Ok(back.clone()));
    assert_eq!(written(&back), Ok(wire.clone()));

    let mut room = [0; Path::SIZE];
    let path = read(&wire, &mut room).unwrap();
    let info = InfoField {
        construction: true,
        peering: false,
        hops: 2,
        id: 0xabcd,
        timestamp: 0x0102_0304,
    };
    assert_eq!(path.infos().nth(1), Some(info));
    let hop = HopField {
        units: 1,
        ingress: 0x0102,
        egress: 0x0304,
        mac: [0x11, 0x12, 0x13, 0x14, 0x15, 0x16],
    };
    assert_eq!(path.segments().nth(2).unwrap().hops().next(), Some(hop));
}

/// A path's record with so many hops to each info; what else is in it counts up.
fn record(lengths: &[usize], interfaces: usize) -> Vec<u8> {
    let hops: usize = lengths.iter().sum();
    let mut bytes: Vec<u8> = [lengths.len(), hops, interfaces].map(|n| n as u8).into();
    let fill = |bytes: &mut Vec<u8>, n: usize| bytes.extend((1..).take(n).map(|b| b as u8));
    fill(&mut bytes, HEAD - 3);
    for &length in lengths {
        bytes.extend([3, length as u8]);
        fill(&mut bytes, 6);
    }
    fill(&mut bytes, RECORD_HOP * hops + INTERFACE * interfaces);
    bytes
}

/// The bytes of a path whose meta header has these lengths, with so many infos; the rest is zero.
fn wire([first, second, third]: [usize; MAX_EDGES], infos: usize) -> Vec<u8> {
    let meta = first << 12 | second << 6 | third;
    let mut wire = (meta as u32).to_be_bytes().to_vec();
    wire.resize(META + INFO * infos + HOP * (first + second + third), 0);
    wire
}

#[test]
fn the_longest() {
    let longest = written(&record(&[MAX_ENTRIES; MAX_EDGES], 2 * MAX_HOPS)).unwrap();
    assert_eq!(longest.len(), WIRE_SIZE);
    let meta = &wire([MAX_ENTRIES; MAX_EDGES], MAX_EDGES)[..META];
    assert_eq!(longest[..META], *meta);
    let back = recorded(&longest).unwrap();
    assert_eq!(written(&back), Ok(longest));
}

/// What the writer takes and what it does not.
#[test]
fn records_refused() {
    let refused = |record: &[u8]| {
        let answer = written(record);
        assert_eq!(answer, Err(Refusal::Wire), "{record:x?}");
    };
    refused(&record(&[], 0));
    refused(&record(&[], 1));
    refused(&record(&[1; MAX_EDGES + 1], 0));
    refused(&[0xff; 8000]);
    for at in 0..MAX_EDGES {
        let fits = record(&[2; MAX_EDGES], 1);
        assert!(written(&fits).is_ok());
        for flags in 0..=u8::MAX {
            let mut changed = fits.clone();
            changed[HEAD + RECORD_INFO * at] = flags;
            if flags > 3 {
                refused(&changed);
            } else {
                let wire = written(&changed).unwrap();
                assert_eq!(wire[META + INFO * at], flags);
            }
        }
        // A hop count alone, so that the sum is another; then with the sum.
        for length in 0..=u8::MAX {
            let mut changed = fits.clone();
            changed[HEAD + RECORD_INFO * at + 1] = length;
            if length != 2 {
                refused(&changed);
            }
            let mut lengths = [1; MAX_EDGES];
            lengths[at] = usize::from(length);
            let whole = record(&lengths, 1);
            if (1..=MAX_ENTRIES).contains(&usize::from(length)) {
                let hops = lengths.iter().sum::<usize>();
                let wire = written(&whole).unwrap();
                assert_eq!(wire.len(), META + INFO * MAX_EDGES + HOP * hops);
            } else {
                refused(&whole);
            }
        }
    }
    // The record's hop count alone, with bytes for as many.
    for hops in 0..=u8::MAX {
        let mut changed = record(&[3, 4], 2);
        changed.resize(8000, 0);
        changed[1] = hops;
        if hops == 7 {
            assert!(written(&changed).is_ok());
        } else {
            refused(&changed);
        }
    }
}

/// Every byte that its counts need is asked for; what is not written makes no difference.
#[test]
fn the_rest_of_a_record() {
    for (lengths, interfaces) in [(&[1][..], 0), (&[2, 1], 3), (&[1, 2, 3], 6), (&[1], 255)] {
        let whole = record(lengths, interfaces);
        let wire = written(&whole).unwrap();
        for len in 0..whole.len() {
            assert_eq!(written(&whole[..len]), Err(Refusal::Wire), "{len}");
        }
        let mut changed = whole.clone();
        changed[3..HEAD].fill(0xff);
        let end = whole.len();
        changed[end - INTERFACE * interfaces..].fill(0xff);
        changed.extend([0xff; 100]);
        assert_eq!(written(&changed), Ok(wire));
    }
}

/// Just the bytes that the writer can have written are read: each length, and each single bit.
#[test]
fn bytes_refused() {
    let wire = bytes(THREE[1]);
    for len in 0..wire.len() {
        assert_eq!(recorded(&wire[..len]), Err(Refusal::Wire), "{len}");
    }
    for more in [1, INFO, HOP, INFO + HOP, HOP * MAX_HOPS] {
        let mut longer = wire.clone();
        longer.resize(wire.len() + more, 0);
        assert_eq!(recorded(&longer), Err(Refusal::Wire), "{more}");
    }
    for bit in 0..8 * wire.len() {
        let (at, mask) = (bit / 8, 1 << (bit % 8));
        let mut changed = wire.clone();
        changed[at] ^= mask;
        // Of an info the flags but two bits, and the byte after; of a hop the first byte.
        let infos = META..META + INFO * MAX_EDGES;
        let taken = if at < infos.start {
            false
        } else if infos.contains(&at) {
            match (at - infos.start) % INFO {
                0 => mask <= 2,
                1 => false,
                _ => true,
            }
        } else {
            (at - infos.end) % HOP != 0
        };
        let answer = recorded(&changed);
        if taken {
            assert_eq!(written(&answer.unwrap()), Ok(changed), "bit {bit}");
        } else {
            assert_eq!(answer, Err(Refusal::Wire), "bit {bit}");
        }
    }
}

/// Lengths of segments: 1 to the most entries, and 0 after the last that is used. With others nothing is
/// taken, however many infos follow.
#[test]
fn lengths_refused() {
    let lengths = [0, 1, 2, MAX_ENTRIES - 1, MAX_ENTRIES, MAX_ENTRIES + 1, 63];
    let mut taken = Vec::new();
    for first in lengths {
        for second in lengths {
            for third in lengths {
                for infos in 0..=MAX_EDGES + 1 {
                    let wire = wire([first, second, third], infos);
                    match recorded(&wire) {
                        Ok(record) => {
                            assert_eq!(written(&record), Ok(wire));
                            taken.push(([first, second, third], infos));
                        }
                        Err(refusal) => assert_eq!(refusal, Refusal::Wire),
                    }
                }
            }
        }
    }
    let used = [1, 2, MAX_ENTRIES - 1, MAX_ENTRIES];
    let mut want = Vec::new();
    for first in used {
        want.push(([first, 0, 0], 1));
        for second in used {
            want.push(([first, second, 0], 2));
            want.extend(used.map(|third| ([first, second, third], 3)));
        }
    }
    assert_eq!(taken, want);
}

/// A room that is too short is refused before what is wrong with the bytes.
#[test]
fn short_rooms() {
    let [record, wire, _] = THREE.map(bytes);
    for len in [0, wire.len(), WIRE_SIZE - 1] {
        let mut out = vec![0xa5; len];
        assert_eq!(write(&record, &mut out), Err(Refusal::Small));
        assert!(zero(&out));
        assert_eq!(write([], &mut out), Err(Refusal::Small));
    }
    for len in [0, record.len(), Path::SIZE - 1] {
        let mut out = vec![0xa5; len];
        assert_eq!(read(&wire, &mut out), Err(Refusal::Small));
        assert!(zero(&out));
        assert_eq!(read(&[], &mut out), Err(Refusal::Small));
    }
    let mut out = [0xa5; Path::SIZE];
    assert_eq!(write(&record, &mut out[..WIRE_SIZE]), Ok(&wire[..]));
    assert_eq!(write([], &mut out), Err(Refusal::Wire));
    assert!(zero(&out));
    assert!(read(&wire, &mut out).is_ok());
    assert_eq!(read(&[], &mut out), Err(Refusal::Wire));
    assert!(zero(&out));
}
