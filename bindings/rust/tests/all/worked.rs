//! The worked example of docs/SPECIFICATION.md 10.6, and calls with no or any bytes.

use combinator::{
    assemble, list, Assembled, HopField, InfoField, IsdAsn, Path, PathInterface, Refusal, Solution,
    SolutionEdge, LIST_SIZE, MAX_EDGES,
};

use crate::common::worked;

pub const SRC: IsdAsn = IsdAsn(0x0001_ff00_0000_0111);
pub const DST: IsdAsn = IsdAsn(0x0001_ff00_0000_0110);

#[test]
fn one_path() {
    let book = worked();
    let mut slots = [0xa5; LIST_SIZE];
    let solutions = list(SRC, DST, &book, &mut slots).unwrap();
    assert_eq!(solutions.len(), 1);
    assert!(!solutions.is_empty());
    assert_eq!(solutions.get(1), None);
    let solution = solutions.get(0).unwrap();
    assert_eq!(solution.cost(), 1);
    let edge = SolutionEdge {
        position: 0,
        shortcut: 0,
        peer: None,
        construction: false,
    };
    assert_eq!(solution.edges().collect::<Vec<_>>(), [edge]);

    let mut room = [0xa5; Path::SIZE];
    let answer = assemble(SRC, DST, &book, solution, &mut room).unwrap();
    let Assembled::Path(path) = answer else {
        panic!("{answer:?}");
    };
    assert_eq!(answer.path(), Some(path));
    assert_eq!(path.mtu(), 1350);
    assert_eq!(path.expiry(), 1_021_600);
    assert_eq!((path.first_as(), path.last_as()), (SRC, DST));
    let info = InfoField {
        construction: false,
        peering: false,
        hops: 2,
        id: 0x1336,
        timestamp: 1_000_000,
    };
    assert_eq!(path.infos().collect::<Vec<_>>(), [info]);
    let hops = [
        HopField {
            units: 63,
            ingress: 7,
            egress: 0,
            mac: [10, 11, 12, 13, 14, 15],
        },
        HopField {
            units: 63,
            ingress: 0,
            egress: 5,
            mac: [1, 2, 3, 4, 5, 6],
        },
    ];
    assert_eq!(path.hops().collect::<Vec<_>>(), hops);
    let segments: Vec<_> = path.segments().collect();
    assert_eq!(segments.len(), 1);
    assert_eq!(segments[0].info, info);
    assert_eq!(segments[0].hops().collect::<Vec<_>>(), hops);
    let interfaces = [(SRC, 7), (DST, 5)].map(|(isd_asn, id)| PathInterface { isd_asn, id });
    assert_eq!(path.interfaces().collect::<Vec<_>>(), interfaces);
    let written: Vec<_> = path.interfaces().map(|i| i.to_string()).collect();
    assert_eq!(written, ["1-ff00:0:111#7", "1-ff00:0:110#5"]);
}

#[test]
fn reversed_ends() {
    let book = worked();
    let mut slots = [0; Solution::SIZE];
    let solution = list(DST, SRC, &book, &mut slots).unwrap().get(0).unwrap();
    assert!(solution.edges().all(|e| e.construction));
    let mut room = [0; Path::SIZE];
    let answer = assemble(DST, SRC, &book, solution, &mut room).unwrap();
    let info = answer.path().unwrap().infos().next().unwrap();
    assert_eq!((info.id, info.flags()), (0x1234, 1));
}

#[test]
fn views_are_shown() {
    let book = worked();
    let mut slots = [0; Solution::SIZE];
    let solutions = list(SRC, DST, &book, &mut slots).unwrap();
    assert_eq!(
        format!("{solutions:?}"),
        "[Solution { cost: 1, edges: [SolutionEdge { position: 0, shortcut: 0, peer: None, construction: false }] }]"
    );
    let mut room = [0; Path::SIZE];
    let answer = assemble(SRC, DST, &book, solutions.get(0).unwrap(), &mut room).unwrap();
    let text = format!("{answer:?}");
    assert!(
        text.starts_with("Path(Path { mtu: 1350, expiry: 1021600, first_as: 1-ff00:0:111, "),
        "{text}"
    );
}

#[test]
fn empty_slices() {
    let (src, dst) = (IsdAsn(1), IsdAsn(2));
    assert_eq!(list(src, dst, &[], &mut []), Err(Refusal::Cut));
    assert_eq!(assemble(src, dst, &[], [], &mut []), Err(Refusal::Cut));
    let book = [0; 8];
    assert_eq!(list(src, dst, &book, &mut []).map(|s| s.len()), Ok(0));
    assert_eq!(assemble(src, dst, &book, [], &mut []), Err(Refusal::Small));
    let mut room = [0; Path::SIZE];
    assert_eq!(
        assemble(src, dst, &book, [], &mut room),
        Err(Refusal::Stranger)
    );
    assert_eq!(
        assemble(
            src,
            dst,
            &book,
            Solution::from([0xff; Solution::SIZE]),
            &mut room
        ),
        Err(Refusal::Stranger)
    );
}

/// Records of any bytes can be looked at.
#[test]
fn any_record_is_read() {
    let solution = Solution::from([0xff; Solution::SIZE]);
    assert_eq!(solution.cost(), u16::MAX);
    assert_eq!(solution.edges().len(), MAX_EDGES);
    assert!(solution.edges().all(|e| e.peer == Some(254)));
}
