//! Segments in, paths out.

use combinator::{
    assemble, combine, combine_routes, list, paths, read, route_paths, AsEntry, BookWriter,
    HopField, IsdAsn, OwnedPath, OwnedSegment, Path, Refusal, Solution, MAX_BOOK, MAX_ENTRIES,
    MAX_SEGMENTS, MAX_SOLUTIONS,
};

use crate::{
    common::{bytes, decode, worked},
    routes::reissued,
    wire::WORKED,
    worked::{DST, SRC},
};

#[test]
fn worked_is_combined() {
    let [cores, non_cores] = decode(&worked());
    let got = combine(SRC, DST, &cores, &non_cores).unwrap();
    assert_eq!(got.len(), 1);
    let path = got[0].as_path();
    assert_eq!((path.mtu(), path.expiry()), (1350, 1_021_600));
    let interfaces: Vec<_> = path.interfaces().map(|i| i.to_string()).collect();
    assert_eq!(interfaces, ["1-ff00:0:111#7", "1-ff00:0:110#5"]);
    assert_eq!(format!("{:?}", got[0]), format!("{path:?}"));
    let wire = path.encode_to_vec();
    assert_eq!(wire, bytes(WORKED));
    let back = OwnedPath::from(read(&wire, &mut [0; Path::SIZE]).unwrap());
    assert!(back.as_path().hops().eq(path.hops()));
    assert_eq!(back.as_path().encode_to_vec(), wire);

    let mut slots = [0; Solution::SIZE];
    let solution = list(SRC, DST, &worked(), &mut slots).unwrap().get(0);
    let mut room = [0; Path::SIZE];
    let answer = assemble(SRC, DST, &worked(), solution.unwrap(), &mut room).unwrap();
    assert_eq!(OwnedPath::from(answer.path().unwrap()), got[0]);

    let owned = non_cores.into_iter().map(|s| OwnedSegment {
        timestamp: s.timestamp,
        id: s.id,
        entries: s.entries,
    });
    assert_eq!(combine(SRC, DST, [], owned), Ok(got));
}

#[test]
fn equal_ends() {
    let [cores, non_cores] = decode(&worked());
    assert_eq!(combine(SRC, SRC, cores, non_cores), Ok(vec![]));
}

/// A segment over two ASes, its interfaces being its id.
fn segment(id: u16, first: IsdAsn, last: IsdAsn) -> OwnedSegment {
    let entry = |local, ingress, egress| AsEntry {
        local,
        hop: HopField {
            ingress,
            egress,
            ..HopField::default()
        },
        ..AsEntry::default()
    };
    OwnedSegment {
        timestamp: 1,
        id,
        entries: vec![(entry(first, 0, id), vec![]), (entry(last, id, 0), vec![])],
    }
}

/// Segments with a path for each choice of an up, a core and a down segment.
fn choices(ups: u16, cores: u16, downs: u16) -> Result<Vec<OwnedPath>, Refusal> {
    let (near, far) = (IsdAsn(1), IsdAsn(2));
    let cores = (1..=cores).map(|id| segment(id, far, near));
    let up = (1..=ups).map(|id| segment(id, near, SRC));
    let down = (1..=downs).map(|id| segment(id, far, DST));
    combine(SRC, DST, cores, up.chain(down))
}

/// Every path is answered, up to the most solutions that can be listed.
#[test]
fn most_paths() {
    let got = choices(16, 16, 16).unwrap();
    assert_eq!(got.len(), MAX_SOLUTIONS);
    let routes: std::collections::HashSet<Vec<_>> = got
        .iter()
        .map(|p| p.as_path().interfaces().map(|i| i.id).collect())
        .collect();
    assert_eq!(routes.len(), MAX_SOLUTIONS);
    assert_eq!(choices(17, 16, 16), Err(Refusal::Full));
}

/// Two paths over one core AS, and a longer one over two.
#[test]
fn best_first() {
    let (core, far) = (IsdAsn(1), IsdAsn(2));
    let cores = [segment(5, far, core)];
    let non_cores = [
        segment(6, far, DST),
        segment(7, core, SRC),
        segment(8, core, DST),
        segment(9, core, DST),
    ];
    let got = combine(SRC, DST, &cores, &non_cores).unwrap();
    let lengths: Vec<_> = got.iter().map(|p| p.as_path().hops().len()).collect();
    assert_eq!(lengths, [4, 4, 6]);
}

/// Of one route the path that lives longest, by segments and by their book.
#[test]
fn one_for_each_route() {
    let [cores, non_cores] = decode(&reissued());
    let expiries = |paths: Result<Vec<OwnedPath>, Refusal>| -> Vec<u32> {
        let paths = paths.unwrap();
        paths.iter().map(|p| p.as_path().expiry()).collect()
    };
    let all = combine(SRC, DST, &cores, &non_cores);
    assert_eq!(expiries(all), [1337, 3337, 2337, 3337, 837]);
    let routes = combine_routes(SRC, DST, &cores, &non_cores);
    assert_eq!(routes, route_paths(SRC, DST, &reissued()));
    assert_eq!(expiries(routes), [3337, 837]);
    assert_eq!(route_paths(SRC, DST, &[]), Err(Refusal::Cut));
    let crowd = vec![segment(1, DST, SRC); MAX_SEGMENTS + 1];
    let refused = combine_routes(SRC, DST, &[], &crowd);
    assert_eq!(refused, Err(Refusal::Crowded));
}

#[test]
fn refused() {
    let fits = segment(1, DST, SRC);
    let mut long = fits.clone();
    long.entries = vec![fits.entries[0].clone(); MAX_ENTRIES + 1];
    let refused = combine(SRC, DST, &[], [&fits, &long]);
    assert_eq!(refused, Err(Refusal::Long));
    let mut twice = fits.clone();
    twice.entries.push(fits.entries[0].clone());
    let refused = combine(SRC, DST, [&twice], [&fits]);
    assert_eq!(refused, Err(Refusal::Twice));
    let refused = combine_routes(SRC, DST, &[], [&fits, &twice]);
    assert_eq!(refused, Err(Refusal::Twice));
    let crowd = vec![fits.clone(); MAX_SEGMENTS];
    let refused = combine(SRC, DST, [&fits], &crowd);
    assert_eq!(refused, Err(Refusal::Crowded));

    // The paths of what is left, and of a book alone.
    let mut room = vec![0; MAX_BOOK];
    let mut book = BookWriter::new(&mut room).unwrap();
    let mut out = Vec::new();
    let given = [&long, &twice, &fits];
    book.non_cores(given, |s, refusal| out.push((s.id, refusal)));
    assert_eq!(out, [(1, Refusal::Long), (1, Refusal::Twice)]);
    let got = paths(SRC, DST, book.finish());
    assert_eq!(got.map(|p| p.len()), Ok(1));
    assert_eq!(paths(SRC, DST, &[]), Err(Refusal::Cut));
}
