//! The books of examples/.

use std::fmt::Write;

use combinator::{assemble, list, Assembled, IsdAsn, Path, Refusal, LIST_SIZE};

use crate::{common::worked, file};

/// The package's own copy of the worked example.
#[test]
fn worked_is_the_example() {
    assert_eq!(worked(), file("examples/worked.book"));
}

/// The printed list: docs/SPECIFICATION.md 10.
fn printed(src: IsdAsn, dst: IsdAsn, book: &[u8]) -> Result<String, Refusal> {
    let mut slots = vec![0; LIST_SIZE];
    let mut room = [0; Path::SIZE];
    let solutions = list(src, dst, book, &mut slots)?;
    let mut paths = 0;
    let mut text = String::new();
    for (i, solution) in solutions.iter().enumerate() {
        let (cost, edges) = (solution.cost(), solution.edges().len());
        write!(text, "{} cost {cost} segments {edges}", i + 1).unwrap();
        match assemble(src, dst, book, solution, &mut room)? {
            Assembled::Loop => writeln!(text, " loop").unwrap(),
            Assembled::Bare => writeln!(text, " bare").unwrap(),
            Assembled::Path(p) => {
                paths += 1;
                let (mtu, expiry, hops) = (p.mtu(), p.expiry(), p.hops().len());
                writeln!(text, " mtu {mtu} expiry {expiry} hops {hops}").unwrap();
                for i in p.infos() {
                    writeln!(text, "info {} {:04x} {}", i.flags(), i.id, i.timestamp).unwrap();
                }
                for i in p.interfaces() {
                    writeln!(text, "if {:016x} {}", i.isd_asn.0, i.id).unwrap();
                }
            }
        }
    }
    let count = solutions.len();
    Ok(format!("solutions {count} paths {paths}\n{text}"))
}

#[test]
fn printed_lists() {
    for (name, src, dst) in [
        ("worked", "1-ff00:0:111", "1-ff00:0:110"),
        ("house", "1-ff00:0:131", "1-ff00:0:141"),
        ("core", "1-ff00:0:111", "2-64498"),
        ("renewed", "1-ff00:0:131", "1-ff00:0:141"),
    ] {
        let book = file(&format!("examples/{name}.book"));
        let want = String::from_utf8(file(&format!("examples/{name}.list"))).unwrap();
        let got = printed(src.parse().unwrap(), dst.parse().unwrap(), &book);
        assert_eq!(got.as_deref(), Ok(&*want), "{name}");
    }
}
