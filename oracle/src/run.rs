//! The program's modes.

use std::{
    cell::RefCell,
    fmt::Write as _,
    io::{Read, Write},
    panic::{AssertUnwindSafe, catch_unwind},
    time::Instant,
};

use crate::{
    book::{self, Book},
    core::{convert::FromView, encode::WireEncode, view::View},
    dataplane_path::{
        standard::{
            model::StandardPath,
            view::{HopFieldView, InfoFieldView, StandardPathView},
        },
        view::ScionDpPathView,
    },
    identifier::isd_asn::IsdAsn,
    path::{
        ScionPath,
        combinator::{
            combine,
            graph::{InputSegment, MultiGraph, PathSolution, Vertex, number_of_hops},
        },
        fingerprint::{control_plane::PathFingerprint, data_plane::DpPathFingerprint},
    },
    reveal::reveal,
    segment::{Entry, rpc::Own},
};

thread_local! {
    static PANIC: RefCell<String> = const { RefCell::new(String::new()) };
}

/// The panic of a solution without interfaces.
pub const BARE: &str = "edges are checked to be not empty";

/// What `PathSolution::path` came to.
pub enum Came {
    Path(ScionPath),
    Loop,
    Refused,
    Panic(String),
}

pub fn path_of<E: Entry>(s: &PathSolution<'_, E>) -> Came {
    match catch_unwind(AssertUnwindSafe(|| s.path())) {
        Ok(Ok(Some((p, _)))) => Came::Path(p),
        Ok(Ok(None)) => Came::Loop,
        Ok(Err(_)) => Came::Refused,
        Err(_) => Came::Panic(PANIC.with(|m| m.borrow().clone())),
    }
}

/// `combine` whole; nothing where it panics, as it does where a solution has no interfaces.
fn combined(source: IsdAsn, destination: IsdAsn, book: &Book<false>) -> Option<Vec<ScionPath>> {
    let (cores, non_cores) = book.segments.split_at(book.cores);
    catch_unwind(AssertUnwindSafe(|| combine(source, destination, cores.iter(), non_cores.iter()))).ok()
}

fn inputs<const T: bool>(book: &Book<T>) -> Vec<InputSegment<'_, Own<T>>> {
    book.segments
        .iter()
        .enumerate()
        .map(|(p, s)| {
            if p < book.cores {
                InputSegment::new_core(s)
            } else {
                InputSegment::new_non_core(s)
            }
        })
        .collect()
}

fn print_hex(out: &mut String, bytes: &[u8]) {
    for b in bytes {
        for digit in [b >> 4, b & 15] {
            out.push(b"0123456789abcdef"[digit as usize] as char);
        }
    }
}

fn print_info(out: &mut String, info: &InfoFieldView) {
    write!(out, "info {} {:04x} {}", info.flags().bits(), info.segment_id(), info.timestamp()).unwrap();
}

fn print_hop(out: &mut String, hop: &HopFieldView) {
    write!(out, "{} {} {} ", hop.exp_time(), hop.cons_ingress(), hop.cons_egress()).unwrap();
    print_hex(out, &hop.mac().0);
    out.push('\n');
}

/// The view of the bytes that `path()` had of `try_encode_to_vec`.
fn standard(path: &ScionPath) -> &StandardPathView {
    let ScionDpPathView::Standard(view) = path.dp_path() else {
        panic!("path() gives a standard path")
    };
    view
}

fn print_path(out: &mut String, path: &ScionPath, flags: Flags) -> Vec<u8> {
    let meta = path.metadata().expect("path() gives metadata");
    let view = standard(path);
    assert!(path.expiration() == Some(meta.expiration as u32));
    write!(out, "path mtu {} expiry {}", meta.mtu, meta.expiration).unwrap();
    if flags.combine {
        out.push_str(" key ");
        print_hex(out, &path.fingerprint().as_ref()[..8]);
    }
    out.push('\n');
    let mut directions = Vec::new();
    let mut hops = 0;
    for (info, h) in view.segments() {
        directions.push(info.flags().bits());
        hops += h.len();
        print_info(out, info);
        writeln!(out, " {}", h.len()).unwrap();
    }
    assert!(hops == view.hop_fields().len() && directions.len() == view.info_fields().len());
    for h in view.hop_fields() {
        out.push_str("hop ");
        print_hop(out, h);
        assert!(h.flags().bits() == 0);
    }
    let interfaces = meta.interfaces.as_ref().expect("path() gives interfaces");
    for i in interfaces {
        writeln!(out, "if {:016x} {}", i.interface.isd_asn.0, i.interface.id).unwrap();
    }
    assert!(path.src_ia() == interfaces[0].interface.isd_asn);
    assert!(path.dst_ia() == interfaces[interfaces.len() - 1].interface.isd_asn);
    assert!(view.curr_info_field_idx() == 0 && view.curr_hop_field_idx() == 0);
    let encoded = StandardPath::from_view(view).try_encode_to_vec().expect("what was encoded can be encoded");
    assert!(encoded == view.as_slice(), "what is read of the bytes gives other bytes");
    out.push_str("wire ");
    print_hex(out, &encoded);
    out.push('\n');
    directions
}

/// What the source makes of bytes of the wire: the view of them, and whether its encoder gives them back.
fn print_view(out: &mut String, bytes: &[u8]) {
    let Ok((view, rest)) = StandardPathView::try_from_slice(bytes) else {
        out.push_str("refused\n");
        return;
    };
    writeln!(
        out,
        "view {} {} {} {} {} {}",
        rest.len(),
        view.curr_info_field_idx(),
        view.curr_hop_field_idx(),
        view.seg0_len(),
        view.seg1_len(),
        view.seg2_len()
    )
    .unwrap();
    for info in view.info_fields() {
        print_info(out, info);
        out.push('\n');
    }
    for hop in view.hop_fields() {
        write!(out, "hop {} ", hop.flags().bits()).unwrap();
        print_hop(out, hop);
    }
    let encoded = match StandardPath::from_view(view).try_encode_to_vec() {
        Ok(again) if again == view.as_slice() => "same",
        Ok(_) => "other",
        Err(_) => "refused",
    };
    writeln!(out, "encoded {encoded}").unwrap();
}

/// What `combine` answers, after the solutions.
fn print_combined(out: &mut String, source: IsdAsn, destination: IsdAsn, bytes: &[u8], flags: Flags) {
    let book = book::decode::<false>(bytes, false, flags.repeats).unwrap_or_else(|_| panic!("it was decoded before"));
    match combined(source, destination, &book) {
        None => out.push_str("combined panic\n"),
        Some(paths) => {
            writeln!(out, "combined {}", paths.len()).unwrap();
            for path in &paths {
                print_path(out, path, flags);
            }
        }
    }
}

#[derive(Clone, Copy)]
struct Flags {
    /// Without `combine`'s rule for equal ends.
    no_wrapper: bool,
    /// Print a refusal's number (of the specification's table; the Rust has none).
    numbers: bool,
    /// Answer books too in which a segment passes an AS twice.
    repeats: bool,
    /// Print what `combine` answers too, and of each path the fingerprint by which it tells duplicates.
    combine: bool,
}

/// The canonical text of one case: source, destination, book.
fn block(out: &mut String, case: &[u8], flags: Flags) {
    let decoded = match split(case) {
        None => Err(book::CUT),
        Some((source, destination, bytes)) => {
            book::decode::<true>(bytes, true, flags.repeats).map(|book| (source, destination, bytes, book))
        }
    };
    let (source, destination, bytes, book) = match decoded {
        Ok(d) => d,
        Err(number) => {
            out.push_str("undecodable");
            if flags.numbers {
                write!(out, " {number}").unwrap();
            }
            out.push('\n');
            return;
        }
    };
    if source == destination && !flags.no_wrapper {
        // As in `combine`.
        out.push_str("solutions 0\n");
        if flags.combine {
            print_combined(out, source, destination, bytes, flags);
        }
        return;
    }
    let inputs = inputs(&book);
    let mut graph = MultiGraph::new(number_of_hops);
    graph.add_segments(inputs.iter().cloned());
    let solutions = graph.get_paths(source, destination);
    writeln!(out, "solutions {}", solutions.len()).unwrap();
    for (i, s) in solutions.iter().enumerate() {
        let (cost, edges) = reveal(s, &book, &inputs, source);
        writeln!(out, "{} cost {} edges {}", i + 1, cost, edges.len()).unwrap();
        let mut directions = Vec::new();
        for e in &edges {
            // The graph refers to the first of equal segments.
            assert!(book.first[e.position] == e.position);
            let leaf = book.segments[e.position].last_ia().map(Vertex::AS);
            let direction = if Some(e.dst) == leaf { book::CONSTRUCTION } else { 0 };
            directions.push(direction | if e.edge.peer.is_some() { book::PEERING } else { 0 });
            write!(out, "edge {} {} ", e.position, e.edge.shortcut_idx).unwrap();
            match e.edge.peer {
                Some(p) => write!(out, "{p}").unwrap(),
                None => out.push('-'),
            }
            write!(out, " {direction} ").unwrap();
            print_hex(out, &e.fp[..4]);
            out.push('\n');
        }
        match path_of(s) {
            Came::Path(p) => assert!(print_path(out, &p, flags) == directions),
            Came::Loop => out.push_str("loop\n"),
            Came::Refused => out.push_str("encode-refused\n"),
            Came::Panic(m) if m == BARE => out.push_str("panic\n"),
            Came::Panic(m) => writeln!(out, "other-panic {m}").unwrap(),
        }
    }
    if flags.combine {
        print_combined(out, source, destination, bytes, flags);
    }
}

pub fn split(case: &[u8]) -> Option<(IsdAsn, IsdAsn, &[u8])> {
    let (s, rest) = case.split_first_chunk::<{ book::AS_SIZE }>()?;
    let (d, book) = rest.split_first_chunk::<{ book::AS_SIZE }>()?;
    Some((
        IsdAsn(u64::from_be_bytes(*s)),
        IsdAsn(u64::from_be_bytes(*d)),
        book,
    ))
}

pub fn cases(mut bytes: &[u8]) -> Vec<&[u8]> {
    let mut out = Vec::new();
    while let Some((n, rest)) = bytes.split_first_chunk::<4>() {
        let n = u32::from_be_bytes(*n) as usize;
        assert!(n <= rest.len(), "the batch file ends within a case");
        out.push(&rest[..n]);
        bytes = &rest[n..];
    }
    assert!(bytes.is_empty(), "the batch file ends within a length");
    out
}

#[derive(Default, Clone, Copy)]
struct Times {
    decode: u128,
    search: u128,
    paths: u128,
    fingerprints: u128,
    encode: u128,
    combine: u128,
    solutions: u64,
    with_path: u64,
}

/// One case's full work, timed by part, with the entry type that notes nothing.
fn bench_one(case: &[u8], t: &mut Times) {
    let Some((source, destination, bytes)) = split(case) else {
        return;
    };
    let t0 = Instant::now();
    let Ok(book) = book::decode::<false>(bytes, false, false) else {
        return;
    };
    let t1 = Instant::now();
    t.decode += (t1 - t0).as_nanos();
    if source == destination {
        return;
    }
    let mut graph = MultiGraph::new(number_of_hops);
    let (cores, non_cores) = book.segments.split_at(book.cores);
    graph.add_segments(
        cores
            .iter()
            .map(InputSegment::new_core)
            .chain(non_cores.iter().map(InputSegment::new_non_core)),
    );
    let solutions = graph.get_paths(source, destination);
    let t2 = Instant::now();
    t.search += (t2 - t1).as_nanos();
    let paths: Vec<Came> = solutions.iter().map(path_of).collect();
    let t3 = Instant::now();
    t.paths += (t3 - t2).as_nanos();
    // What of the above `ScionPath::new` spent on its two fingerprints: done once more.
    let mut sum = 0u64;
    for p in &paths {
        if let Came::Path(p) = p {
            sum += DpPathFingerprint::from_scion_path(p).as_ref()[0] as u64;
            sum += PathFingerprint::try_from_scion_path(p).map_or(0, |f| f.as_ref()[0] as u64);
        }
    }
    std::hint::black_box(sum);
    t.fingerprints += t3.elapsed().as_nanos();
    // What of it `path` spent on `try_encode_to_vec`: done once more.
    let models: Vec<StandardPath> = paths
        .iter()
        .filter_map(|p| if let Came::Path(p) = p { Some(StandardPath::from_view(standard(p))) } else { None })
        .collect();
    let mut encoded = Vec::with_capacity(models.len());
    let t4 = Instant::now();
    encoded.extend(models.iter().map(|m| m.try_encode_to_vec()));
    t.encode += t4.elapsed().as_nanos();
    std::hint::black_box(encoded);
    // `combine` whole, from segments that nothing is known of yet.
    let Ok(book) = book::decode::<false>(bytes, false, false) else {
        return;
    };
    let t5 = Instant::now();
    let routes = combined(source, destination, &book);
    t.combine += t5.elapsed().as_nanos();
    std::hint::black_box(routes);
    t.solutions += solutions.len() as u64;
    t.with_path += paths.iter().filter(|p| matches!(p, Came::Path(_))).count() as u64;
}

fn show(label: &str, t: &Times) {
    println!(
        "{label} solutions {} paths {} decode_ns {} a_ns {} b_ns {} fingerprints_ns {} encode_ns {} combine_ns {}",
        t.solutions,
        t.with_path,
        t.decode,
        t.search,
        t.search + t.paths,
        t.fingerprints,
        t.encode,
        t.combine
    );
}

fn bench(file: &str, n: u64, each: bool) {
    let bytes = std::fs::read(file).expect("the batch file is readable");
    let cases = cases(&bytes);
    let mut all = Times::default();
    for (i, case) in cases.iter().enumerate() {
        let mut t = Times::default();
        for _ in 0..n {
            bench_one(case, &mut t);
        }
        if each {
            show(&format!("case {i}"), &t);
        }
        all.decode += t.decode;
        all.search += t.search;
        all.paths += t.paths;
        all.fingerprints += t.fingerprints;
        all.encode += t.encode;
        all.combine += t.combine;
        all.solutions += t.solutions;
        all.with_path += t.with_path;
    }
    show(&format!("total cases {} times {n}", cases.len()), &all);
}

pub fn main() {
    std::panic::set_hook(Box::new(|info| {
        let m = info
            .payload()
            .downcast_ref::<&str>()
            .map(|s| s.to_string())
            .or_else(|| info.payload().downcast_ref::<String>().cloned())
            .unwrap_or_default();
        // Panics of graph.rs are answers; any other is a fault of the oracle and is shown.
        if !info.location().is_some_and(|l| l.file().ends_with("combinator/graph.rs")) {
            eprintln!("{info}");
        }
        PANIC.with(|p| *p.borrow_mut() = m);
    }));

    let mut args: Vec<String> = std::env::args().skip(1).collect();
    let mut flag = |name: &str| {
        let had = args.len();
        args.retain(|a| a != name);
        args.len() != had
    };
    let each = flag("--each");
    let flags = Flags {
        no_wrapper: flag("--no-wrapper"),
        numbers: flag("--numbers"),
        combine: flag("--combine"),
        repeats: flag("--repeats"),
    };
    let args: Vec<&str> = args.iter().map(|s| s.as_str()).collect();
    let stdin = || {
        let mut v = Vec::new();
        std::io::stdin().read_to_end(&mut v).expect("stdin is readable");
        v
    };
    let mut stdout = std::io::BufWriter::new(std::io::stdout().lock());
    let mut say = |text: &str| {
        if stdout.write_all(text.as_bytes()).and_then(|()| stdout.flush()).is_err() {
            // The reader went away.
            std::process::exit(1);
        }
    };
    match args.as_slice() {
        [] => {
            let mut out = String::new();
            block(&mut out, &stdin(), flags);
            say(&out);
        }
        ["--batch", rest @ ..] => {
            let bytes = match rest {
                [] => stdin(),
                [f] => std::fs::read(f).expect("the batch file is readable"),
                _ => panic!("--batch [FILE]"),
            };
            let mut out = String::new();
            for (i, case) in cases(&bytes).into_iter().enumerate() {
                out.clear();
                if i > 0 {
                    out.push_str("---\n");
                }
                block(&mut out, case, flags);
                say(&out);
            }
        }
        ["--wire", file] => {
            let bytes = std::fs::read(file).expect("the batch file is readable");
            let mut out = String::new();
            for case in cases(&bytes) {
                // The bytes stand in the place of a book.
                let (_, _, wire) = split(case).expect("a case has two ends");
                out.clear();
                print_view(&mut out, wire);
                out.push_str("---\n");
                say(&out);
            }
        }
        ["--bench", file, n] => bench(file, n.parse().expect("a number"), each),
        #[cfg(feature = "glue")]
        ["--glue", file] => {
            let bytes = std::fs::read(file).expect("the batch file is readable");
            println!("{}", crate::glue::hold(cases(&bytes)));
        }
        ["--given"] => print!("{}", include_str!(concat!(env!("OUT_DIR"), "/given.txt"))),
        _ => {
            eprintln!(
                "oracle [--no-wrapper] [--numbers] [--combine] [--repeats] < CASE\n\
                 oracle --batch [FILE] [--no-wrapper] [--numbers] [--combine] [--repeats]\n\
                 oracle --wire FILE\n\
                 oracle --bench FILE N [--each]\n\
                 oracle --glue FILE, with the feature glue\n\
                 oracle --given"
            );
            std::process::exit(2);
        }
    }
}
