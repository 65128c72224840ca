//! ISD-ASes as people write them.

use combinator::{IsdAsn, ParseError};

#[test]
fn both_ways() {
    for (number, text) in [
        (0, "0-0"),
        (1, "0-1"),
        (0x0001_0000_0000_0000, "1-0"),
        (0x0001_ff00_0000_0110, "1-ff00:0:110"),
        (0x0002_0000_0000_fbf0, "2-64496"),
        (0x0002_0000_ffff_ffff, "2-4294967295"),
        (0x0002_0001_0000_0000, "2-1:0:0"),
        (0x0013_0002_0000_011b, "19-2:0:11b"),
        (0xffff_0000_0000_0000, "65535-0"),
        (u64::MAX, "65535-ffff:ffff:ffff"),
    ] {
        assert_eq!(IsdAsn(number).to_string(), text);
        assert_eq!(format!("{:?}", IsdAsn(number)), text);
        assert_eq!(text.parse(), Ok(IsdAsn(number)));
    }
}

#[test]
fn round_trip() {
    let mut n: u64 = 1;
    for _ in 0..10_000 {
        // Knuth's multiplier; the shift spreads over every width.
        n = n.wrapping_mul(6_364_136_223_846_793_005).wrapping_add(1);
        let isd_asn = IsdAsn(n ^ n >> (n >> 58));
        assert_eq!(isd_asn.to_string().parse(), Ok(isd_asn));
        let (isd, asn) = (isd_asn.isd(), isd_asn.asn());
        assert_eq!(u64::from(isd) << 48 | asn, u64::from(isd_asn));
        // Three groups are read for every AS.
        let [a, b, c] = [asn >> 32, asn >> 16 & 0xffff, asn & 0xffff];
        assert_eq!(format!("{isd}-{a:04X}:{b:x}:{c:04x}").parse(), Ok(isd_asn));
    }
}

#[test]
fn other_texts() {
    for text in [
        "",
        "-",
        "1",
        "1-",
        "-1",
        "1-2-3",
        "65536-1",
        "1-4294967296",
        "1-99999999999999999999",
        "1-ff00",
        "1-ff00:0",
        "1-ff00:0:110:0",
        "1-ff00::110",
        "1-:0:110",
        "1-ff00:0:",
        "1-10000:0:0",
        "1-0ff00:0:110",
        "1-g:0:0",
        "+1-1",
        "1-+1",
        "1-+f:0:0",
        " 1-1",
        "1-1 ",
        "ff-1",
        "1_ff00_0_110",
        "0001ff0000000110",
        "١-1",
    ] {
        assert_eq!(text.parse::<IsdAsn>(), Err(ParseError), "{text:?}");
    }
}
