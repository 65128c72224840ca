use core::{
    error::Error,
    fmt::{self, Debug, Display, Formatter},
    str::FromStr,
};

/// An ISD-AS: the ISD in the top 16 bits, the AS in the low 48.
///
/// It is written and read as people do: the ISD in base ten, `-`, and the AS in base ten below 2 to the
/// 32 (`2-64496`), else as three groups of hex digits (`1-ff00:0:110`). Reading takes three groups, of
/// one to four digits each, for every AS.
#[derive(Clone, Copy, PartialEq, Eq, PartialOrd, Ord, Hash, Default)]
#[repr(transparent)]
pub struct IsdAsn(pub u64);

const AS_BITS: u32 = 48;

impl IsdAsn {
    /// The ISD.
    pub const fn isd(self) -> u16 {
        (self.0 >> AS_BITS) as u16
    }

    /// The AS, below 2 to the 48.
    pub const fn asn(self) -> u64 {
        self.0 & ((1 << AS_BITS) - 1)
    }
}

impl From<u64> for IsdAsn {
    fn from(number: u64) -> Self {
        Self(number)
    }
}

impl From<IsdAsn> for u64 {
    fn from(isd_asn: IsdAsn) -> Self {
        isd_asn.0
    }
}

impl Display for IsdAsn {
    fn fmt(&self, f: &mut Formatter<'_>) -> fmt::Result {
        let (isd, asn) = (self.isd(), self.asn());
        if asn <= u32::MAX.into() {
            write!(f, "{isd}-{asn}")
        } else {
            let [high, middle, low] = [asn >> 32, asn >> 16 & 0xffff, asn & 0xffff];
            write!(f, "{isd}-{high:x}:{middle:x}:{low:x}")
        }
    }
}

impl Debug for IsdAsn {
    fn fmt(&self, f: &mut Formatter<'_>) -> fmt::Result {
        Display::fmt(self, f)
    }
}

/// A text that is no ISD-AS.
#[derive(Clone, Copy, Debug, PartialEq, Eq)]
pub struct ParseError;

impl Display for ParseError {
    fn fmt(&self, f: &mut Formatter<'_>) -> fmt::Result {
        f.write_str("no ISD-AS such as 1-ff00:0:110 or 2-64496")
    }
}

impl Error for ParseError {}

impl FromStr for IsdAsn {
    type Err = ParseError;

    fn from_str(text: &str) -> Result<Self, ParseError> {
        let (isd, asn) = text.split_once('-').ok_or(ParseError)?;
        let isd: u16 = decimal(isd)?;
        let asn = if asn.contains(':') {
            groups(asn)?
        } else {
            decimal::<u32>(asn)?.into()
        };
        Ok(Self(u64::from(isd) << AS_BITS | asn))
    }
}

/// Digits alone: the standard library would take a sign.
fn decimal<T: FromStr>(text: &str) -> Result<T, ParseError> {
    if !text.bytes().all(|b| b.is_ascii_digit()) {
        return Err(ParseError);
    }
    text.parse().map_err(|_| ParseError)
}

fn groups(text: &str) -> Result<u64, ParseError> {
    let mut asn = 0;
    let mut count = 0;
    for group in text.split(':') {
        if group.len() > 4 || !group.bytes().all(|b| b.is_ascii_hexdigit()) {
            return Err(ParseError);
        }
        let group = u16::from_str_radix(group, 16).map_err(|_| ParseError)?;
        asn = asn << 16 | u64::from(group);
        count += 1;
        if count > 3 {
            return Err(ParseError);
        }
    }
    if count == 3 {
        Ok(asn)
    } else {
        Err(ParseError)
    }
}
