use crate::layout::*;
use core::{
    error::Error,
    fmt::{self, Display, Formatter},
};

/// Why a call was refused: the refusals of docs/SPECIFICATION.md 9.2.
///
/// Of several that hold, the one tested first is answered; `include/combinator.h` has the order. The
/// output of a refused call is all zero.
#[derive(Clone, Copy, Debug, PartialEq, Eq, PartialOrd, Ord, Hash)]
#[repr(u8)]
#[non_exhaustive]
pub enum Refusal {
    /// The book is shorter than its counts, or than they say.
    Cut = 1,
    /// The book is longer than its counts say.
    Surplus = 2,
    /// The book is above [`MAX_BOOK`](crate::MAX_BOOK) bytes.
    Oversize = 3,
    /// More than [`MAX_SEGMENTS`](crate::MAX_SEGMENTS) segments.
    Crowded = 4,
    /// A segment with more than [`MAX_ENTRIES`](crate::MAX_ENTRIES) entries.
    Long = 5,
    /// An entry with more than [`MAX_PEERS`](crate::MAX_PEERS) peers.
    Peers = 6,
    /// Body lengths do not sum to the total, or a body is not filled exactly.
    Misfit = 7,
    /// Listing, also of routes: more solutions than slots.
    Full = 8,
    /// The output is too short: of assembly and of [`read`](crate::read) under
    /// [`Path::SIZE`](crate::Path::SIZE) bytes, of [`write`](crate::write) under
    /// [`WIRE_SIZE`](crate::WIRE_SIZE).
    Small = 9,
    /// Assembly: no solution of this book, source and destination.
    Stranger = 10,
    /// An entry whose AS stands earlier in the same segment.
    Twice = 11,
    /// To [`write`](crate::write) a path that has no form on the wire; to [`read`](crate::read) bytes
    /// that no path has.
    Wire = 12,
}

impl Refusal {
    /// All refusals, by number.
    pub const ALL: [Self; 12] = [
        Self::Cut,
        Self::Surplus,
        Self::Oversize,
        Self::Crowded,
        Self::Long,
        Self::Peers,
        Self::Misfit,
        Self::Full,
        Self::Small,
        Self::Stranger,
        Self::Twice,
        Self::Wire,
    ];

    /// The number: docs/SPECIFICATION.md 9.2.
    pub const fn number(self) -> u8 {
        self as u8
    }

    /// The refusal of a number.
    pub fn from_number(number: u8) -> Option<Self> {
        let index = usize::from(number).checked_sub(1)?;
        Self::ALL.get(index).copied()
    }

    /// The word: docs/SPECIFICATION.md 9.2.
    pub const fn word(self) -> &'static str {
        match self {
            Self::Cut => "Cut",
            Self::Surplus => "Surplus",
            Self::Oversize => "Oversize",
            Self::Crowded => "Crowded",
            Self::Long => "Long",
            Self::Peers => "Peers",
            Self::Misfit => "Misfit",
            Self::Full => "Full",
            Self::Small => "Small",
            Self::Stranger => "Stranger",
            Self::Twice => "Twice",
            Self::Wire => "Wire",
        }
    }

    /// What it says, with the limit that it is about.
    fn write_meaning(self, f: &mut Formatter<'_>) -> fmt::Result {
        match self {
            Self::Cut => write!(
                f,
                "the book is under {COUNTS_SIZE} bytes, or shorter than its sizes say"
            ),
            Self::Surplus => f.write_str("the book is longer than its sizes say"),
            Self::Oversize => write!(f, "the book is above {MAX_BOOK} bytes"),
            Self::Crowded => write!(f, "the book has more than {MAX_SEGMENTS} segments"),
            Self::Long => write!(f, "a segment has more than {MAX_ENTRIES} entries"),
            Self::Peers => write!(f, "an entry has more than {MAX_PEERS} peers"),
            Self::Misfit => {
                f.write_str("body lengths do not sum to the total, or a body is not filled exactly")
            }
            Self::Full => f.write_str("there are more solutions than slots"),
            Self::Small => write!(
                f,
                "the output is under {PATH_SIZE} bytes, or under {WIRE_SIZE} for the wire"
            ),
            Self::Stranger => f.write_str("no solution of this book, source and destination"),
            Self::Twice => f.write_str("an entry's AS stands earlier in the same segment"),
            Self::Wire => {
                f.write_str("the path has no form on the wire, or no path has these bytes")
            }
        }
    }

    /// The refusal in an answer of the library; none where the answer is no refusal.
    pub(crate) fn of_answer(answer: u32) -> Option<Self> {
        let number = answer.checked_sub(REFUSED)?;
        let refusal = u8::try_from(number).ok().and_then(Self::from_number);
        Some(refusal.expect("an answer that combinator.h names"))
    }
}

/// For instance `refused 1 Cut: the book is under 8 bytes, or shorter than its sizes say`.
impl Display for Refusal {
    fn fmt(&self, f: &mut Formatter<'_>) -> fmt::Result {
        write!(f, "refused {} {}: ", self.number(), self.word())?;
        self.write_meaning(f)
    }
}

impl Error for Refusal {}
