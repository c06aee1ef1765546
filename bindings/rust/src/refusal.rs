//! Why a call was refused.
use std::fmt;

/// Why a call was refused: the numbers that the archive answers. A refused call wrote nothing.
#[derive(Clone, Copy, Debug, PartialEq, Eq, Hash, PartialOrd, Ord)]
#[repr(u8)]
pub enum Refusal {
    /// A side of the picture is not a multiple of 4 from 4 to 4096.
    Size = 1,
    /// A lent slice has the wrong length.
    Length = 2,
    /// A transform limit other than 5 or 6; an offset outside -12..=12, or not 0 in a grey picture; of a stream, a number outside 1..=65535 or a grey picture.
    Setting = 3,
    /// A split byte reached by the walk is not 0 or 1.
    Split = 4,
    /// A leaf reaches past the picture.
    Leaf = 5,
    /// A luma QP above 51.
    Qp = 6,
    /// A sample over 1023.
    Sample = 7,
    /// A block's or a unit's place, or a side.
    Block = 8,
    /// A mode, or a consulted mode byte.
    Mode = 9,
    /// The count of chroma points outside 1..=58, or an a below 0 among them.
    Points = 10,
    /// A pivot outside -12..=57.
    Pivot = 11,
    /// A malformed sheet.
    Sheet = 12,
    /// The leaf or residual list's length, a mask or a keep byte.
    Record = 13,
    /// A band that is not the position's next, or is past the last.
    Band = 14,
    /// A byte of the keep map that is not 0 or 1.
    Keep = 15,
    /// Bits that run out, a fill bit that is not 0, or too little room for a map's own bytes.
    Bits = 16,
    /// A malformed header or frame line of a stream.
    Stream = 17,
    /// A stream that ends before its frame does.
    Short = 18,
    /// A map of edge rows that differs from the rule.
    Rows = 19,
    /// A sheet of the time when V read table 0 on vertical edges.
    Old = 20,
    /// A window of the screen off the multiples of 4, empty or outside.
    Window = 21,
    /// A row of the screen out of turn.
    Turn = 22,
}

impl Refusal {
    /// Every refusal, by its number.
    pub const ALL: &[Refusal] = &[
        Refusal::Size,
        Refusal::Length,
        Refusal::Setting,
        Refusal::Split,
        Refusal::Leaf,
        Refusal::Qp,
        Refusal::Sample,
        Refusal::Block,
        Refusal::Mode,
        Refusal::Points,
        Refusal::Pivot,
        Refusal::Sheet,
        Refusal::Record,
        Refusal::Band,
        Refusal::Keep,
        Refusal::Bits,
        Refusal::Stream,
        Refusal::Short,
        Refusal::Rows,
        Refusal::Old,
        Refusal::Window,
        Refusal::Turn,
    ];

    /// The refusal's number.
    pub fn number(self) -> u8 {
        self as u8
    }

    /// The refusal of a number, and none of 0 or of a number that no refusal has.
    pub fn from_number(number: u8) -> Option<Refusal> {
        Refusal::ALL.iter().copied().find(|refusal| refusal.number() == number)
    }
}

impl fmt::Display for Refusal {
    fn fmt(&self, f: &mut fmt::Formatter<'_>) -> fmt::Result {
        let what = match self {
            Refusal::Size => "a side of the picture",
            Refusal::Length => "a lent slice's length",
            Refusal::Setting => "the transform limit, an offset, a stream's number, or a grey picture",
            Refusal::Split => "a split byte",
            Refusal::Leaf => "a leaf that reaches past the picture",
            Refusal::Qp => "a QP",
            Refusal::Sample => "a sample over 1023",
            Refusal::Block => "a block's or a unit's place, or a side",
            Refusal::Mode => "a mode",
            Refusal::Points => "the chroma points",
            Refusal::Pivot => "a pivot outside -12..57",
            Refusal::Sheet => "a malformed sheet",
            Refusal::Record => "the leaf or residual list",
            Refusal::Band => "a band out of turn, or past the last",
            Refusal::Keep => "a byte of the keep map",
            Refusal::Bits => "the bits of a split map, or the room for them",
            Refusal::Stream => "a malformed header or frame line",
            Refusal::Short => "a stream that ends before its frame does",
            Refusal::Rows => "a map of edge rows that differs from the rule",
            Refusal::Old => "an old sheet",
            Refusal::Window => "a window off the multiples of 4, empty or outside",
            Refusal::Turn => "a row out of turn",
        };
        write!(f, "refused={}: {what}", self.number())
    }
}

impl std::error::Error for Refusal {}

/// What a call that answers `number` gives: `values` where it is done.
///
/// # Panics
/// On a number that no refusal has: the archive is then another one than this crate was written for.
pub(crate) fn answer<T>(number: u8, values: T) -> Result<T, Refusal> {
    match number {
        0 => Ok(values),
        _ => Err(Refusal::from_number(number).expect("a number that the archive answers")),
    }
}
