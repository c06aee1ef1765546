//! A plain model of the paper, written from it alone: each call's number and every value and slice afterwards.
//! Exact numbers throughout, checks in the paper's order, nothing written on a refusal. It answers for the
//! refusals and for the accepted inputs that lie outside the Rust's domain.
pub mod avail;
pub mod bands;
pub mod chroma;
pub mod deblock;
pub mod driver;
pub mod gather;
pub mod mend;
pub mod pack;
pub mod predict;
pub mod ranks;
pub mod residual;
pub mod rows;
pub mod screen;
pub mod sheet;
pub mod streams;
pub mod tree;
pub mod walk;

pub const DONE: u32 = 0;
pub const SIZE: u32 = 1;
pub const LENGTH: u32 = 2;
pub const SETTING: u32 = 3;
pub const SPLIT: u32 = 4;
pub const PAST: u32 = 5;
pub const QP: u32 = 6;
pub const SAMPLE: u32 = 7;
pub const PLACE: u32 = 8;
pub const MODE: u32 = 9;
pub const POINTS: u32 = 10;
pub const PIVOT: u32 = 11;
pub const SHEET: u32 = 12;
pub const RECORD: u32 = 13;
pub const BAND: u32 = 14;
pub const KEEP: u32 = 15;
pub const BITS: u32 = 16;
pub const STREAM: u32 = 17;
pub const SHORT: u32 = 18;
pub const ROWS: u32 = 19;
pub const OLD: u32 = 20;
pub const WINDOW: u32 = 21;
pub const TURN: u32 = 22;
/// One more than the largest number.
pub const NUMBERS: usize = 23;

/// Width and height: multiples of 4, from 4 to 4096.
pub fn size_ok(w: usize, h: usize) -> bool {
    [w, h].iter().all(|&n| n % 4 == 0 && (4..=4096).contains(&n))
}

/// A luma block: 4, 8, 16, 32 or 64 square, on a multiple of its size, inside.
pub fn block_ok(w: usize, h: usize, x: usize, y: usize, side: usize) -> bool {
    [4, 8, 16, 32, 64].contains(&side) && x % side == 0 && y % side == 0 && x + side <= w && y + side <= h
}

/// A side of a block named alone, in any component.
pub fn side_ok(side: usize) -> bool {
    [2, 4, 8, 16, 32, 64].contains(&side)
}

pub fn samples_ok(samples: &[u16]) -> bool {
    samples.iter().all(|&sample| sample <= 1023)
}

/// The length of a component's plane.
pub fn plane_len(chroma: bool, w: usize, h: usize) -> usize {
    if chroma {
        (w / 2) * (h / 2)
    } else {
        w * h
    }
}

/// Unit words and the unit map's width and height.
#[derive(Clone, Copy)]
pub struct Units<'a> {
    pub words: &'a [u32],
    pub wide: i64,
    pub high: i64,
}

impl<'a> Units<'a> {
    pub fn new(w: usize, h: usize, words: &'a [u32]) -> Units<'a> {
        Units { words, wide: w as i64 / 4, high: h as i64 / 4 }
    }

    /// The word of the unit at (x, y), if it is in the picture.
    pub fn word(&self, x: i64, y: i64) -> Option<u32> {
        let inside = 0 <= x && x < self.wide && 0 <= y && y < self.high;
        inside.then(|| self.words[(y * self.wide + x) as usize])
    }

    /// In the picture and done.
    pub fn done(&self, x: i64, y: i64) -> bool {
        self.word(x, y).is_some_and(|word| word >> 31 == 1)
    }

    /// In the picture and not intra, done or not.
    pub fn not_intra(&self, x: i64, y: i64) -> bool {
        self.word(x, y).is_some_and(|word| (word >> 15) & 1 == 0)
    }

    /// In the picture and intra, done or not.
    pub fn intra(&self, x: i64, y: i64) -> bool {
        self.word(x, y).is_some_and(|word| (word >> 15) & 1 == 1)
    }
}
