//! Deblocking by bands: which band a call may name, and which rows are lent for it.
use super::deblock::{deblock_rows, Given, Rows};
use super::*;

/// The luma rows of a band, in a picture of h rows that has it: 64, the last one maybe fewer. Lent are those of the band above, if any, too; of
/// these only the last row of units is judged.
pub fn rows_of(h: usize, band: usize) -> Rows {
    let above = if band == 0 { 0 } else { 64 };
    let own = (h - 64 * band).min(64);
    Rows { lent: above + own, own, unjudged: if band == 0 { 0 } else { 60 } }
}

/// The number, the band's edge counts, and the position afterwards.
pub fn deblock_band(
    next: usize,
    band: usize,
    given: &Given,
    planes: [&mut [u16]; 3],
    words: &mut [u32],
) -> (u32, usize, usize, usize) {
    if !size_ok(given.w, given.h) {
        return (SIZE, 0, 0, next);
    }
    if band != next || band >= given.h.div_ceil(64) {
        return (BAND, 0, 0, next);
    }
    let (number, vertical, horizontal) = deblock_rows(given, &rows_of(given.h, band), planes, words);
    (number, vertical, horizontal, if number == DONE { next + 1 } else { next })
}
