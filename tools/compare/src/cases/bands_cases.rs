//! Which calls are recorded for deblocking by bands, and what is compared beside them.
use super::bands::{part, Band, Bands, Harm};
use super::data::*;
use super::deblock::{picture, split_bytes, Picture};
use super::deblock_cases::{harm, varied};
use super::tape::{Case, Tape};
use super::trees;
use crate::model::bands::rows_of;
use crate::rng::Rng;

pub fn record(tape: &mut Tape) {
    let rng = &mut Rng::new(0xba4d5);
    borders(tape, rng);
    for i in 0..40 {
        let (w, h) = (size(rng, 12), rng.pick(&[64, 128, 192, 4096]));
        let band = rng.below(h / 64);
        tape.record(&drawn(rng, (w, h), band, i));
    }
    longest(tape, rng);
    super::bands_refusals::record(tape, rng);
    super::grey::record_bands(tape);
    super::keep::record_bands(tape);
    compare(tape, rng);
}

/// Whole pictures by their bands, each lent what the bands before left: one band, a last band of one row of units, and several.
fn borders(tape: &mut Tape, rng: &mut Rng) {
    for w in [4, 68] {
        for h in [4, 60, 64, 68] {
            let taste = trees::taste(rng);
            all_bands(tape, picture(rng, w, h, taste));
        }
    }
    for (w, h, taste, limit) in [
        (4, 132, trees::FINEST, 6),
        (8, 128, trees::COARSE, 5),
        (12, 200, trees::MIXED, 6),
        (64, 128, trees::UNCUT, 5),
        (64, 128, trees::UNCUT, 6),
        (68, 80, trees::MIXED, 5),
    ] {
        all_bands(tape, Picture { limit, ..picture(rng, w, h, taste) });
    }
}

/// Records each band of a picture as a call, and compares them all with the Rust's answer for the picture.
pub fn all_bands(tape: &mut Tape, picture: Picture) {
    Bands::new(picture.clone()).each(|band| tape.record(band));
    tape.compare(&Bands::new(picture));
}

/// The tallest picture: its first bands, its last, and one past that.
fn longest(tape: &mut Tape, rng: &mut Rng) {
    for band in [0, 1, 62, 63] {
        tape.record(&drawn(rng, (4, 4096), band, 1));
    }
    for band in [64, 65, (1 << 32) + 63] {
        tape.record(&Band { next: band, band, ..drawn(rng, (4, 4096), 63, 1) });
    }
}

/// The luma rows of the band above that are not judged: all but its last row of units.
fn unjudged(band: usize) -> usize {
    if band == 0 {
        0
    } else {
        60
    }
}

/// An accepted call. Above the row of units over the band, nothing is judged: now and then anything stands there.
pub fn drawn(rng: &mut Rng, (w, h): (usize, usize), band: usize, i: usize) -> Band {
    let rows = rows_of(h, band);
    let lent = varied(rng, (w, rows.lent), i);
    let taste = trees::taste(rng);
    let tree = trees::tree(rng, w, rows.own, taste);
    let mut lent = Picture { h, splits: split_bytes(rng, w, rows.own, &tree), ..lent };
    if rng.one_in(3) {
        let high = unjudged(band);
        lent.words[..w / 4 * (high / 4)].iter_mut().for_each(|word| *word = rng.next() as u32);
        for (plane, each) in lent.planes.iter_mut().zip([w, w / 4, w / 4]) {
            plane[..each * high].iter_mut().for_each(|sample| *sample = rng.next() as u16);
        }
    }
    Band { next: band, band, lent }
}

/// Whole pictures by bands, the Rust's whole picture against the model's bands, not recorded.
fn compare(tape: &mut Tape, rng: &mut Rng) {
    tape.say("recorded calls and pictures compared");
    for i in 0..600 {
        let (w, h) = (size(rng, 72), size(rng, 260));
        tape.compare(&Bands::new(varied(rng, (w, h), i)));
    }
    tape.say("further pictures by bands compared");
}

pub fn draw(rng: &mut Rng) -> Box<dyn Case> {
    let (wide, high) = (rng.pick(&[4, 12, 36, 72, 140]), rng.pick(&[64, 136, 300, 4096]));
    let (w, h) = (size(rng, wide), size(rng, high));
    let (band, i) = (rng.below(h.div_ceil(64)), 1 + rng.below(64));
    Box::new(drawn(rng, (w, h), band, i))
}

pub fn damaged(rng: &mut Rng) -> Box<dyn Case> {
    let (w, h) = (size(rng, 12), size(rng, 200));
    let band = rng.below(h.div_ceil(64));
    let mut case = drawn(rng, (w, h), band, 1);
    match rng.below(6) {
        0 => spoil(rng, &mut case.band),
        1 => spoil(rng, &mut case.next),
        2 => {
            spoil(rng, &mut case.band);
            case.next = case.band;
        }
        3 => in_the_row_above(rng, &mut case),
        _ => harm(rng, &mut case.lent),
    }
    Box::new(case)
}

/// A QP or a sample that is too large near the upper end of what is judged.
fn in_the_row_above(rng: &mut Rng, case: &mut Band) {
    let (w, judged) = (case.lent.w, unjudged(case.band));
    let (plane, back) = (rng.below(3), rng.below(4));
    if rng.one_in(2) {
        let at = (w / 4 * (judged / 4) + rng.below(w / 4)).saturating_sub(back);
        case.lent.words[at] |= 127 << 16;
    } else {
        let start = if plane == 0 { w * judged } else { w / 2 * (judged / 2) };
        case.lent.planes[plane][start.saturating_sub(back)] = 1024;
    }
}

/// A whole picture by its bands.
pub fn draw_all(rng: &mut Rng) -> Box<dyn Case> {
    let (wide, high) = (rng.pick(&[4, 12, 36, 72, 140]), rng.pick(&[64, 72, 136, 200]));
    let (w, h) = (size(rng, wide), size(rng, high));
    let i = 1 + rng.below(64);
    Box::new(Bands::new(varied(rng, (w, h), i)))
}

/// A picture that is damaged somewhere, so that its bands end there; or one whose bands are refused and mended, some of them, some twice.
pub fn damaged_all(rng: &mut Rng) -> Box<dyn Case> {
    let (w, h) = (size(rng, 24), size(rng, 200));
    let mut case = Bands::new(varied(rng, (w, h), 1));
    let harms = if rng.one_in(3) { 0 } else { 1 + rng.below(3) };
    for _ in 0..harms {
        let band = rng.below(h.div_ceil(64));
        case.harms.push((band, a_harm(rng, &part(&case.picture, band), band)));
    }
    if harms == 0 {
        let (plane, unit) = (rng.below(3), rng.below(case.picture.words.len()));
        match rng.below(3) {
            0 => case.picture.words[unit] |= 127 << 16,
            1 => overdo(rng, &mut case.picture.planes[plane]),
            _ => case.picture.splits.iter_mut().for_each(|byte| *byte = rng.pick(&[0, 1, 1, 1, 1, 1, 1, 2])),
        }
    }
    Box::new(case)
}

/// A reason to refuse a band, in its own rows or in the row of units above it.
fn a_harm(rng: &mut Rng, lent: &Picture, band: usize) -> Harm {
    let first = lent.w / 4 * (unjudged(band) / 4);
    let unit = first + rng.below(lent.words.len() - first);
    match rng.below(7) {
        0 => Harm::Limit,
        1 => Harm::Split(1024 * rng.below(lent.w.div_ceil(64)) + 136),
        2 => Harm::Qp(unit),
        3 => Harm::Sample(0, 16 * unit + rng.below(16)),
        4 => Harm::Keep(unit),
        5 => Harm::Sample(1, 4 * unit + rng.below(4)),
        _ => Harm::Sample(2, 4 * unit + rng.below(4)),
    }
}
