//! The recorded refusals of a band's call, their boundaries and their order, on narrow pictures.
use super::bands::Band;
use super::bands_cases::drawn;
use super::data::*;
use super::deblock::Picture;
use super::tape::Tape;
use crate::rng::Rng;

pub fn record(tape: &mut Tape, rng: &mut Rng) {
    positions(tape, rng);
    lengths(tape, rng);
    row_above(tape, rng);
    own(tape, rng);
    order(tape, rng);
    mended(tape, rng);
}

/// A call for the last band of a picture of 8 by 72, which has two: its 8 rows and the 64 above, all of them right.
fn second(rng: &mut Rng) -> Band {
    loop {
        let case = drawn(rng, (8, 72), 1, 1);
        if case.lent.planes.iter().flatten().all(|&sample| sample <= 1023) {
            return case;
        }
    }
}

fn with(band: &Band, change: impl FnOnce(&mut Picture)) -> Band {
    let mut band = band.clone();
    change(&mut band.lent);
    band
}

/// 14: a band that is not the position's next, and one past the last; 1 comes before it, 2 after it.
fn positions(tape: &mut Tape, rng: &mut Rng) {
    let (first, second) = (drawn(rng, (8, 72), 0, 1), second(rng));
    for next in [1, 2, 1 << 32] {
        tape.record(&Band { next, ..first.clone() });
    }
    for next in [0, 2, (1 << 32) + 1] {
        tape.record(&Band { next, ..second.clone() });
    }
    for (next, band) in [(2, 2), (3, 3), (1, 2), (2, 1), ((1 << 32) + 1, (1 << 32) + 1)] {
        tape.record(&Band { next, band, ..second.clone() });
    }
    for h in [64, 68, 76, 128, 136] {
        tape.record(&with(&second, |lent| lent.h = h));
    }
    for bad in BAD_SIZES {
        tape.record(&with(&Band { next: 0, ..second.clone() }, |lent| lent.w = bad));
        tape.record(&with(&second, |lent| lent.h = bad));
    }
}

/// 2: each slice; what is lent without the band above, with one more, and the split bytes of both bands.
fn lengths(tape: &mut Tape, rng: &mut Rng) {
    let good = second(rng);
    for i in 0..3 {
        for wrong in wrong_lengths(&good.lent.planes[i]) {
            tape.record(&with(&good, |lent| lent.planes[i] = wrong));
        }
    }
    for i in 0..2 {
        for wrong in wrong_lengths(&good.lent.tables[i]) {
            tape.record(&with(&good, |lent| lent.tables[i] = wrong));
        }
    }
    wrong_lengths(&good.lent.words).into_iter().for_each(|n| tape.record(&with(&good, |lent| lent.words = n)));
    wrong_lengths(&good.lent.motion).into_iter().for_each(|n| tape.record(&with(&good, |lent| lent.motion = n)));
    wrong_lengths(&good.lent.refs).into_iter().for_each(|n| tape.record(&with(&good, |lent| lent.refs = n)));
    wrong_lengths(&good.lent.strengths)
        .into_iter()
        .for_each(|n| tape.record(&with(&good, |lent| lent.strengths = n)));
    for splits in wrong_lengths(&good.lent.splits).into_iter().chain([vec![0; 2048]]) {
        tape.record(&with(&good, |lent| lent.splits = splits));
    }
    for (rows, h, next) in [(2, 72, 1), (34, 72, 1), (18, 72, 0)] {
        let other = drawn(rng, (8, 4 * rows), 0, 1);
        tape.record(&Band {
            next,
            band: next,
            lent: Picture { h, splits: good.lent.splits.clone(), ..other.lent },
        });
    }
}

/// 6 and 7 at the first place of the row of units above the band, and at the one before it, which is not judged.
fn row_above(tape: &mut Tape, rng: &mut Rng) {
    for (plane, first) in [(0, 8 * 60), (1, 4 * 30), (2, 4 * 30)] {
        for at in [0, first - 1, first] {
            let good = second(rng);
            tape.record(&with(&good, |lent| lent.planes[plane][at] = 1024));
        }
    }
    for at in [0, 29, 30, 31] {
        let good = second(rng);
        tape.record(&with(&good, |lent| lent.words[at] = lent.words[at] & !(127 << 16) | 52 << 16));
    }
}

/// 3 to 7 in the band itself: its last unit and samples, and its split bytes.
fn own(tape: &mut Tape, rng: &mut Rng) {
    for limit in [4, 7] {
        tape.record(&with(&second(rng), |lent| lent.limit = limit));
    }
    for offset in [-13, 13] {
        tape.record(&with(&second(rng), |lent| lent.offsets[0] = offset));
        tape.record(&with(&second(rng), |lent| lent.offsets[1] = offset));
    }
    for (at, byte) in [(136, 0), (136, 2), (256 + 68, 0), (512 + 34, 2), (768 + 17, 2), (256 + 196, 2)] {
        tape.record(&with(&second(rng), |lent| lent.splits[at] = byte));
    }
    for qp in [51, 52, 127] {
        tape.record(&with(&second(rng), |lent| lent.words[35] = lent.words[35] & !(127 << 16) | qp << 16));
    }
    for plane in 0..3 {
        for sample in [1023, 1024] {
            tape.record(&with(&second(rng), |lent| *lent.planes[plane].last_mut().unwrap() = sample));
        }
    }
}

/// Two reasons at once: 1, 14, 2, 3, the walk's, 6, 7.
fn order(tape: &mut Tape, rng: &mut Rng) {
    for second_reason in 1..7 {
        for first in 0..second_reason {
            let mut bad = second(rng);
            for reason in [first, second_reason] {
                match reason {
                    0 => bad.lent.w = 6,
                    1 => bad.next = 0,
                    2 => {
                        bad.lent.refs.pop();
                    }
                    3 => bad.lent.offsets[1] = 13,
                    4 => bad.lent.splits[136] = rng.pick(&[0, 2]),
                    5 => bad.lent.words[33] |= 127 << 16,
                    _ => bad.lent.planes[2][70] = 1024,
                }
            }
            tape.record(&bad);
        }
    }
}

/// A band that is refused, mended and called again, and then once more, when it is done.
fn mended(tape: &mut Tape, rng: &mut Rng) {
    for plane in 0..3 {
        let good = second(rng);
        let last = good.lent.planes[plane].len() - 1;
        tape.record(&with(&good, |lent| lent.planes[plane][last] = 1024));
        tape.record(&good);
        tape.record(&Band { next: 2, ..good });
    }
}
