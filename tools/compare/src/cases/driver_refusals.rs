//! The recorded refusals of the block driver, their boundaries and their order, on small pictures.
use super::data::*;
use super::driver::{drawn, of, picture, Driver, KINDS, MASKS};
use super::tape::Tape;
use super::trees;
use crate::rng::Rng;

pub fn record(tape: &mut Tape, rng: &mut Rng) {
    let good = picture(rng, 12, 8, trees::FINE);
    sizes(tape, &good);
    lengths(tape, &good);
    splits(tape, rng);
    lists(tape, rng);
    bytes(tape, rng);
    masks(tape, rng);
    over(tape, rng);
    order(tape, rng);
    for _ in 0..40 {
        tape.record(&damaged(rng));
    }
}

/// 1.
fn sizes(tape: &mut Tape, good: &Driver) {
    for bad in BAD_SIZES {
        tape.record(&Driver { w: bad, ..good.clone() });
        tape.record(&Driver { h: bad, ..good.clone() });
    }
}

/// 2: each of the nine slices whose lengths the size fixes.
fn lengths(tape: &mut Tape, good: &Driver) {
    for i in 0..3 {
        for wrong in wrong_lengths(&good.predictions[i]) {
            let mut bad = good.clone();
            bad.predictions[i] = wrong;
            tape.record(&bad);
        }
        for wrong in wrong_lengths(&good.planes[i]) {
            let mut bad = good.clone();
            bad.planes[i] = wrong;
            tape.record(&bad);
        }
    }
    wrong_lengths(&good.splits).into_iter().for_each(|splits| tape.record(&Driver { splits, ..good.clone() }));
    wrong_lengths(&good.words).into_iter().for_each(|words| tape.record(&Driver { words, ..good.clone() }));
    wrong_lengths(&good.modes).into_iter().for_each(|modes| tape.record(&Driver { modes, ..good.clone() }));
    wrong_lengths(&good.keep).into_iter().for_each(|keep| tape.record(&Driver { keep, ..good.clone() }));
}

/// The byte of each level at the picture's corner: 64, 32, 16, 8.
const CORNER: [usize; 4] = [136, 256 + 68, 512 + 34, 768 + 17];

/// A picture over a finely cut tree with these split bytes changed; the leaves are those of the changed tree.
fn changed(rng: &mut Rng, (w, h): (usize, usize), bytes: &[(usize, u8)]) -> Driver {
    let mut splits = picture(rng, w, h, trees::FINEST).splits;
    bytes.iter().for_each(|&(at, byte)| splits[at] = byte);
    drawn(rng, (w, h), splits, &KINDS, &MASKS)
}

/// 4 and 5 as the walk meets them, 4 first at one block; bytes that are not reached do not matter.
fn splits(tape: &mut Tape, rng: &mut Rng) {
    for at in CORNER {
        for byte in [0, 1, 2, 255] {
            tape.record(&changed(rng, (8, 8), &[(at, byte)]));
            tape.record(&changed(rng, (16, 12), &[(at, byte)]));
        }
    }
    // The second 8 of a row, at unit (3, 1): 4 after an accepted block, 5 before it, and 4 before 5.
    for (first, second) in [(0, 2), (2, 0), (1, 2), (0, 0)] {
        for w in [12, 16] {
            tape.record(&changed(rng, (w, 8), &[(CORNER[3], first), (768 + 19, second)]));
        }
    }
    // 5 at the first 8 of a picture 4 high, and 4 at the second; and the other way round.
    for (first, second) in [(0, 2), (2, 0), (1, 0), (1, 1)] {
        tape.record(&changed(rng, (16, 4), &[(CORNER[3], first), (768 + 19, second)]));
    }
    // The same in the second root.
    for byte in [0, 1, 2] {
        tape.record(&changed(rng, (72, 8), &[(1024 + CORNER[3], byte)]));
    }
}

/// 13: a list that is too short or too long, by a byte or by a leaf, whichever masks the leaves have.
fn lists(tape: &mut Tape, rng: &mut Rng) {
    for mask in [0, 1, 6, 7] {
        let good = of(rng, (12, 8), trees::FINE, &KINDS, &[mask]);
        let (records, residuals) = (good.records.len(), good.residuals.len());
        for n in [0, records - 4, records - 1, records, records + 1, records + 4] {
            let mut bad = good.clone();
            bad.records.resize(n, 0);
            tape.record(&bad);
        }
        for n in [0, residuals.saturating_sub(16), residuals.saturating_sub(1), residuals + 1, residuals + 4] {
            let mut bad = good.clone();
            bad.residuals.resize(n, 0);
            tape.record(&bad);
        }
    }
}

/// 9, 6 and 13: a kind, a QP and a keep byte, each with its boundary, in the first leaf, in the second and in the last.
fn bytes(tape: &mut Tape, rng: &mut Rng) {
    for (byte, values) in
        [(0, &[5, 6, 128, 255][..]), (1, &[0, 51, 52, 64, 127, 128, 255]), (3, &[0, 1, 2, 128, 255])]
    {
        for value in values {
            let good = picture(rng, 12, 8, trees::FINEST);
            for leaf in [0, 1, 5] {
                let mut bad = good.clone();
                bad.records[4 * leaf + byte] = *value;
                tape.record(&bad);
            }
        }
    }
}

/// 13: a mask over 7, with as many residuals as its lower bits ask.
fn masks(tape: &mut Tape, rng: &mut Rng) {
    for mask in [0, 1, 7] {
        for over in [8, 128, 248] {
            let good = of(rng, (12, 8), trees::FINEST, &KINDS, &[mask]);
            for leaf in [0, 1, 5] {
                let mut bad = good.clone();
                bad.records[4 * leaf + 2] |= over;
                tape.record(&bad);
            }
        }
    }
}

/// 7: one sample over 1023 in any lent plane, whether a leaf takes it or none does; what the planes held does not matter.
fn over(tape: &mut Tape, rng: &mut Rng) {
    for plane in 0..3 {
        for sample in [1023, 1024, 65535] {
            for kinds in [&[5][..], &KINDS[..5]] {
                let good = of(rng, (12, 8), trees::COARSE, kinds, &MASKS);
                let last = good.predictions[plane].len() - 1;
                for at in [0, rng.below(last), last] {
                    let mut bad = good.clone();
                    bad.predictions[plane][at] = sample;
                    tape.record(&bad);
                }
            }
        }
    }
    for sample in [1023, 1024, 65535] {
        let mut case = picture(rng, 12, 8, trees::MIXED);
        case.planes.iter_mut().for_each(|plane| plane.fill(sample));
        tape.record(&case);
    }
}

/// Of a grey picture: 2 where a chroma plane is lent, as to a picture in colour where none is; 13 for a chroma bit, with the residuals that it asks and without.
pub fn greys(tape: &mut Tape, rng: &mut Rng) {
    let colour = picture(rng, 8, 8, trees::FINEST);
    let good = colour.grey();
    for i in 1..3 {
        for lent in [vec![0], colour.planes[i].clone()] {
            let mut bad = good.clone();
            bad.planes[i] = lent.clone();
            tape.record(&bad);
            bad = good.clone();
            bad.predictions[i] = lent;
            tape.record(&bad);
        }
    }
    tape.record(&Driver { colour: false, ..colour.clone() });
    tape.record(&Driver { colour: true, ..good.clone() });
    for mask in 1..8 {
        for leaf in 0..4 {
            let mut bad = of(rng, (8, 8), trees::FINEST, &KINDS, &[0]).grey();
            bad.records[4 * leaf + 2] = mask;
            bad.residuals.resize([0, 16, 4, 20, 4, 20, 8, 24][mask as usize], 1);
            tape.record(&bad);
            bad.residuals.resize([0, 16][mask as usize & 1], 1);
            tape.record(&bad);
        }
    }
    for _ in 0..20 {
        tape.record(&damage(rng, true));
    }
}

/// Several reasons at once: 1, 2, the walk's 4 or 5, 13, 9, 6, 7. A later one stands in an earlier leaf.
fn order(tape: &mut Tape, rng: &mut Rng) {
    for reasons in 0..64 {
        for walk in [1, 2, 0] {
            let has = |bit: u32| reasons >> bit & 1 == 1;
            let mut bad = picture(rng, 8, 8, trees::FINEST);
            if has(0) {
                bad.w = 6;
            }
            if has(1) {
                bad.modes.pop();
            }
            // 1 is the tree as it was; 2 is 4; 0 is 5, for each of these blocks is larger than the picture.
            bad.splits[CORNER[rng.below(3)]] = walk;
            if has(2) {
                spoil_list(rng, &mut bad);
            }
            if has(3) {
                bad.records[4] = 6;
            }
            if has(4) {
                bad.records[1] = 52;
            }
            if has(5) {
                bad.predictions[2][3] = 1024;
            }
            tape.record(&bad);
        }
    }
}

/// 13, in one of its ways, in the last leaf.
fn spoil_list(rng: &mut Rng, bad: &mut Driver) {
    match rng.below(4) {
        0 => bad.records.truncate(12),
        1 => bad.residuals.push(0),
        2 => bad.records[14] |= 8,
        _ => bad.records[15] = 2,
    }
}

/// An accepted picture with one or two things changed.
pub fn damaged(rng: &mut Rng) -> Driver {
    let grey = rng.one_in(3);
    damage(rng, grey)
}

fn damage(rng: &mut Rng, grey: bool) -> Driver {
    let (w, h) = (size(rng, 16), size(rng, 16));
    let taste = trees::taste(rng);
    let mut case = picture(rng, w, h, taste);
    if grey {
        case = case.grey();
    }
    for _ in 0..1 + rng.below(2) {
        let plane = rng.below(3);
        let leaf = 4 * rng.below((case.records.len() / 4).max(1));
        let mut set = |byte: usize, value: u8| {
            if let Some(place) = case.records.get_mut(leaf + byte) {
                *place = value;
            }
        };
        match rng.below(15) {
            0 => set(0, rng.pick(&[5, 6, 7, 254, 255])),
            1 => set(1, rng.pick(&[51, 52, 64, 128, 255])),
            2 => set(2, rng.pick(&[1, 2, 7, 8, 9, 255])),
            3 => set(3, rng.pick(&[0, 1, 2, 128, 255])),
            4 => spoil(rng, &mut case.w),
            5 => spoil(rng, &mut case.h),
            6 => stretch(rng, &mut case.splits),
            7 => stretch(rng, &mut case.records),
            8 => stretch(rng, &mut case.residuals),
            9 => stretch(rng, &mut case.predictions[plane]),
            10 => stretch(rng, &mut case.planes[plane]),
            11 => stretch(rng, &mut case.words),
            12 => stretch(rng, &mut case.modes),
            13 => stretch(rng, &mut case.keep),
            _ => overdo(rng, &mut case.predictions[plane]),
        }
    }
    if rng.one_in(4) {
        let at = rng.pick(&CORNER);
        if let Some(byte) = case.splits.get_mut(at) {
            *byte = rng.pick(&[0, 1, 2, 255]);
        }
    }
    case
}
