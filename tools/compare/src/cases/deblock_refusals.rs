//! The recorded refusals of deblocking, their boundaries and their order, on small pictures.
use super::data::*;
use super::deblock::{picture, Picture};
use super::tape::Tape;
use super::trees;
use crate::rng::Rng;

pub fn record(tape: &mut Tape, rng: &mut Rng) {
    let good = picture(rng, 12, 8, trees::FINE);
    sizes(tape, &good);
    lengths(tape, &good);
    settings(tape, rng);
    splits(tape, rng);
    qps(tape, rng);
    mapped(tape, rng);
    over(tape, rng);
    order(tape, rng);
}

/// 1.
fn sizes(tape: &mut Tape, good: &Picture) {
    for bad in BAD_SIZES {
        tape.record(&Picture { w: bad, ..good.clone() });
        tape.record(&Picture { h: bad, refs: vec![], limit: 4, ..good.clone() });
    }
}

/// 2: each of the twelve slices.
fn lengths(tape: &mut Tape, good: &Picture) {
    for i in 0..3 {
        for wrong in wrong_lengths(&good.planes[i]) {
            let mut bad = good.clone();
            bad.planes[i] = wrong;
            tape.record(&bad);
        }
    }
    for i in 0..2 {
        for wrong in wrong_lengths(&good.tables[i]) {
            let mut bad = good.clone();
            bad.tables[i] = wrong;
            tape.record(&bad);
        }
    }
    wrong_lengths(&good.words).into_iter().for_each(|words| tape.record(&Picture { words, ..good.clone() }));
    wrong_lengths(&good.splits).into_iter().for_each(|splits| tape.record(&Picture { splits, ..good.clone() }));
    wrong_lengths(&good.motion).into_iter().for_each(|motion| tape.record(&Picture { motion, ..good.clone() }));
    wrong_lengths(&good.refs).into_iter().for_each(|refs| tape.record(&Picture { refs, ..good.clone() }));
    wrong_lengths(&good.keep).into_iter().for_each(|keep| tape.record(&Picture { keep, ..good.clone() }));
    for strengths in wrong_lengths(&good.strengths) {
        tape.record(&Picture { strengths, limit: 7, ..good.clone() });
    }
}

/// 3 and its boundary.
fn settings(tape: &mut Tape, rng: &mut Rng) {
    for limit in [0, 1, 4, 5, 6, 7, 32, 255] {
        tape.record(&Picture { limit, ..picture(rng, 8, 8, trees::FINE) });
    }
    for offset in [-128, -13, -12, 12, 13, 127] {
        tape.record(&Picture { offsets: [offset, 0], ..picture(rng, 8, 8, trees::FINE) });
        tape.record(&Picture { offsets: [0, offset], ..picture(rng, 8, 8, trees::FINE) });
    }
}

/// The byte of each level at the picture's corner: 64, 32, 16, 8.
const CORNER: [usize; 4] = [136, 256 + 68, 512 + 34, 768 + 17];

/// 4 and 5 as the walk meets them, 4 first at one block; bytes that are not reached do not matter.
fn splits(tape: &mut Tape, rng: &mut Rng) {
    for level in 0..4 {
        for byte in [0, 1, 2, 255] {
            let mut bad = picture(rng, 8, 8, trees::FINE);
            bad.splits[CORNER[level]] = byte;
            tape.record(&bad);
            let mut bad = picture(rng, 16, 12, trees::FINE);
            bad.splits[CORNER[level]] = byte;
            tape.record(&bad);
        }
    }
    // The second 8 of a row, at unit (3, 1): 4 after an accepted block, 5 before it, and 4 before 5.
    for (first, second) in [(0, 2), (2, 0), (1, 2), (0, 0)] {
        for w in [12, 16] {
            let mut bad = picture(rng, w, 8, trees::FINE);
            bad.splits[CORNER[3]] = first;
            bad.splits[768 + 19] = second;
            tape.record(&bad);
        }
    }
    // The same in the second root.
    for byte in [0, 1, 2] {
        let mut bad = picture(rng, 72, 8, trees::FINEST);
        bad.splits[1024 + CORNER[3]] = byte;
        tape.record(&bad);
    }
}

/// 6: a QP of 52 or more in any unit, on an edge or not.
fn qps(tape: &mut Tape, rng: &mut Rng) {
    for qp in [0, 51, 52, 53, 64, 127] {
        for at in [0, 3, 5] {
            let mut bad = picture(rng, 12, 8, trees::COARSE);
            bad.words[at] = bad.words[at] & !(127 << 16) | qp << 16;
            tape.record(&bad);
        }
    }
}

/// A mapped chroma QP outside 0..51, in each lookup: accepted, and read at the nearest end.
fn mapped(tape: &mut Tape, rng: &mut Rng) {
    for (qp, offsets) in [(30, [-5, 7]), (51, [12, 12]), (0, [-12, -12]), (51, [0, 12])] {
        for alike in [false, true] {
            for table in 0..2 {
                for offset in 0..2 {
                    for value in [0, 51, 52, -1, -128, 127] {
                        let mut case = Picture { offsets, ..picture(rng, 8, 4, trees::FINE) };
                        case.words.iter_mut().for_each(|word| *word = *word & !(127 << 16) | qp << 16);
                        let at = 12 + (qp as i64 + offsets[offset]).clamp(-12, 57);
                        case.tables[table][at as usize] = value;
                        if alike {
                            case.tables[1 - table] = case.tables[table].clone();
                        }
                        if value == 52 || rng.one_in(3) {
                            tape.record(&case);
                        }
                    }
                }
            }
        }
    }
    // Every entry but those looked up is wild.
    for alike in [false, true] {
        let mut case = Picture { offsets: [1, -2], ..picture(rng, 16, 8, trees::FINE) };
        case.words.iter_mut().for_each(|word| *word = *word & !(127 << 16) | 40 << 16);
        case.tables = case.tables.map(|table| {
            let looked_up = |i: usize| i == 12 + 41 || i == 12 + 38;
            table.iter().enumerate().map(|(i, &v)| if looked_up(i) { v } else { rng.pick(&[-1, 52]) }).collect()
        });
        if alike {
            case.tables[1] = case.tables[0].clone();
        }
        tape.record(&case);
    }
}

/// 7: one sample over 1023 in any plane, in a window or not.
fn over(tape: &mut Tape, rng: &mut Rng) {
    for plane in 0..3 {
        for sample in [1023, 1024, 65535] {
            let mut bad = picture(rng, 12, 8, trees::COARSE);
            let last = bad.planes[plane].len() - 1;
            for at in [0, rng.below(last), last] {
                let mut bad = bad.clone();
                bad.planes[plane][at] = sample;
                tape.record(&bad);
            }
            bad.planes.iter_mut().for_each(|plane| plane.fill(sample));
            tape.record(&bad);
        }
    }
}

/// Several reasons at once: 1, 2, 3, the walk's, 6, 7.
fn order(tape: &mut Tape, rng: &mut Rng) {
    for reasons in 1..64 {
        let has = |bit: u32| reasons >> bit & 1 == 1;
        let mut bad = picture(rng, 8, 8, trees::FINE);
        if has(0) {
            bad.w = 6;
        }
        if has(1) {
            bad.motion.pop();
        }
        if has(2) {
            bad.offsets[1] = 13;
        }
        if has(3) {
            bad.splits[CORNER[rng.below(3)]] = rng.pick(&[0, 2]);
        }
        if has(4) {
            bad.words[2] |= 127 << 16;
        }
        if has(5) {
            bad.planes[1][3] = 1024;
        }
        tape.record(&bad);
    }
}
