//! Cases of deblocking that is lent a map of edge rows. The Rust has no such map; where it is right, or not lent, the planes are the Rust's.
use super::data::*;
use super::deblock::{picture, Picture};
#[cfg(feature = "archive")]
use super::deblock_cases::harm;
use super::deblock_cases::{pair, square, varied};
use super::keep::marked;
use super::tape::{Case, Line, Tape};
use super::trees;
use crate::model::{rows::Held, size_ok, LENGTH, ROWS};
#[cfg(feature = "archive")]
use crate::product::{Answer, Lending};
use crate::rng::Rng;

/// A picture, and the map that is lent with it: its own, none, or anything.
#[derive(Clone)]
struct ByRows {
    picture: Picture,
    rows: Vec<u8>,
}

/// The map that is right, where the picture's maps fit it.
fn right_map(picture: &Picture) -> Vec<u8> {
    let units = (picture.w / 4) * (picture.h / 4);
    let (words, motion, refs) = (picture.words.clone(), picture.motion.clone(), picture.refs.clone());
    let mut held = Held { words, motion, refs, rows: vec![0; units.min(1 << 20)] };
    held.fill(picture.w, picture.h);
    held.rows
}

impl ByRows {
    /// By its own map.
    fn right(picture: Picture) -> ByRows {
        ByRows { rows: right_map(&picture), picture }
    }
}

impl Case for ByRows {
    fn input(&self) -> Line {
        self.picture.listed().flag(true).slice(&self.rows)
    }

    fn model(&self) -> Line {
        let Picture { w, h, ref planes, ref words, .. } = self.picture;
        let refused = |number: u32| Picture::answer(number, (0, 0), planes, words);
        if size_ok(w, h) && !self.rows.is_empty() && self.rows.len() != (w / 4) * (h / 4) {
            return refused(LENGTH);
        }
        let line = self.picture.model();
        if line.accepted() && !self.rows.is_empty() && self.rows != right_map(&self.picture) {
            return refused(ROWS);
        }
        line
    }

    fn asked(&self) -> Option<&dyn Case> {
        Some(&self.picture)
    }

    #[cfg(feature = "archive")]
    fn product(&self, lending: Lending) -> Answer {
        self.picture.lent(Some(&self.rows), lending)
    }
}

#[cfg(feature = "archive")]
pub fn draw(rng: &mut Rng) -> Box<dyn Case> {
    let most = rng.pick(&[8, 16, 36, 72]);
    let i = 1 + rng.below(64);
    let size = square(rng, most);
    let mut case = ByRows::right(varied(rng, size, i));
    if rng.one_in(8) {
        case.rows.clear();
    }
    Box::new(case)
}

/// The picture damaged, or the map, or both.
#[cfg(feature = "archive")]
pub fn damaged(rng: &mut Rng) -> Box<dyn Case> {
    let size = square(rng, 24);
    let mut case = ByRows::right(varied(rng, size, 1));
    let which = rng.below(4);
    if which != 0 {
        match rng.below(3) {
            0 => stretch(rng, &mut case.rows),
            _ => {
                let at = rng.below(case.rows.len());
                case.rows[at] ^= 1 << rng.below(8);
            }
        }
    }
    if which < 2 {
        harm(rng, &mut case.picture);
    }
    Box::new(case)
}

// ---- the recording

pub fn record(tape: &mut Tape) {
    let rng = &mut Rng::new(0xb120);
    for i in 0..24 {
        let most = rng.pick(&[8, 12, 16, 24]);
        let size = square(rng, most);
        let case = varied(rng, size, i);
        // in colour, in grey, with marks, and by no map
        match i % 4 {
            0 => tape.record(&ByRows::right(case.grey())),
            1 => tape.record(&ByRows::right(marked(rng, case))),
            2 => tape.record(&ByRows { picture: case, rows: vec![] }),
            _ => tape.record(&ByRows::right(case)),
        }
    }
    each_row(tape, rng);
    tape.record(&ByRows::right(picture(rng, 68, 68, trees::COARSE)));
    wrong(tape, rng);
    lengths(tape, rng);
    order(tape, rng);
}

/// Two units on both sides of an upright or a level edge in each row: 3, 2, 1 by either unit, and 0 by either.
fn each_row(tape: &mut Tape, rng: &mut Rng) {
    for upright in [true, false] {
        for (by, bit, unit) in [(3, 0, 0), (4, 0, 0), (4, 24, 0), (4, 24, 1), (4, 15, 0), (4, 15, 1)] {
            let mut picture = pair(rng, upright, [0, 0, 0, 0, by, 0, 0, 0], [0; 4]);
            if bit > 0 {
                picture.words[unit] |= 1 << bit;
            }
            tape.record(&ByRows::right(picture));
        }
    }
}

/// 19: every bit of two units' bytes, the first of which has no neighbour before it; the last byte; and another picture's map.
fn wrong(tape: &mut Tape, rng: &mut Rng) {
    let good = ByRows::right(picture(rng, 8, 8, trees::FINEST));
    for at in [0, 3] {
        for bit in 0..8 {
            let mut case = good.clone();
            case.rows[at] ^= 1 << bit;
            tape.record(&case);
        }
    }
    let grey = ByRows::right(good.picture.clone().grey());
    for rows in [vec![255; 4], vec![0; 4]] {
        tape.record(&ByRows { rows: rows.clone(), ..good.clone() });
        tape.record(&ByRows { rows, ..grey.clone() });
    }
}

/// 2: a map of another length, after 1 and before 3.
fn lengths(tape: &mut Tape, rng: &mut Rng) {
    let good = ByRows::right(picture(rng, 12, 8, trees::FINE));
    for rows in wrong_lengths(&good.rows).into_iter().filter(|rows| !rows.is_empty()) {
        let limit = rng.pick(&[6, 7]);
        tape.record(&ByRows { picture: Picture { limit, ..good.picture.clone() }, rows: rows.clone() });
        tape.record(&ByRows { picture: Picture { w: 10, ..good.picture.clone() }, rows });
    }
}

/// Each other reason beside a map that is right and one that is wrong: 19 comes last.
fn order(tape: &mut Tape, rng: &mut Rng) {
    let good = picture(rng, 8, 8, trees::FINE);
    let reasons: [fn(&mut Picture); 9] = [
        |bad| bad.w = 4100,
        |bad| bad.refs.clear(),
        |bad| bad.limit = 4,
        |bad| bad.offsets[0] = 13,
        |bad| bad.splits[136] = 2,
        |bad| bad.splits[136] = 0,
        |bad| bad.keep[3] = 2,
        |bad| bad.words[3] |= 127 << 16,
        |bad| bad.planes[2][3] = 1024,
    ];
    for reason in reasons {
        let mut bad = ByRows::right(good.clone());
        reason(&mut bad.picture);
        tape.record(&bad);
        bad.rows[1] ^= 1;
        tape.record(&bad);
    }
}
