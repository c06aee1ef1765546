//! Recorded cases of availability, intra and inter.
use super::data::*;
use super::tape::{Case, Line, Tape};
use crate::model::avail as model;
#[cfg(feature = "archive")]
use crate::product::{sys, Answer, Lending, Lent};
use crate::rng::Rng;
use oracle::avail as rust;

#[derive(Clone)]
struct Avail {
    inter: bool,
    w: usize,
    h: usize,
    words: Vec<u32>,
    x: usize,
    y: usize,
    side: usize,
}

fn line(number: u32, named: [bool; 8]) -> Line {
    named.iter().fold(Line::new().num(number), |line, &answer| line.flag(answer))
}

impl Case for Avail {
    fn input(&self) -> Line {
        let line = Line::new().flag(self.inter).num(self.w).num(self.h).slice(&self.words);
        line.num(self.x).num(self.y).num(self.side)
    }

    fn model(&self) -> Line {
        let (number, named) = model::avail(self.inter, self.w, self.h, &self.words, self.x, self.y, self.side);
        line(number, named)
    }

    fn rust(&self) -> Option<Line> {
        let call = if self.inter { rust::inter } else { rust::intra };
        Some(line(0, call(self.w, self.h, &self.words, self.x, self.y, self.side)?))
    }

    fn in_domain(&self) -> bool {
        true
    }

    #[cfg(feature = "archive")]
    fn product(&self, lending: Lending) -> Answer {
        let words = Lent::new(lending, &self.words);
        let call = if self.inter { sys::lomsakeun_get_avail_inter } else { sys::lomsakeun_get_avail_intra };
        let mut mask = 0xa5;
        let (w, h, x, y, side) = (self.w, self.h, self.x, self.y, self.side);
        let number = unsafe { call(w, h, words.as_ptr(), words.len(), x, y, side, &mut mask) };
        words.kept(&self.words)?;
        Ok(line(number as u32, [0, 1, 2, 3, 4, 5, 6, 7].map(|bit| mask >> bit & 1 == 1)))
    }
}

pub fn record(tape: &mut Tape) {
    let rng = &mut Rng::new(0xa7a11);
    for _ in 0..700 {
        let most = rng.pick(&[8, 16, 24, 40]);
        tape.record(&accepted(rng, most));
    }
    for _ in 0..16 {
        tape.record(&accepted(rng, 160));
    }
    extremes(tape, rng);
    refusals(tape, rng);
    for _ in 0..60_000 {
        let most = rng.pick(&[8, 16, 32, 64, 200]);
        tape.compare(&accepted(rng, most));
    }
}

fn accepted(rng: &mut Rng, most: usize) -> Avail {
    let (w, h) = (size(rng, most), size(rng, most));
    let side = side(rng, w, h);
    let (x, y) = place(rng, w, h, side);
    Avail { inter: rng.one_in(2), w, h, words: words(rng, w, h), x, y, side }
}

/// The widest and the highest picture, at both ends, and the largest block alone.
fn extremes(tape: &mut Tape, rng: &mut Rng) {
    for inter in [false, true] {
        for (w, h, x, y, side) in [
            (4096, 4, 0, 0, 4),
            (4096, 4, 4092, 0, 4),
            (4, 4096, 0, 4092, 4),
            (4096, 8, 4088, 0, 8),
            (4, 4, 0, 0, 4),
            (64, 64, 0, 0, 64),
            (192, 192, 64, 64, 64),
        ] {
            tape.record(&Avail { inter, w, h, words: words(rng, w, h), x, y, side });
        }
    }
}

/// 1, 2 and 8, each boundary, and their order.
fn refusals(tape: &mut Tape, rng: &mut Rng) {
    for inter in [false, true] {
        let good = Avail { inter, w: 24, h: 20, words: words(rng, 24, 20), x: 8, y: 8, side: 8 };
        for bad in BAD_SIZES {
            tape.record(&Avail { w: bad, ..good.clone() });
            tape.record(&Avail { h: bad, words: vec![], x: 1, ..good.clone() });
        }
        for wrong in wrong_lengths(&good.words) {
            tape.record(&Avail { words: wrong.clone(), ..good.clone() });
            tape.record(&Avail { words: wrong, side: 7, ..good.clone() });
        }
        for bad in BAD_SIDES {
            tape.record(&Avail { x: 0, y: 0, side: bad, ..good.clone() });
        }
        for side in [4, 8, 16] {
            for (x, y) in bad_places(good.w, good.h, side) {
                tape.record(&Avail { x, y, side, ..good.clone() });
            }
            tape.record(&Avail { x: 0, y: 0, side, ..good.clone() });
        }
        for side in [32, 64] {
            tape.record(&Avail { x: 0, y: 0, side, ..good.clone() });
        }
    }
}

pub fn draw(rng: &mut Rng) -> Box<dyn Case> {
    let most = rng.pick(&[8, 16, 32, 64, 200]);
    Box::new(accepted(rng, most))
}

pub fn damaged(rng: &mut Rng) -> Box<dyn Case> {
    let mut case = accepted(rng, 24);
    for _ in 0..1 + rng.below(2) {
        match rng.below(6) {
            0 => spoil(rng, &mut case.w),
            1 => spoil(rng, &mut case.h),
            2 => stretch(rng, &mut case.words),
            3 => spoil(rng, &mut case.x),
            4 => spoil(rng, &mut case.y),
            _ => spoil(rng, &mut case.side),
        }
    }
    Box::new(case)
}
