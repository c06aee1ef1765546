//! Recorded cases of gathering.
use super::data::*;
use super::tape::{Case, Line, Tape};
use crate::model::{self, gather as model_gather};
#[cfg(feature = "archive")]
use crate::product::{lend, Answer, Lending, Lent};
use crate::rng::Rng;
use oracle::gather as rust;

#[derive(Clone)]
struct Gather {
    chroma: bool,
    w: usize,
    h: usize,
    plane: Vec<u16>,
    words: Vec<u32>,
    x: usize,
    y: usize,
    side: usize,
    constrained: bool,
    run: Vec<u16>,
}

impl Case for Gather {
    fn input(&self) -> Line {
        let line = Line::new().flag(self.chroma).num(self.w).num(self.h).slice(&self.plane).slice(&self.words);
        line.num(self.x).num(self.y).num(self.side).flag(self.constrained).slice(&self.run)
    }

    fn model(&self) -> Line {
        let mut run = self.run.clone();
        let (size, block) = ((self.w, self.h), (self.x, self.y, self.side));
        let constrained = self.constrained;
        let number =
            model_gather::gather(self.chroma, size, &self.plane, &self.words, block, constrained, &mut run);
        Line::new().num(number).all(&run)
    }

    fn rust(&self) -> Option<Line> {
        let mut run = self.run.clone();
        let (size, block) = ((self.w, self.h), (self.x, self.y, self.side));
        rust::gather(self.chroma, size, &self.plane, &self.words, block, self.constrained, &mut run)?;
        Some(Line::new().num(0u8).all(&run))
    }

    fn in_domain(&self) -> bool {
        true
    }

    #[cfg(feature = "archive")]
    fn product(&self, lending: Lending) -> Answer {
        let (plane, words) = (Lent::new(lending, &self.plane), Lent::new(lending, &self.words));
        let mut run = Lent::new(lending, &self.run);
        let number = unsafe {
            lend!(lomsakeun_get_nbr(
                self.chroma, self.w, self.h, in plane, in words, self.x, self.y, self.side, self.constrained,
                mut run
            ))
        };
        plane.kept(&self.plane)?;
        words.kept(&self.words)?;
        Ok(Line::new().num(number).all(run.after()?))
    }
}

pub fn record(tape: &mut Tape) {
    let rng = &mut Rng::new(0x6a7e4);
    for _ in 0..420 {
        let most = rng.pick(&[4, 8, 12, 16, 24]);
        tape.record(&accepted(rng, most));
    }
    for _ in 0..24 {
        tape.record(&accepted(rng, 40));
    }
    large(tape, rng);
    refusals(tape, rng);
    over(tape, rng);
    for i in 0..20_000 {
        let most = if i % 50 == 0 { 200 } else { rng.pick(&[8, 16, 40]) };
        tape.compare(&accepted(rng, most));
    }
}

fn accepted(rng: &mut Rng, most: usize) -> Gather {
    let (w, h) = (size(rng, most), size(rng, most));
    let side = side(rng, w, h);
    let (x, y) = place(rng, w, h, side);
    with(rng, w, h, x, y, side)
}

fn with(rng: &mut Rng, w: usize, h: usize, x: usize, y: usize, side: usize) -> Gather {
    let chroma = rng.one_in(2);
    let run = 4 * (if chroma { side / 2 } else { side }) + 1;
    Gather {
        chroma,
        w,
        h,
        plane: samples(rng, model::plane_len(chroma, w, h)),
        words: words(rng, w, h),
        x,
        y,
        side,
        constrained: rng.one_in(2),
        run: stale(rng, run),
    }
}

/// The larger blocks with arms that end inside, at and past the picture's edge.
fn large(tape: &mut Tape, rng: &mut Rng) {
    for (w, h, x, y, side) in [
        (96, 96, 32, 32, 32),
        (64, 64, 32, 32, 32),
        (48, 96, 16, 32, 16),
        (64, 64, 0, 0, 64),
        (128, 64, 64, 0, 64),
        (68, 128, 0, 64, 64),
        (128, 128, 64, 64, 64),
        (192, 192, 64, 64, 64),
        (4096, 4, 4092, 0, 4),
        (4, 4096, 0, 4092, 4),
    ] {
        tape.record(&with(rng, w, h, x, y, side));
    }
}

/// 1, 2 before and after 8, 8, each boundary, and their order.
fn refusals(tape: &mut Tape, rng: &mut Rng) {
    for _ in 0..2 {
        let good = with(rng, 12, 8, 4, 4, 4);
        for bad in BAD_SIZES {
            tape.record(&Gather { w: bad, ..good.clone() });
            tape.record(&Gather { h: bad, plane: vec![], side: 3, ..good.clone() });
        }
        for wrong in wrong_lengths(&good.plane) {
            tape.record(&Gather { plane: wrong.clone(), ..good.clone() });
            tape.record(&Gather { plane: wrong, side: 3, ..good.clone() });
        }
        for wrong in wrong_lengths(&good.words) {
            tape.record(&Gather { words: wrong, ..good.clone() });
        }
        for wrong in wrong_lengths(&good.run) {
            tape.record(&Gather { run: wrong.clone(), ..good.clone() });
            tape.record(&Gather { run: wrong, x: 2, ..good.clone() });
        }
        for bad in BAD_SIDES.into_iter().chain([16, 32, 64]) {
            tape.record(&Gather { x: 0, y: 0, side: bad, ..good.clone() });
        }
        for side in [4, 8] {
            for (x, y) in bad_places(good.w, good.h, side) {
                tape.record(&Gather { x, y, side, ..good.clone() });
            }
        }
        // A chroma plane lent for luma, and the other way round.
        tape.record(&Gather { chroma: !good.chroma, ..good.clone() });
    }
}

/// 7: one sample of 1024 somewhere, mostly in the row above or the column to the left; it counts only where
/// it is gathered.
fn over(tape: &mut Tape, rng: &mut Rng) {
    for i in 0..120 {
        let side = rng.pick(&[4, 4, 8]);
        let mut case = with(rng, 3 * side, 3 * side, side, side, side);
        let near = if case.chroma { side / 2 } else { side };
        let along = rng.below(3 * near);
        let anywhere = rng.below(9 * near * near);
        let at = rng.pick(&[(near - 1) * 3 * near + along, along * 3 * near + near - 1, anywhere]);
        case.plane[at] = rng.pick(&[1024, 1024, 1025, 65535]);
        if i % 3 == 0 {
            case.words.iter_mut().for_each(|word| *word |= 1 << 31 | 1 << 15);
        }
        if i % 40 == 0 {
            case.run.pop();
        }
        tape.record(&case);
    }
}

pub fn draw(rng: &mut Rng) -> Box<dyn Case> {
    let most = if rng.one_in(50) { 200 } else { rng.pick(&[8, 16, 40]) };
    Box::new(accepted(rng, most))
}

pub fn damaged(rng: &mut Rng) -> Box<dyn Case> {
    let mut case = accepted(rng, 24);
    for _ in 0..1 + rng.below(2) {
        match rng.below(10) {
            0 => spoil(rng, &mut case.w),
            1 => spoil(rng, &mut case.h),
            2 => stretch(rng, &mut case.plane),
            3 => stretch(rng, &mut case.words),
            4 => spoil(rng, &mut case.x),
            5 => spoil(rng, &mut case.y),
            6 => spoil(rng, &mut case.side),
            7 => stretch(rng, &mut case.run),
            8 => case.chroma = !case.chroma,
            _ => overdo(rng, &mut case.plane),
        }
    }
    Box::new(case)
}
