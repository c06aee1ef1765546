//! Recorded cases of residual addition, into a block and into a plane.
use super::data::*;
use super::tape::{Case, Line, Tape};
use crate::model::{self, residual as model_residual};
#[cfg(feature = "archive")]
use crate::product::{lend, Answer, Lending, Lent};
use crate::rng::Rng;
use oracle::residual as rust;

#[derive(Clone)]
struct Block {
    coded: bool,
    side: usize,
    prediction: Vec<u16>,
    residual: Vec<i16>,
    block: Vec<u16>,
}

impl Case for Block {
    fn input(&self) -> Line {
        let line = Line::new().flag(self.coded).num(self.side).slice(&self.prediction);
        line.slice(&self.residual).slice(&self.block)
    }

    fn model(&self) -> Line {
        let mut block = self.block.clone();
        let number = model_residual::block(self.coded, self.side, &self.prediction, &self.residual, &mut block);
        Line::new().num(number).all(&block)
    }

    fn rust(&self) -> Option<Line> {
        let mut block = self.block.clone();
        rust::block(self.coded, self.side, &self.prediction, &self.residual, &mut block)?;
        Some(Line::new().num(0u8).all(&block))
    }

    fn in_domain(&self) -> bool {
        true
    }

    #[cfg(feature = "archive")]
    fn product(&self, lending: Lending) -> Answer {
        let (pred, coef) = (Lent::new(lending, &self.prediction), Lent::new(lending, &self.residual));
        let mut rec = Lent::new(lending, &self.block);
        let number = unsafe { lend!(lomsakeun_recon(self.coded, self.side, in pred, in coef, mut rec)) };
        pred.kept(&self.prediction)?;
        coef.kept(&self.residual)?;
        Ok(Line::new().num(number).all(rec.after()?))
    }
}

pub fn record_block(tape: &mut Tape) {
    let rng = &mut Rng::new(0x4ec0b);
    for (side, times) in [(2, 120), (4, 120), (8, 60), (16, 20), (32, 6), (64, 3)] {
        for _ in 0..times {
            tape.record(&accepted_block(rng, side));
        }
    }
    ends(tape, rng);
    block_refusals(tape, rng);
    for _ in 0..20_000 {
        let side = rng.pick(&[2, 4, 8, 16, 32, 64]);
        tape.compare(&accepted_block(rng, side));
    }
}

/// Residuals, small or of the whole range.
fn residuals(rng: &mut Rng, count: usize) -> Vec<i16> {
    let (low, high) = rng.pick(&[(-20, 20), (-1100, 1100), (-32768, 32767), (0, 0)]);
    (0..count).map(|_| rng.range(low, high) as i16).collect()
}

fn accepted_block(rng: &mut Rng, side: usize) -> Block {
    let count = side * side;
    let (prediction, residual) = (samples(rng, count), residuals(rng, count));
    Block { coded: !rng.one_in(3), side, prediction, residual, block: stale(rng, count) }
}

/// Sums at and past both ends of the clip.
fn ends(tape: &mut Tape, rng: &mut Rng) {
    for coded in [false, true] {
        for (prediction, residual) in [
            ([0, 0, 0, 0], [0, -1, -32768, 1023]),
            ([0, 0, 1023, 1023], [1024, 32767, 0, 1]),
            ([1023, 1023, 1023, 1023], [-1023, -1024, -1022, 32767]),
            ([500, 500, 500, 500], [523, 524, -500, -501]),
        ] {
            let (prediction, residual) = (prediction.to_vec(), residual.to_vec());
            tape.record(&Block { coded, side: 2, prediction, residual, block: stale(rng, 4) });
        }
    }
}

/// 8, 2, 7, each boundary, and their order; a residual counts in 2 even where it is not coded.
fn block_refusals(tape: &mut Tape, rng: &mut Rng) {
    for coded in [false, true] {
        for side in [0, 1, 3, 6, 12, 65, 128, (1 << 32) + 4] {
            tape.record(&Block { coded, side, ..accepted_block(rng, 4) });
        }
        for side in [2, 4, 8] {
            let good = Block { coded, ..accepted_block(rng, side) };
            for wrong in wrong_lengths(&good.prediction) {
                tape.record(&Block { prediction: wrong, ..good.clone() });
            }
            for wrong in wrong_lengths(&good.residual) {
                let mut bad = Block { residual: wrong, ..good.clone() };
                tape.record(&bad);
                bad.prediction[0] = 1024;
                tape.record(&bad);
            }
            for wrong in wrong_lengths(&good.block) {
                tape.record(&Block { block: wrong, ..good.clone() });
            }
            for at in [0, side, side * side - 1] {
                let mut bad = good.clone();
                bad.prediction[at] = rng.pick(&[1023, 1024, 1024, 65535]);
                tape.record(&bad);
            }
        }
    }
}

pub fn draw_block(rng: &mut Rng) -> Box<dyn Case> {
    let side = rng.pick(&[2, 4, 4, 8, 8, 16, 16, 32, 64]);
    Box::new(accepted_block(rng, side))
}

pub fn damaged_block(rng: &mut Rng) -> Box<dyn Case> {
    let side = rng.pick(&[2, 4, 8]);
    let mut case = accepted_block(rng, side);
    for _ in 0..1 + rng.below(2) {
        match rng.below(5) {
            0 => spoil(rng, &mut case.side),
            1 => stretch(rng, &mut case.prediction),
            2 => stretch(rng, &mut case.residual),
            3 => stretch(rng, &mut case.block),
            _ => overdo(rng, &mut case.prediction),
        }
    }
    Box::new(case)
}

#[derive(Clone)]
struct Plane {
    chroma: bool,
    w: usize,
    h: usize,
    x: usize,
    y: usize,
    side: usize,
    coded: bool,
    prediction: Vec<u16>,
    residual: Vec<i16>,
    plane: Vec<u16>,
}

impl Case for Plane {
    fn input(&self) -> Line {
        let line = Line::new().flag(self.chroma).num(self.w).num(self.h).num(self.x).num(self.y).num(self.side);
        line.flag(self.coded).slice(&self.prediction).slice(&self.residual).slice(&self.plane)
    }

    fn model(&self) -> Line {
        let mut plane = self.plane.clone();
        let (size, block) = ((self.w, self.h), (self.x, self.y, self.side));
        let (prediction, residual) = (&self.prediction, &self.residual);
        let number = model_residual::plane(self.chroma, size, block, self.coded, prediction, residual, &mut plane);
        Line::new().num(number).all(&plane)
    }

    fn rust(&self) -> Option<Line> {
        let mut plane = self.plane.clone();
        let (size, block) = ((self.w, self.h), (self.x, self.y, self.side));
        rust::plane(self.chroma, size, block, self.coded, &self.prediction, &self.residual, &mut plane)?;
        Some(Line::new().num(0u8).all(&plane))
    }

    fn in_domain(&self) -> bool {
        true
    }

    #[cfg(feature = "archive")]
    fn product(&self, lending: Lending) -> Answer {
        let (pred, coef) = (Lent::new(lending, &self.prediction), Lent::new(lending, &self.residual));
        let mut rec = Lent::new(lending, &self.plane);
        let number = unsafe {
            lend!(lomsakeun_recon_plane(
                self.chroma, self.w, self.h, self.x, self.y, self.side, self.coded, in pred, in coef, mut rec
            ))
        };
        pred.kept(&self.prediction)?;
        coef.kept(&self.residual)?;
        Ok(Line::new().num(number).all(rec.after()?))
    }
}

pub fn record_plane(tape: &mut Tape) {
    let rng = &mut Rng::new(0x4ec09);
    for _ in 0..400 {
        let most = rng.pick(&[4, 8, 12, 16]);
        tape.record(&accepted_plane(rng, most));
    }
    for _ in 0..24 {
        tape.record(&accepted_plane(rng, 36));
    }
    for (w, h, x, y, side) in
        [(64, 64, 0, 0, 64), (128, 64, 64, 0, 64), (4096, 4, 4092, 0, 4), (4, 4096, 0, 4092, 4)]
    {
        for chroma in [false, true] {
            tape.record(&Plane { chroma, ..plane_with(rng, chroma, w, h, x, y, side) });
        }
    }
    plane_refusals(tape, rng);
    for i in 0..20_000 {
        let most = if i % 50 == 0 { 200 } else { rng.pick(&[8, 16, 40]) };
        tape.compare(&accepted_plane(rng, most));
    }
}

fn accepted_plane(rng: &mut Rng, most: usize) -> Plane {
    let (w, h) = (size(rng, most), size(rng, most));
    let side = side(rng, w, h);
    let (x, y) = place(rng, w, h, side);
    let chroma = rng.one_in(2);
    plane_with(rng, chroma, w, h, x, y, side)
}

/// What stands in the plane is not judged, and may be over 1023.
fn plane_with(rng: &mut Rng, chroma: bool, w: usize, h: usize, x: usize, y: usize, side: usize) -> Plane {
    let inner = if chroma { side / 2 } else { side };
    let Block { coded, prediction, residual, .. } = accepted_block(rng, inner);
    let plane = stale(rng, model::plane_len(chroma, w, h));
    Plane { chroma, w, h, x, y, side, coded, prediction, residual, plane }
}

/// 1, 2 before and after 8, 8, 7, each boundary, and their order.
fn plane_refusals(tape: &mut Tape, rng: &mut Rng) {
    for chroma in [false, true] {
        let good = plane_with(rng, chroma, 12, 8, 4, 4, 4);
        for bad in BAD_SIZES {
            tape.record(&Plane { w: bad, ..good.clone() });
            tape.record(&Plane { h: bad, plane: vec![], side: 3, ..good.clone() });
        }
        for wrong in wrong_lengths(&good.plane) {
            tape.record(&Plane { plane: wrong.clone(), ..good.clone() });
            tape.record(&Plane { plane: wrong, side: 3, ..good.clone() });
        }
        for bad in BAD_SIDES.into_iter().chain([16, 32, 64]) {
            tape.record(&Plane { x: 0, y: 0, side: bad, ..good.clone() });
        }
        for side in [4, 8] {
            for (x, y) in bad_places(good.w, good.h, side) {
                tape.record(&Plane { x, y, side, residual: vec![], ..good.clone() });
            }
        }
        tape.record(&Plane { chroma: !chroma, ..good.clone() });
        plane_inner_refusals(tape, rng, &good);
    }
}

/// The lengths that a side fixes, and 7 after them.
fn plane_inner_refusals(tape: &mut Tape, rng: &mut Rng, good: &Plane) {
    for coded in [false, true] {
        for wrong in wrong_lengths(&good.prediction) {
            tape.record(&Plane { coded, prediction: wrong, ..good.clone() });
        }
        for wrong in wrong_lengths(&good.residual) {
            let mut bad = Plane { coded, residual: wrong, ..good.clone() };
            tape.record(&bad);
            bad.prediction[0] = 1024;
            tape.record(&bad);
        }
        for at in [0, 1, good.prediction.len() - 1] {
            let mut bad = Plane { coded, ..good.clone() };
            bad.prediction[at] = rng.pick(&[1023, 1024, 1024, 65535]);
            tape.record(&bad);
        }
    }
}

pub fn draw_plane(rng: &mut Rng) -> Box<dyn Case> {
    let most = if rng.one_in(50) { 200 } else { rng.pick(&[8, 16, 40]) };
    Box::new(accepted_plane(rng, most))
}

pub fn damaged_plane(rng: &mut Rng) -> Box<dyn Case> {
    let mut case = accepted_plane(rng, 24);
    for _ in 0..1 + rng.below(2) {
        match rng.below(10) {
            0 => spoil(rng, &mut case.w),
            1 => spoil(rng, &mut case.h),
            2 => spoil(rng, &mut case.x),
            3 => spoil(rng, &mut case.y),
            4 => spoil(rng, &mut case.side),
            5 => stretch(rng, &mut case.prediction),
            6 => stretch(rng, &mut case.residual),
            7 => stretch(rng, &mut case.plane),
            8 => case.chroma = !case.chroma,
            _ => overdo(rng, &mut case.prediction),
        }
    }
    Box::new(case)
}
