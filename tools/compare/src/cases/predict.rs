//! Recorded cases of the five modes.
use super::data::*;
use super::tape::{Case, Line, Tape};
use crate::model::predict as model;
#[cfg(feature = "archive")]
use crate::product::{lend, Answer, Lending, Lent};
use crate::rng::Rng;
use oracle::predict as rust;

#[derive(Clone)]
struct Predict {
    mode: usize,
    side: usize,
    run: Vec<u16>,
    block: Vec<u16>,
}

impl Case for Predict {
    fn input(&self) -> Line {
        Line::new().num(self.mode).num(self.side).slice(&self.run).slice(&self.block)
    }

    fn model(&self) -> Line {
        let mut block = self.block.clone();
        let number = model::predict(self.mode, self.side, &self.run, &mut block);
        Line::new().num(number).all(&block)
    }

    fn rust(&self) -> Option<Line> {
        let mut block = self.block.clone();
        rust::predict(self.mode as u8, self.side, &self.run, &mut block)?;
        Some(Line::new().num(0u8).all(&block))
    }

    fn in_domain(&self) -> bool {
        true
    }

    #[cfg(feature = "archive")]
    fn product(&self, lending: Lending) -> Answer {
        let run = Lent::new(lending, &self.run);
        let mut block = Lent::new(lending, &self.block);
        let (mode, side) = (self.mode as u8, self.side);
        let number = unsafe { lend!(lomsakeun_ipred_b(mode, side, in run, mut block)) };
        run.kept(&self.run)?;
        Ok(Line::new().num(number).all(block.after()?))
    }
}

pub fn record(tape: &mut Tape) {
    let rng = &mut Rng::new(0x94ed1);
    worked(tape, rng);
    for (side, times) in [(2, 30), (4, 30), (8, 20), (16, 8), (32, 2), (64, 2)] {
        for mode in 0..5 {
            for _ in 0..times {
                tape.record(&accepted(rng, mode, side));
            }
        }
    }
    extremes(tape, rng);
    refusals(tape, rng);
    for _ in 0..20_000 {
        let (mode, side) = (rng.below(5), rng.pick(&[2, 4, 8, 16, 32, 64]));
        tape.compare(&accepted(rng, mode, side));
    }
}

fn accepted(rng: &mut Rng, mode: usize, side: usize) -> Predict {
    Predict { mode, side, run: samples(rng, 4 * side + 1), block: stale(rng, side * side) }
}

/// The paper's DC values: left all 100, up all 101 gives 101; side 2, 10 11 and 12 12, gives 11.
fn worked(tape: &mut Tape, rng: &mut Rng) {
    let mut run = vec![100; 9];
    run.extend([101; 8]);
    tape.record(&Predict { mode: 0, side: 4, run, block: stale(rng, 16) });
    tape.record(&Predict { mode: 0, side: 2, run: vec![10, 11, 9, 9, 9, 12, 12, 9, 9], block: stale(rng, 4) });
}

/// All samples at one end, and each arm alone at the other.
fn extremes(tape: &mut Tape, rng: &mut Rng) {
    for side in [2, 4, 8] {
        for mode in 0..5 {
            for (left, corner, up) in [(0, 0, 0), (1023, 1023, 1023), (1023, 0, 0), (0, 1023, 0), (0, 0, 1023)] {
                let mut run = vec![left; 2 * side];
                run.push(corner);
                run.extend(vec![up; 2 * side]);
                tape.record(&Predict { mode, side, run, block: stale(rng, side * side) });
            }
        }
    }
}

/// 8, 2, 9, 7, each boundary, and their order.
fn refusals(tape: &mut Tape, rng: &mut Rng) {
    for side in [0, 1, 3, 6, 12, 65, 128, (1 << 32) + 4] {
        let run = stale(rng, 17);
        tape.record(&Predict { mode: rng.below(7), side, run, block: stale(rng, 16) });
    }
    for side in [2, 4, 8] {
        let good = accepted(rng, 3, side);
        for wrong in wrong_lengths(&good.run) {
            tape.record(&Predict { run: wrong.clone(), ..good.clone() });
            tape.record(&Predict { run: wrong, mode: 5, ..good.clone() });
        }
        for wrong in wrong_lengths(&good.block) {
            tape.record(&Predict { block: wrong, ..good.clone() });
        }
        for mode in [5, 6, 127, 128, 255] {
            let mut bad = Predict { mode, ..good.clone() };
            tape.record(&bad);
            bad.run[0] = 1024;
            tape.record(&bad);
        }
        for mode in 0..5 {
            for at in [0, side, 2 * side - 1, 2 * side, 2 * side + 1, 3 * side + 1, 4 * side] {
                let mut bad = Predict { mode, ..good.clone() };
                bad.run[at] = rng.pick(&[1023, 1024, 1024, 65535]);
                tape.record(&bad);
            }
        }
    }
}

pub fn draw(rng: &mut Rng) -> Box<dyn Case> {
    let (mode, side) = (rng.below(5), rng.pick(&[2, 4, 4, 8, 8, 16, 16, 32, 64]));
    Box::new(accepted(rng, mode, side))
}

pub fn damaged(rng: &mut Rng) -> Box<dyn Case> {
    let (mode, side) = (rng.below(5), rng.pick(&[2, 4, 8]));
    let mut case = accepted(rng, mode, side);
    for _ in 0..1 + rng.below(2) {
        match rng.below(5) {
            0 => case.mode = rng.next() as u8 as usize,
            1 => spoil(rng, &mut case.side),
            2 => stretch(rng, &mut case.run),
            3 => stretch(rng, &mut case.block),
            _ => overdo(rng, &mut case.run),
        }
    }
    Box::new(case)
}
