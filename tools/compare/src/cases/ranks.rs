//! Recorded cases of the mode ranks.
use super::data::*;
use super::tape::{Case, Line, Tape};
use crate::model::ranks as model;
#[cfg(feature = "archive")]
use crate::product::{lend, Answer, Lending, Lent};
use crate::rng::Rng;
use oracle::ranks as rust;

#[derive(Clone)]
struct Ranks {
    w: usize,
    h: usize,
    words: Vec<u32>,
    modes: Vec<u8>,
    table: Vec<u8>,
    sx: usize,
    sy: usize,
}

impl Case for Ranks {
    fn input(&self) -> Line {
        let line = Line::new().num(self.w).num(self.h).slice(&self.words).slice(&self.modes).slice(&self.table);
        line.num(self.sx).num(self.sy)
    }

    fn model(&self) -> Line {
        let size = (self.w, self.h);
        let (number, ranks) = model::ranks(size, &self.words, &self.modes, &self.table, (self.sx, self.sy));
        Line::new().num(number).all(ranks)
    }

    fn rust(&self) -> Option<Line> {
        let ranks = rust::ranks(self.w, self.h, &self.words, &self.modes, self.sx, self.sy)?;
        Some(Line::new().num(0u8).all(&ranks))
    }

    /// The Rust reads its own table.
    fn in_domain(&self) -> bool {
        self.table == rust::table()
    }

    #[cfg(feature = "archive")]
    fn product(&self, lending: Lending) -> Answer {
        let (words, modes) = (Lent::new(lending, &self.words), Lent::new(lending, &self.modes));
        let table = Lent::new(lending, &self.table);
        let stale = [201, 202, 203, 204, 205];
        let mut ranks = Lent::new(lending, &stale);
        let number = unsafe {
            lend!(lomsakeun_get_mpm(self.w, self.h, in words, in modes, in table, self.sx, self.sy, mut ranks))
        };
        words.kept(&self.words)?;
        modes.kept(&self.modes)?;
        table.kept(&self.table)?;
        if number != 0 {
            ranks.kept(&stale)?;
            return Ok(Line::new().num(number));
        }
        Ok(Line::new().num(number).all(ranks.after()?))
    }
}

pub fn record(tape: &mut Tape) {
    let rng = &mut Rng::new(0x4a2e5);
    every_pair(tape, rng);
    for i in 0..420 {
        let most = rng.pick(&[4, 8, 12, 20]);
        tape.record(&accepted(rng, most, i % 4 != 0));
    }
    for _ in 0..6 {
        tape.record(&accepted(rng, 128, true));
    }
    refusals(tape, rng);
    modes(tape, rng);
    for _ in 0..60_000 {
        tape.compare(&accepted(rng, 40, true));
    }
}

/// A mode byte that may be consulted.
fn mode(rng: &mut Rng) -> u8 {
    rng.pick(&[0, 1, 2, 3, 4, 255])
}

fn accepted(rng: &mut Rng, most: usize, rusts: bool) -> Ranks {
    let (w, h) = (size(rng, most), size(rng, most));
    let words = words(rng, w, h);
    let modes = words.iter().map(|_| mode(rng)).collect();
    let table = if rusts { rust::table() } else { (0..180).map(|_| rng.next() as u8).collect() };
    let (sx, sy) = (rng.below(w / 4), rng.below(h / 4));
    Ranks { w, h, words, modes, table, sx, sy }
}

/// Left and up modes in every pairing, beside the unit at (1, 1) of four.
fn every_pair(tape: &mut Tape, rng: &mut Rng) {
    let both = 1 << 31 | 1 << 15;
    for left in [0, 1, 2, 3, 4, 255] {
        for up in [0, 1, 2, 3, 4, 255] {
            let words = (0..4).map(|_| word(rng, 8, 8) | both).collect();
            let modes = vec![rng.next() as u8, up, left, rng.next() as u8];
            tape.record(&Ranks { w: 8, h: 8, words, modes, table: rust::table(), sx: 1, sy: 1 });
        }
    }
}

/// 1, 2 and 8, each boundary, and their order.
fn refusals(tape: &mut Tape, rng: &mut Rng) {
    let good = Ranks { w: 12, h: 8, words: words(rng, 12, 8), ..accepted(rng, 4, false) };
    let good = Ranks { modes: good.words.iter().map(|_| mode(rng)).collect(), sx: 1, sy: 1, ..good };
    for bad in BAD_SIZES {
        tape.record(&Ranks { w: bad, ..good.clone() });
        tape.record(&Ranks { h: bad, table: vec![], sx: 99, ..good.clone() });
    }
    for wrong in wrong_lengths(&good.words) {
        tape.record(&Ranks { words: wrong, ..good.clone() });
    }
    for wrong in wrong_lengths(&good.modes) {
        tape.record(&Ranks { modes: wrong, ..good.clone() });
    }
    for wrong in wrong_lengths(&good.table) {
        tape.record(&Ranks { table: wrong.clone(), ..good.clone() });
        tape.record(&Ranks { table: wrong, sx: 3, ..good.clone() });
    }
    for (sx, sy) in [(3, 0), (0, 2), (2, 1), (3, 2), (4, 0), (0, 3), (1 << 32, 0), (0, 1 << 32)] {
        tape.record(&Ranks { sx, sy, ..good.clone() });
    }
}

/// 9 where a bad byte is consulted, and none where it is not: not there, not intra or not done.
fn modes(tape: &mut Tape, rng: &mut Rng) {
    let (intra, done) = (1 << 15, 1 << 31);
    for bad in [5, 6, 127, 128, 254] {
        for at in 0..4 {
            for bits in [0, intra, done, intra | done] {
                for (sx, sy) in [(1, 1), (0, 1), (1, 0), (0, 0)] {
                    let words = (0..4).map(|_| word(rng, 0, 0) | bits).collect();
                    let mut modes: Vec<u8> = (0..4).map(|_| mode(rng)).collect();
                    modes[at] = bad;
                    let case = Ranks { w: 8, h: 8, words, modes, table: rust::table(), sx, sy };
                    if bad == 5 || bits == intra | done || rng.one_in(6) {
                        tape.record(&case);
                    }
                }
            }
        }
    }
}

pub fn draw(rng: &mut Rng) -> Box<dyn Case> {
    let (most, rusts) = (rng.pick(&[8, 16, 40]), !rng.one_in(16));
    Box::new(accepted(rng, most, rusts))
}

pub fn damaged(rng: &mut Rng) -> Box<dyn Case> {
    let mut case = accepted(rng, 24, true);
    for _ in 0..1 + rng.below(2) {
        match rng.below(8) {
            0 => spoil(rng, &mut case.w),
            1 => spoil(rng, &mut case.h),
            2 => stretch(rng, &mut case.words),
            3 => stretch(rng, &mut case.modes),
            4 => stretch(rng, &mut case.table),
            5 => spoil(rng, &mut case.sx),
            6 => spoil(rng, &mut case.sy),
            _ => case.modes.iter_mut().for_each(|mode| *mode = rng.next() as u8),
        }
    }
    Box::new(case)
}
