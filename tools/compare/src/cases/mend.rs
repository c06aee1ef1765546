//! Cases of mending. The Rust has none of it.
use super::data::*;
use super::deblock::split_bytes;
use super::tape::{Case, Line, Tape};
use super::trees;
use crate::model::mend as model;
#[cfg(feature = "archive")]
use crate::product::{lend, Answer, Lending, Lent};
use crate::rng::Rng;

#[derive(Clone)]
struct Mend {
    w: usize,
    h: usize,
    splits: Vec<u8>,
    out: Vec<u8>,
    list: Vec<u16>,
}

impl Case for Mend {
    fn input(&self) -> Line {
        Line::new().num(self.w).num(self.h).slice(&self.splits).slice(&self.out).slice(&self.list)
    }

    fn model(&self) -> Line {
        let (mut out, mut list) = (self.out.clone(), self.list.clone());
        let (number, count) = model::mend((self.w, self.h), &self.splits, &mut out, &mut list);
        Line::new().num(number).num(count).all(&out).all(&list)
    }

    #[cfg(feature = "archive")]
    fn product(&self, lending: Lending) -> Answer {
        let (number, count, out, list) = self.called(lending, &self.splits)?;
        if number == 0 {
            self.again(lending, &out)?;
        }
        Ok(Line::new().num(number).num(count).all(&out).all(&list))
    }
}

#[cfg(feature = "archive")]
impl Mend {
    /// What the call answers for these bytes, and what it leaves.
    fn called(&self, lending: Lending, bytes: &[u8]) -> Result<(u8, usize, Vec<u8>, Vec<u16>), String> {
        let splits = Lent::new(lending, bytes);
        let mut out = Lent::new(lending, &self.out);
        let mut list = Lent::new(lending, &self.list);
        let mut count = 77;
        let number = unsafe { lend!(lomsakeun_mend(self.w, self.h, in splits, mut out, mut list, &mut count)) };
        splits.kept(bytes)?;
        Ok((number, count, out.after()?.to_vec(), list.after()?.to_vec()))
    }

    /// The walk accepts what was written, and mending it again copies it and lists nothing.
    fn again(&self, lending: Lending, mended: &[u8]) -> Result<(), String> {
        let lent = Lent::new(lending, mended);
        let number = unsafe { lend!(lomsakeun_check(self.w, self.h, in lent)) };
        let same = self.called(lending, mended)? == (0, 0, mended.to_vec(), self.list.clone());
        if number == 0 && same {
            Ok(())
        } else {
            Err(format!("the mended map: check answers {number}; mended again it stays: {same}"))
        }
    }
}

/// What stood in the lent buffers is anything.
fn with(rng: &mut Rng, w: usize, h: usize, splits: Vec<u8>) -> Mend {
    let roots = w.div_ceil(64) * h.div_ceil(64);
    let old = rng.below(10) as u8;
    Mend { w, h, splits, out: vec![old; 1024 * roots], list: vec![old.into(); 425 * roots] }
}

/// A map that the walk accepts, with some of its bytes torn: few, many, or all.
fn torn(rng: &mut Rng, most: usize) -> Mend {
    let (w, h) = (size(rng, most), size(rng, most));
    let taste = trees::taste(rng);
    let tree = trees::tree(rng, w, h, taste);
    let mut splits = split_bytes(rng, w, h, &tree);
    let scratch = rng.pick(&[0, 1, 40, 400, 1024]);
    for byte in &mut splits {
        if rng.below(1024) < scratch {
            *byte = rng.pick(&[0, 0, 1, 1, 1, 2, 3, 255]);
        }
    }
    with(rng, w, h, splits)
}

pub fn draw(rng: &mut Rng) -> Box<dyn Case> {
    let most = rng.pick(&[16, 64, 140]);
    Box::new(torn(rng, most))
}

pub fn damaged(rng: &mut Rng) -> Box<dyn Case> {
    let mut case = torn(rng, 100);
    match rng.below(5) {
        0 => spoil(rng, &mut case.w),
        1 => spoil(rng, &mut case.h),
        2 => stretch(rng, &mut case.splits),
        3 => stretch(rng, &mut case.out),
        _ => stretch(rng, &mut case.list),
    }
    Box::new(case)
}

// ---- what is recorded

pub fn record(tape: &mut Tape) {
    let rng = &mut Rng::new(0x3e4d);
    // each size of one root with a map of one byte: 4 by 4 of 0 is four cuts, 64 by 64 of 255 one leaf
    for (w, h) in [(4, 4), (8, 8), (16, 8), (4, 64), (36, 20), (64, 64)] {
        for byte in [0, 1, 2, 255] {
            tape.record(&with(rng, w, h, vec![byte; 1024]));
        }
    }
    for _ in 0..40 {
        tape.record(&torn(rng, 64));
    }
    // two roots, beside and below one another
    for (w, h) in [(68, 64), (128, 4), (64, 68), (12, 100), (128, 64)] {
        for bytes in [vec![2; 2048], (0..2048).map(|_| rng.pick(&[0, 1, 1, 2, 255])).collect()] {
            tape.record(&with(rng, w, h, bytes));
        }
    }
    refusals(tape, rng);
}

fn refusals(tape: &mut Tape, rng: &mut Rng) {
    let good = with(rng, 16, 8, vec![2; 1024]);
    for bad in BAD_SIZES {
        tape.record(&Mend { w: bad, ..good.clone() });
        tape.record(&Mend { h: bad, ..good.clone() });
    }
    for splits in wrong_lengths(&good.splits) {
        tape.record(&Mend { splits, ..good.clone() });
    }
    for out in wrong_lengths(&good.out) {
        tape.record(&Mend { out, ..good.clone() });
    }
    for list in wrong_lengths(&good.list) {
        tape.record(&Mend { list, ..good.clone() });
    }
    // size before length, and the lengths of another picture
    tape.record(&Mend { w: 0, out: vec![], ..good.clone() });
    tape.record(&Mend { w: 128, ..good });
}
