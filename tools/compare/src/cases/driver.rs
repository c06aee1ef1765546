//! Cases of the block driver. The Rust has no such call: its own gathering, modes and residual addition are called leaf by leaf.
use super::data::*;
use super::deblock::split_bytes;
use super::tape::{Case, Line};
use super::trees::{self, Taste};
use crate::model::driver::{self as model, Given};
use crate::model::{plane_len, walk};
#[cfg(feature = "archive")]
use crate::product::{lend, Answer, Lending, Lent};
use crate::rng::Rng;
use oracle::{gather, predict, residual};

#[derive(Clone)]
pub struct Driver {
    pub w: usize,
    pub h: usize,
    pub colour: bool,
    pub constrained: bool,
    pub splits: Vec<u8>,
    pub records: Vec<u8>,
    pub residuals: Vec<i16>,
    pub predictions: [Vec<u16>; 3],
    pub planes: [Vec<u16>; 3],
    pub words: Vec<u32>,
    pub modes: Vec<u8>,
    pub keep: Vec<u8>,
}

impl Driver {
    fn given(&self) -> Given<'_> {
        Given {
            w: self.w,
            h: self.h,
            colour: self.colour,
            splits: &self.splits,
            records: &self.records,
            residuals: &self.residuals,
            predictions: self.predictions.each_ref().map(|plane| &plane[..]),
            constrained: self.constrained,
        }
    }

    /// The same picture without its colour: masks of Y alone, and of the residuals Y's blocks.
    pub fn grey(&self) -> Driver {
        let mut out = Driver { colour: false, residuals: vec![], ..self.clone() };
        let leaves = walk::leaves(self.w, self.h, walk::cut_by(&self.splits, self.w)).unwrap_or_default();
        let mut rest = &self.residuals[..];
        for (leaf, record) in leaves.iter().zip(model::records(&self.given())) {
            let luma = if record.mask & 1 == 1 { leaf.wide * leaf.wide } else { 0 };
            out.residuals.extend_from_slice(&rest[..luma]);
            rest = &rest[model::residual_len((leaf, record))..];
        }
        out.records.iter_mut().skip(2).step_by(4).for_each(|mask| *mask &= 1);
        out.predictions[1..].iter_mut().chain(&mut out.planes[1..]).for_each(Vec::clear);
        out
    }

    /// The luma plane, the words, the modes and the keep bytes of the model's answer.
    pub fn luma(&self) -> Vec<i64> {
        let mut line = self.model().0;
        let (y, colour) = (1 + self.planes[0].len(), self.planes[1].len() + self.planes[2].len());
        line.drain(y..y + colour);
        line
    }

    /// The components of one leaf, by the Rust's own functions. Answers where the next residuals start.
    fn leaf(&self, leaf: walk::Leaf, record: model::Record, at: usize, out: &mut Driver) -> Option<usize> {
        let (size, block) = ((self.w, self.h), (leaf.x, leaf.y, leaf.wide));
        let mut at = at;
        for i in 0..if self.colour { 3 } else { 1 } {
            let (chroma, scale) = (i > 0, if i > 0 { 2 } else { 1 });
            let side = leaf.wide / scale;
            let mut prediction = vec![0; side * side];
            if record.kind == 5 {
                let (w, x, y) = (self.w / scale, leaf.x / scale, leaf.y / scale);
                let place = |k: usize| (y + k / side) * w + x + k % side;
                (0..side * side).for_each(|k| prediction[k] = self.predictions[i][place(k)]);
            } else {
                let mut run = vec![0; 4 * side + 1];
                gather::gather(chroma, size, &out.planes[i], &out.words, block, self.constrained, &mut run)?;
                predict::predict(record.kind, side, &run, &mut prediction)?;
            }
            let coded = record.mask >> i & 1 == 1;
            let none = vec![0; side * side];
            let coef = if coded { &self.residuals[at..at + side * side] } else { &none[..] };
            residual::plane(chroma, size, block, coded, &prediction, coef, &mut out.planes[i])?;
            at += if coded { side * side } else { 0 };
        }
        model::finish(&self.given(), leaf, record, &mut out.maps());
        Some(at)
    }

    fn maps(&mut self) -> model::Maps<'_> {
        model::Maps { words: &mut self.words, modes: &mut self.modes, keep: &mut self.keep }
    }

    fn answer(number: u32, out: &Driver) -> Line {
        let line = out.planes.iter().fold(Line::new().num(number), |line, plane| line.all(plane));
        line.all(&out.words).all(&out.modes).all(&out.keep)
    }
}

impl Case for Driver {
    fn input(&self) -> Line {
        let line = Line::new().num(self.w).num(self.h).flag(self.colour).flag(self.constrained).slice(&self.splits);
        let line = line.slice(&self.records).slice(&self.residuals);
        let line = self.predictions.iter().chain(&self.planes).fold(line, |line, plane| line.slice(plane));
        line.slice(&self.words).slice(&self.modes).slice(&self.keep)
    }

    fn model(&self) -> Line {
        let mut out = self.clone();
        let maps = model::Maps { words: &mut out.words, modes: &mut out.modes, keep: &mut out.keep };
        let planes = out.planes.each_mut().map(|plane| &mut plane[..]);
        let number = model::reconstruct(&self.given(), planes, maps);
        Driver::answer(number, &out)
    }

    fn rust(&self) -> Option<Line> {
        let mut out = self.clone();
        out.words.fill(0);
        let leaves = walk::leaves(self.w, self.h, walk::cut_by(&self.splits, self.w)).ok()?;
        let mut at = 0;
        for (leaf, record) in leaves.iter().zip(model::records(&self.given())) {
            at = self.leaf(*leaf, record, at, &mut out)?;
        }
        Some(Driver::answer(0, &out))
    }

    fn in_domain(&self) -> bool {
        true
    }

    #[cfg(feature = "archive")]
    fn product(&self, lending: Lending) -> Answer {
        let (splits, records) = (Lent::new(lending, &self.splits), Lent::new(lending, &self.records));
        let residuals = Lent::new(lending, &self.residuals);
        let [py, pu, pv] = self.predictions.each_ref().map(|plane| Lent::new(lending, plane));
        let [mut y, mut u, mut v] = self.planes.each_ref().map(|plane| Lent::new(lending, plane));
        let (mut words, mut modes) = (Lent::new(lending, &self.words), Lent::new(lending, &self.modes));
        let mut keep = Lent::new(lending, &self.keep);
        let number = unsafe {
            lend!(lomsakeun_reconstruct(
                self.w, self.h, self.colour, in splits, in records, in residuals, in py, in pu, in pv,
                self.constrained, mut y, mut u, mut v, mut words, mut modes, mut keep
            ))
        };
        splits.kept(&self.splits)?;
        records.kept(&self.records)?;
        residuals.kept(&self.residuals)?;
        py.kept(&self.predictions[0])?;
        pu.kept(&self.predictions[1])?;
        pv.kept(&self.predictions[2])?;
        let line = Line::new().num(number).all(y.after()?).all(u.after()?).all(v.after()?);
        Ok(line.all(words.after()?).all(modes.after()?).all(keep.after()?))
    }
}

/// The five modes, and lent prediction.
pub const KINDS: [u8; 6] = [0, 1, 2, 3, 4, 5];
pub const MASKS: [u8; 8] = [0, 1, 2, 3, 4, 5, 6, 7];

/// An accepted picture of any kinds and masks.
pub fn picture(rng: &mut Rng, w: usize, h: usize, taste: Taste) -> Driver {
    let kinds = rng.pick(&[&KINDS[..5], &KINDS, &KINDS, &[5], &[3, 4, 5]]);
    let masks = rng.pick(&[&MASKS[..], &MASKS, &[0], &[7]]);
    of(rng, (w, h), taste, kinds, masks)
}

/// An accepted picture, each leaf of one of these kinds and masks.
pub fn of(rng: &mut Rng, (w, h): (usize, usize), taste: Taste, kinds: &[u8], masks: &[u8]) -> Driver {
    let tree = trees::tree(rng, w, h, taste);
    let splits = split_bytes(rng, w, h, &tree);
    drawn(rng, (w, h), splits, kinds, masks)
}

/// The same over these split bytes. Over bytes that the walk refuses, it has no leaves.
pub fn drawn(rng: &mut Rng, (w, h): (usize, usize), splits: Vec<u8>, kinds: &[u8], masks: &[u8]) -> Driver {
    let leaves = walk::leaves(w, h, walk::cut_by(&splits, w)).unwrap_or_default();
    let record = |rng: &mut Rng| [rng.pick(kinds), rng.below(52) as u8, rng.pick(masks), rng.below(2) as u8];
    let units = (w / 4) * (h / 4);
    let lengths = [false, true, true].map(|chroma| plane_len(chroma, w, h));
    let mut picture = Driver {
        w,
        h,
        colour: true,
        constrained: rng.one_in(2),
        splits,
        records: leaves.iter().flat_map(|_| record(rng)).collect(),
        residuals: vec![],
        predictions: lengths.map(|n| samples(rng, n)),
        planes: lengths.map(|n| stale(rng, n)),
        words: (0..units).map(|_| rng.next() as u32).collect(),
        modes: (0..units).map(|_| rng.next() as u8).collect(),
        keep: (0..units).map(|_| rng.next() as u8).collect(),
    };
    let count = leaves.iter().zip(model::records(&picture.given())).map(model::residual_len).sum();
    let high = rng.pick(&[0, 20, 1100, 32767]);
    picture.residuals = (0..count).map(|_| rng.range(-high - 1, high) as i16).collect();
    picture
}
