//! Recorded cases of deblocking: whole pictures.
use super::data::*;
use super::tape::{Case, Line};
use super::trees::{self, Taste};
use crate::model::deblock::{self as model, Given};
#[cfg(feature = "archive")]
use crate::product::{lend, Answer, Lending, Lent};
use crate::rng::Rng;
use oracle::deblock as rust;

#[derive(Clone)]
pub struct Picture {
    pub w: usize,
    pub h: usize,
    pub planes: [Vec<u16>; 3],
    pub words: Vec<u32>,
    pub splits: Vec<u8>,
    pub motion: Vec<i16>,
    pub refs: Vec<i8>,
    pub keep: Vec<u8>,
    pub tables: [Vec<i8>; 2],
    pub strengths: Vec<u8>,
    pub limit: usize,
    pub offsets: [i64; 2],
    pub colour: bool,
}

impl Picture {
    pub fn given(&self) -> Given<'_> {
        Given {
            w: self.w,
            h: self.h,
            splits: &self.splits,
            motion: &self.motion,
            refs: &self.refs,
            keep: &self.keep,
            tables: [&self.tables[0], &self.tables[1]],
            strengths: &self.strengths,
            limit: self.limit,
            offsets: self.offsets,
            colour: self.colour,
        }
    }

    /// The same without its colour.
    pub fn grey(self) -> Picture {
        let [y, ..] = self.planes;
        Picture { planes: [y, vec![], vec![]], tables: [vec![], vec![]], offsets: [0, 0], colour: false, ..self }
    }

    /// The product's answer, by a map of edge rows if there is one.
    #[cfg(feature = "archive")]
    pub fn lent(&self, rows: Option<&[u8]>, lending: Lending) -> Answer {
        let (mut own, map) = (Slices::new(lending, self), Lent::new(lending, rows.unwrap_or(&[])));
        let Slices { planes: [y, u, v], words, splits, motion, refs, keep, tables: [t0, t1], strengths } = &mut own;
        let (w, h, limit, colour) = (self.w, self.h, self.limit as u8, self.colour);
        let [u_off, v_off] = self.offsets.map(|offset| offset as i8);
        let (mut vertical, mut horizontal) = (77, 78);
        let number = unsafe {
            match rows {
                None => lend!(lomsakeun_deblock(
                    w, h, mut y, mut u, mut v, mut words, in splits, in motion, in refs, in keep, in t0, in t1,
                    in strengths, limit, u_off, v_off, colour, &mut vertical, &mut horizontal
                )),
                Some(_) => lend!(lomsakeun_deblock_by_rows(
                    w, h, mut y, mut u, mut v, mut words, in splits, in motion, in refs, in keep, in map, in t0, in t1,
                    in strengths, limit, u_off, v_off, colour, &mut vertical, &mut horizontal
                )),
            }
        };
        map.kept(rows.unwrap_or(&[]))?;
        own.after(self, Line::new().num(number).num(vertical).num(horizontal))
    }

    /// Its numbers, in the order of the call's parameters.
    pub fn listed(&self) -> Line {
        let line = Line::new().num(self.w).num(self.h);
        let line = self.planes.iter().fold(line, |line, plane| line.slice(plane));
        let line =
            line.slice(&self.words).slice(&self.splits).slice(&self.motion).slice(&self.refs).slice(&self.keep);
        let line = line.slice(&self.tables[0]).slice(&self.tables[1]).slice(&self.strengths);
        line.num(self.limit).num(self.offsets[0]).num(self.offsets[1]).flag(self.colour)
    }

    pub fn answer(number: u32, counts: (usize, usize), planes: &[Vec<u16>; 3], words: &[u32]) -> Line {
        let line = Line::new().num(number).num(counts.0).num(counts.1);
        planes.iter().fold(line, |line, plane| line.all(plane)).all(words)
    }
}

/// A picture's slices, lent.
#[cfg(feature = "archive")]
pub struct Slices {
    pub planes: [Lent<u16>; 3],
    pub words: Lent<u32>,
    pub splits: Lent<u8>,
    pub motion: Lent<i16>,
    pub refs: Lent<i8>,
    pub keep: Lent<u8>,
    pub tables: [Lent<i8>; 2],
    pub strengths: Lent<u8>,
}

#[cfg(feature = "archive")]
impl Slices {
    pub fn new(lending: Lending, of: &Picture) -> Slices {
        Slices {
            planes: of.planes.each_ref().map(|plane| Lent::new(lending, plane)),
            words: Lent::new(lending, &of.words),
            splits: Lent::new(lending, &of.splits),
            motion: Lent::new(lending, &of.motion),
            refs: Lent::new(lending, &of.refs),
            keep: Lent::new(lending, &of.keep),
            tables: of.tables.each_ref().map(|table| Lent::new(lending, table)),
            strengths: Lent::new(lending, &of.strengths),
        }
    }

    /// The line with the planes and the words after the call, if every slice that is read is as it was.
    pub fn after(&self, of: &Picture, line: Line) -> Answer {
        self.splits.kept(&of.splits)?;
        self.motion.kept(&of.motion)?;
        self.refs.kept(&of.refs)?;
        self.keep.kept(&of.keep)?;
        self.tables.iter().zip(&of.tables).try_for_each(|(table, before)| table.kept(before))?;
        self.strengths.kept(&of.strengths)?;
        let [y, u, v] = &self.planes;
        Ok(line.all(y.after()?).all(u.after()?).all(v.after()?).all(self.words.after()?))
    }
}

impl Case for Picture {
    /// No map of edge rows is lent.
    fn input(&self) -> Line {
        self.listed().flag(false)
    }

    fn model(&self) -> Line {
        let (mut planes, mut words) = (self.planes.clone(), self.words.clone());
        let (number, v, h) = model::deblock(&self.given(), planes.each_mut().map(|p| &mut p[..]), &mut words);
        Picture::answer(number, (v, h), &planes, &words)
    }

    /// The planes and words are evc_deblock's; the counts are the lengths of the lists of windows that it is
    /// seen to filter. The Rust has no grey pictures: it is lent chroma planes and tables of zeros, and what it makes of them is left out.
    fn rust(&self) -> Option<Line> {
        if !self.colour {
            let chroma = vec![0; (self.w / 2) * (self.h / 2)];
            let planes = [self.planes[0].clone(), chroma.clone(), chroma];
            let mut line =
                Picture { planes, tables: [vec![0; 70], vec![0; 70]], colour: true, ..self.clone() }.rust()?;
            line.0.drain(3 + self.w * self.h..3 + self.w * self.h * 3 / 2);
            return Some(line);
        }
        let (mut planes, mut words) = (self.planes.clone(), self.words.clone());
        let size = (self.w, self.h);
        let maps = (&self.splits[..], &self.motion[..], &self.refs[..]);
        let tables = [&self.tables[0][..], &self.tables[1][..]];
        let offsets = self.offsets.map(|offset| offset as i8);
        let (deblock, edges): (_, fn((usize, usize), &[u8]) -> _) = if self.limit == 6 {
            (rust::deblock as Deblock, oracle_visits::visits::edges)
        } else {
            (oracle_tr5::deblock::deblock as Deblock, oracle_visits_tr5::visits::edges)
        };
        deblock(size, planes.each_mut().map(|p| &mut p[..]), &mut words, maps, tables, offsets)?;
        let [vertical, horizontal] = edges(size, &self.splits)?;
        Some(Picture::answer(0, (vertical.len(), horizontal.len()), &planes, &words))
    }

    fn in_domain(&self) -> bool {
        self.strengths == rust::strengths() && model::fits(&self.given(), &self.words)
    }

    #[cfg(feature = "archive")]
    fn product(&self, lending: Lending) -> Answer {
        self.lent(None, lending)
    }
}

type Deblock =
    fn((usize, usize), [&mut [u16]; 3], &mut [u32], (&[u8], &[i16], &[i8]), [&[i8]; 2], [i8; 2]) -> Option<()>;

/// A tree's bytes, the unreached ones being anything.
pub fn split_bytes(rng: &mut Rng, w: usize, h: usize, tree: &[(usize, usize, usize, bool)]) -> Vec<u8> {
    let wide = w.div_ceil(64);
    let other = rng.pick(&[9, 9, 0, 1]);
    let mut bytes = vec![other; 1024 * wide * h.div_ceil(64)];
    for &(x, y, side, cut) in tree {
        let level = 6 - side.ilog2() as usize;
        let centre = 16 * ((y % 64 + side / 2) / 4) + (x % 64 + side / 2) / 4;
        bytes[1024 * ((y / 64) * wide + x / 64) + 256 * level + centre] = cut as u8;
    }
    bytes
}

/// An accepted picture with the Rust's strengths, both chroma tables alike and nothing kept.
pub fn picture(rng: &mut Rng, w: usize, h: usize, taste: Taste) -> Picture {
    let units = (w / 4) * (h / 4);
    let tree = trees::tree(rng, w, h, taste);
    let alike = table(rng);
    let (low, high) = rng.pick(&[(0, 51), (20, 51), (30, 51), (45, 51), (37, 37)]);
    Picture {
        w,
        h,
        planes: [texture(rng, w, h), texture(rng, w / 2, h / 2), texture(rng, w / 2, h / 2)],
        words: deblock_words(rng, units, low, high),
        splits: split_bytes(rng, w, h, &tree),
        motion: motion(rng, units),
        refs: refs(rng, units),
        keep: vec![0; units],
        tables: std::array::from_fn(|_| alike.clone()),
        strengths: rust::strengths(),
        limit: rng.pick(&[5, 6]),
        offsets: [rng.range(-12, 12), rng.range(-12, 12)],
        colour: true,
    }
}

/// Samples that the filter moves: steps and slopes with a little noise, or anything.
fn texture(rng: &mut Rng, w: usize, h: usize) -> Vec<u16> {
    let (base, noise) = (rng.range(0, 1023), rng.pick(&[0, 3, 30, 1023]));
    let (slope_x, slope_y, step) = (rng.range(-9, 9), rng.range(-9, 9), rng.range(0, 60));
    let sample = |rng: &mut Rng, x: i64, y: i64| {
        let steps = step * ((x / 4 + y / 4) % 3);
        (base + slope_x * x + slope_y * y + steps + rng.range(-noise, noise)).clamp(0, 1023) as u16
    };
    (0..w * h).map(|i| sample(rng, (i % w) as i64, (i / w) as i64)).collect()
}

/// Unit words with a QP of low..=high, intra and luma-coded sometimes, the other bits anything.
pub fn deblock_words(rng: &mut Rng, units: usize, low: i64, high: i64) -> Vec<u32> {
    let (intra, coded) = (rng.pick(&[0, 0, 1, 3, 8]), rng.pick(&[0, 0, 1, 2, 4, 8]));
    let one = |rng: &mut Rng| {
        let coded = (rng.below(8) < coded) as u32;
        let word = word(rng, 4, intra) & !(127 << 16 | 1 << 24);
        word | (rng.range(low, high) as u32) << 16 | coded << 24
    };
    (0..units).map(|_| one(rng)).collect()
}

/// Motion that mostly differs by less than 4, by 3 or 4 often, and far now and then.
pub fn motion(rng: &mut Rng, units: usize) -> Vec<i16> {
    let spread: &[i16] = rng.pick(&[&[0][..], &[0, 1, 3], &[0, 0, 0, 4], &[-2, 1, 2, 6], &[-300, 0, 16000]]);
    (0..4 * units).map(|_| rng.pick(spread)).collect()
}

pub fn refs(rng: &mut Rng, units: usize) -> Vec<i8> {
    let spread: &[i8] = rng.pick(&[&[0][..], &[0, 1], &[0, -1], &[-1, -1, 0, 1, 2], &[-1, -2, 127, -128]]);
    (0..2 * units).map(|_| rng.pick(spread)).collect()
}

/// A chroma table with every value inside 0..51: rising with the QP, or anything.
pub fn table(rng: &mut Rng) -> Vec<i8> {
    let shift = rng.range(-6, 6);
    let steady = !rng.one_in(4);
    let value = |rng: &mut Rng, qp: i64| if steady { (qp + shift).clamp(0, 51) } else { rng.range(0, 51) };
    (-12..58).map(|qp| value(rng, qp) as i8).collect()
}
