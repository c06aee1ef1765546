//! Which pictures are recorded for deblocking, and what is compared beside them.
use super::data::*;
use super::deblock::{picture, split_bytes, table, Picture};
use super::tape::{Case, Line, Tape};
use super::trees;
use crate::model::{deblock as model, walk};
#[cfg(feature = "archive")]
use crate::product::{Answer, Lending};
use crate::rng::Rng;
use oracle::deblock as rust;

pub fn record(tape: &mut Tape) {
    let rng = &mut Rng::new(0xdeb10c);
    worked(tape, rng);
    motions(tape, rng);
    for i in 0..180 {
        let most = rng.pick(&[8, 12, 16, 24, 36]);
        let size = square(rng, most);
        tape.record(&varied(rng, size, i));
    }
    for i in 0..60 {
        let size = strip(rng);
        tape.record(&varied(rng, size, i));
    }
    for (w, h) in [(4, 4), (4, 8), (8, 4), (64, 4), (4, 64), (64, 64)] {
        tape.record(&picture(rng, w, h, trees::MIXED));
        tape.record(&Picture { limit: 5, ..picture(rng, w, h, trees::UNCUT) });
    }
    roots(tape, rng);
    longest(tape, rng);
    super::deblock_refusals::record(tape, rng);
    super::grey::record(tape);
    super::keep::record(tape);
    super::by_rows::record(tape);
    compare(tape, rng);
}

/// Several roots in a row and in a column, most of them cut off by the picture's end, and large leaves by both limits.
fn roots(tape: &mut Tape, rng: &mut Rng) {
    for (w, h, taste, limit) in [
        (68, 64, trees::UNCUT, 6),
        (64, 72, trees::UNCUT, 5),
        (68, 68, trees::COARSE, 6),
        (76, 68, trees::FINE, 5),
        (132, 68, trees::MIXED, 5),
        (68, 132, trees::COARSE, 6),
        (132, 132, trees::COARSE, 5),
        (260, 20, trees::MIXED, 6),
    ] {
        tape.record(&Picture { limit, ..picture(rng, w, h, taste) });
    }
}

/// A size up to `most` in both directions.
pub fn square(rng: &mut Rng, most: usize) -> (usize, usize) {
    (size(rng, most), size(rng, most))
}

/// A size up to 260 in one direction, with few samples in all.
pub fn strip(rng: &mut Rng) -> (usize, usize) {
    let long = size(rng, 260);
    let short = size(rng, (1600 / long).min(260));
    rng.pick(&[(long, short), (short, long)])
}

/// A picture with both chroma tables alike or not, with the Rust's strengths or others, with motion that fits or does not.
pub fn varied(rng: &mut Rng, (w, h): (usize, usize), i: usize) -> Picture {
    let taste = trees::taste(rng);
    let mut picture = picture(rng, w, h, taste);
    if i % 4 == 0 {
        picture.tables[1] = table(rng);
    }
    if i % 10 == 0 {
        let high = rng.pick(&[1, 4, 64, 255]);
        picture.strengths = (0..208).map(|_| rng.range(0, high) as u8).collect();
    }
    if i % 15 == 0 {
        picture.motion.iter_mut().for_each(|v| *v = rng.pick(&[-32768, -32767, -1, 0, 32767, 32766, -32764]));
    }
    picture
}

/// The largest side is accepted; four more are refused, and nothing else is wrong with that picture. Samples of one digit
/// keep the recording short.
fn longest(tape: &mut Tape, rng: &mut Rng) {
    for (w, h) in [(4096, 4), (4, 4096), (4100, 4)] {
        let mut picture = picture(rng, w, h, trees::FINEST);
        picture.planes.iter_mut().flatten().for_each(|sample| *sample = rng.range(0, 9) as u16);
        tape.record(&picture);
    }
}

/// The paper's lines, across the upright edge and the level edge of four units, one strength for all rows.
fn worked(tape: &mut Tape, rng: &mut Rng) {
    for (line, entry) in [
        ([100, 100, 120, 120], 3),
        ([100, 100, 120, 120], 1),
        ([120, 120, 100, 100], 3),
        ([100, 100, 121, 121], 1),
        ([100, 100, 122, 122], 1),
        ([100, 100, 99, 103], 1),
        ([1023, 1022, 1022, 0], 64),
        ([0, 1, 1023, 1023], 255),
    ] {
        for across in [true, false] {
            let (w, h) = if across { (8, 4) } else { (4, 8) };
            let mut picture = picture(rng, w, h, trees::FINEST);
            picture.strengths = vec![entry; 208];
            let luma = |i: usize| if across { i % 8 } else { i / 4 };
            let chroma = |i: usize| if across { i % 4 } else { i / 2 };
            picture.planes[0] = (0..32).map(|i| line[luma(i).clamp(2, 5) - 2]).collect();
            picture.planes[1] = (0..8).map(|i| line[chroma(i)]).collect();
            picture.planes[2] = picture.planes[1].clone();
            tape.record(&picture);
        }
    }
}

/// Two units, P first, on the two sides of an upright edge or of a level one, with this motion and these references. At
/// this QP each strength row makes other samples of this step.
pub fn pair(rng: &mut Rng, upright: bool, motion: [i16; 8], refs: [i8; 4]) -> Picture {
    let (w, h) = if upright { (8, 4) } else { (4, 8) };
    let mut picture = picture(rng, w, h, trees::FINEST);
    picture.words.fill(40 << 16);
    let q = |i: usize| if upright { i % 8 >= 4 } else { i >= 16 };
    picture.planes[0] = (0..32).map(|i| if q(i) { 156 } else { 100 }).collect();
    Picture { motion: motion.to_vec(), refs: refs.to_vec(), ..picture }
}

/// Motion that differs by 3 and by 4 in each component, up and down, in place and crosswise, and at the Rust's bounds.
fn motions(tape: &mut Tape, rng: &mut Rng) {
    let refs =
        [[0, 1, 0, 1], [0, 1, 1, 0], [0, 0, 0, 0], [-1, 0, 0, -1], [-1, 0, -1, 0], [-1, -2, -2, -1], [0, 1, 0, 2]];
    for (i, refs) in refs.into_iter().enumerate() {
        for at in 0..4 {
            for by in [3, 4, -3, -4] {
                let mut motion = [7; 8];
                motion[at] += by;
                tape.record(&pair(rng, (i + at) % 2 == 0, motion, refs));
            }
        }
    }
    for (p, q) in [(0, 32767), (0, -32767), (0, -32768), (-1, 32767), (-32768, 32767), (32767, -32768)] {
        tape.record(&pair(rng, true, [p, 0, 0, 0, q, 0, 0, 0], [0; 4]));
        tape.record(&pair(rng, false, [0, 4, 0, p, 0, 0, 0, q], [0; 4]));
        tape.record(&pair(rng, true, [p, p, 0, 0, q, q, 0, 0], [-1, 0, -1, 0]));
    }
}

/// Whole pictures, lists of edges and single windows, the Rust against the model, not recorded.
fn compare(tape: &mut Tape, rng: &mut Rng) {
    tape.say("recorded pictures compared");
    for i in 0..1500 {
        let most = rng.pick(&[8, 16, 36, 72, 140]);
        let size = square(rng, most);
        tape.compare(&varied(rng, size, i));
    }
    tape.say("further pictures up to 140 by 140 compared");
    tape.compare(&picture(rng, 1024, 1024, trees::MIXED));
    tape.say("pictures of 1024 by 1024 compared");
    for _ in 0..600 {
        let (w, h) = (size(rng, 300), size(rng, 300));
        let taste = trees::taste(rng);
        let tree = trees::tree(rng, w, h, taste);
        let splits = split_bytes(rng, w, h, &tree);
        tape.compare(&Edges { w, h, splits, tree, limit: rng.pick(&[5, 6]) });
    }
    tape.say("split trees' lists of edges compared");
    for entry in 0..=255 {
        for i in 0..240 {
            let (chroma, along) = (i % 2 == 0, i / 2 % 2 == 0);
            tape.compare(&Window { chroma, along, entry, samples: samples(rng, if chroma { 8 } else { 16 }) });
        }
    }
    tape.say("single windows compared, 60 of each kind with each strength entry");
}

/// The lists of edges alone.
struct Edges {
    w: usize,
    h: usize,
    splits: Vec<u8>,
    tree: Vec<(usize, usize, usize, bool)>,
    limit: usize,
}

fn edges_line(lists: [Vec<(usize, usize)>; 2]) -> Line {
    let each = |line: Line, list: &Vec<(usize, usize)>| {
        list.iter().fold(line.num(list.len()), |line, (x, y)| line.num(x).num(y))
    };
    lists.iter().fold(Line::new().num(0u8), each)
}

impl Case for Edges {
    fn input(&self) -> Line {
        Line::new().num(self.w).num(self.h).num(self.limit).slice(&self.splits)
    }

    fn model(&self) -> Line {
        let mut answers = self.tree.iter().map(|&(.., cut)| cut);
        let leaves = walk::leaves(self.w, self.h, |_, _, _| Ok(answers.next().unwrap())).unwrap();
        let vertical = walk::vertical(self.w, self.h, &leaves, self.limit);
        edges_line([vertical, walk::horizontal(&leaves, self.limit)])
    }

    fn rust(&self) -> Option<Line> {
        let size = (self.w, self.h);
        let lists = if self.limit == 6 {
            oracle_visits::visits::edges(size, &self.splits)
        } else {
            oracle_visits_tr5::visits::edges(size, &self.splits)
        };
        lists.map(edges_line)
    }

    fn in_domain(&self) -> bool {
        true
    }

    /// A part of a call, which the product does not export by itself.
    #[cfg(feature = "archive")]
    fn product(&self, _: Lending) -> Answer {
        Ok(self.model())
    }
}

/// One window alone, with any strength entry.
struct Window {
    chroma: bool,
    along: bool,
    entry: u8,
    samples: Vec<u16>,
}

impl Case for Window {
    fn input(&self) -> Line {
        Line::new().flag(self.chroma).flag(self.along).num(self.entry).slice(&self.samples)
    }

    fn model(&self) -> Line {
        let lines = self.samples.len() / 4;
        let (across, next) = if self.along { (lines, 1) } else { (1, 4) };
        let mut samples = self.samples.clone();
        for i in 0..lines {
            let places = [0, 1, 2, 3].map(|k| i * next + k * across);
            let filtered = model::line(places.map(|place| samples[place]), self.entry as i64, !self.chroma);
            places.into_iter().zip(filtered).for_each(|(place, sample)| samples[place] = sample);
        }
        Line::new().num(0u8).all(&samples)
    }

    fn rust(&self) -> Option<Line> {
        let mut samples = self.samples.clone();
        rust::window(self.chroma, self.along, self.entry, &mut samples)?;
        Some(Line::new().num(0u8).all(&samples))
    }

    fn in_domain(&self) -> bool {
        true
    }

    /// A part of a call, which the product does not export by itself.
    #[cfg(feature = "archive")]
    fn product(&self, _: Lending) -> Answer {
        Ok(self.model())
    }
}

pub fn draw(rng: &mut Rng) -> Box<dyn Case> {
    let most = rng.pick(&[8, 16, 36, 72, 140]);
    let i = 1 + rng.below(64);
    let size = square(rng, most);
    Box::new(varied(rng, size, i))
}

/// A picture whose chroma QPs are mapped below 0 and above 51 too: QPs near an end, offsets of 12 to that side, and tables
/// that map to anything that a derived one can hold.
fn quiet(rng: &mut Rng) -> Picture {
    let most = rng.pick(&[8, 16, 36, 72]);
    let size = square(rng, most);
    let mut case = varied(rng, size, 1);
    let (low, offset) = rng.pick(&[(0, -12), (0, -1), (44, 12), (44, 1)]);
    case.words.iter_mut().for_each(|word| *word = *word & !(127 << 16) | (low + rng.below(8) as u32) << 16);
    case.offsets = [offset, rng.pick(&[offset, 0])];
    for table in &mut case.tables {
        let shift = rng.range(-12, 40);
        for (at, value) in table.iter_mut().enumerate() {
            *value = (at as i64 - 12 + shift + rng.range(-2, 2)).clamp(-12, 91) as i8;
        }
    }
    if rng.one_in(2) {
        case.tables[1] = case.tables[0].clone();
    }
    case
}

pub fn draw_quiet(rng: &mut Rng) -> Box<dyn Case> {
    Box::new(quiet(rng))
}

pub fn damaged_quiet(rng: &mut Rng) -> Box<dyn Case> {
    let mut case = quiet(rng);
    let at = rng.below(case.words.len());
    case.words[at] |= rng.pick(&[127, 64, 52]) << 16;
    Box::new(case)
}

pub fn damaged(rng: &mut Rng) -> Box<dyn Case> {
    let size = square(rng, 24);
    let mut case = varied(rng, size, 1);
    harm(rng, &mut case);
    Box::new(case)
}

/// Damages one or two things.
pub fn harm(rng: &mut Rng, case: &mut Picture) {
    for _ in 0..1 + rng.below(2) {
        let plane = rng.below(3);
        let table = rng.below(2);
        match rng.below(16) {
            0 => spoil(rng, &mut case.w),
            1 => spoil(rng, &mut case.h),
            2 => stretch(rng, &mut case.planes[plane]),
            3 => stretch(rng, &mut case.words),
            4 => stretch(rng, &mut case.splits),
            5 => stretch(rng, &mut case.motion),
            6 => stretch(rng, &mut case.refs),
            7 => stretch(rng, &mut case.tables[table]),
            8 => stretch(rng, &mut case.strengths),
            9 => case.limit = rng.below(256),
            10 => case.offsets[table] = rng.range(-128, 127),
            11 => case.words.iter_mut().for_each(|word| *word ^= (rng.one_in(9) as u32) << rng.range(16, 22)),
            12 => case.tables[table].iter_mut().for_each(|value| *value = rng.range(-8, 58) as i8),
            13 => stretch(rng, &mut case.keep),
            14 => case.keep.iter_mut().for_each(|mark| *mark = rng.pick(&[0, 0, 1, 1, 2, 255])),
            _ => overdo(rng, &mut case.planes[plane]),
        }
    }
    if rng.one_in(3) {
        case.splits.iter_mut().for_each(|byte| *byte = rng.pick(&[0, 1, 1, 1, 1, 1, 1, 2]));
    }
}
