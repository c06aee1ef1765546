//! Speed of deblocking: the kinds of pictures that are measured and counted, whole, by bands and by a map of edge rows.
use crate::bench::best;
use crate::cases::deblock::{picture, Picture};
use crate::cases::trees::{self, Taste};
use crate::model::walk;
use crate::rng::Rng;
use lomsakeun::Planes;
use std::ops::Range;

/// What the leaves of a picture are.
pub const LEAVES: [(&str, Taste); 3] =
    [("16 and 8", trees::SIXTEENS), ("all 4", trees::FINEST), ("all 64", trees::UNCUT)];

/// What the samples of a picture are.
#[derive(Clone, Copy)]
enum Look {
    /// Around a middle grey, at random: what a station's pictures are not.
    Noise,
    /// A smooth picture, each 8 by 8 of it at its middle sample, as coarse coding leaves it.
    Blocky,
    /// From corner to corner.
    Ramp,
}

/// What the units of a picture are. Only a quiet picture has coded units.
#[derive(Clone, Copy, PartialEq)]
enum Units {
    Intra,
    /// Motion and references at random in every unit: what no station's pictures have.
    Inter,
    /// Motion and references at random for every leaf and alike inside it, as an encoder writes them: motion belongs to a leaf.
    Moving,
    /// Motion and references that are equal everywhere.
    Still,
    /// The same, but one leaf in eight moves, is intra or is coded.
    Quiet,
}

/// A kind of picture that is deblocked.
pub struct Kind {
    pub what: String,
    taste: Taste,
    look: Look,
    units: Units,
    qp: u32,
}

/// How the pictures look, what their units are, and their QP; the noise first.
const LOOKS: [(&str, Look, Units, u32); 9] = [
    ("noise, intra", Look::Noise, Units::Intra, 37),
    ("noise, inter", Look::Noise, Units::Inter, 37),
    ("blocky, intra", Look::Blocky, Units::Intra, 37),
    ("blocky, inter", Look::Blocky, Units::Inter, 37),
    ("blocky, moving", Look::Blocky, Units::Moving, 37),
    ("blocky, still", Look::Blocky, Units::Still, 37),
    ("blocky, quiet", Look::Blocky, Units::Quiet, 37),
    ("blocky, intra, QP 10", Look::Blocky, Units::Intra, 10),
    ("ramp, intra", Look::Ramp, Units::Intra, 37),
];

/// Each look with each kind of leaves, and a quiet picture with leaves of 16 and 8 alone.
pub fn kinds() -> impl Iterator<Item = Kind> {
    LOOKS.into_iter().flat_map(|(name, look, units, qp)| {
        let leaves = if units == Units::Quiet { &LEAVES[..1] } else { &LEAVES };
        leaves.iter().map(move |&(leaves, taste)| {
            let what = format!("{name}, leaves {leaves}");
            Kind { what, taste, look, units, qp }
        })
    })
}

/// A plane of `side` a row. A luma sample and the chroma sample over the same place are alike: `step` is 1 in luma and 2 in chroma.
fn plane(rng: &mut Rng, look: Look, side: usize, step: usize) -> Vec<u16> {
    let smooth = |x: usize, y: usize| 512.0 + 200.0 * (x as f64 / 61.0).sin() * (y as f64 / 83.0).cos();
    let ramp = |x: usize, y: usize| 100 + 800 * (x + y) / (2 * side * step);
    (0..side * side)
        .map(|i| (i % side * step, i / side * step))
        .map(|(x, y)| match look {
            Look::Noise => rng.range(500, 524) as u16,
            Look::Blocky => smooth(x / 8 * 8 + 4, y / 8 * 8 + 4) as u16,
            Look::Ramp => ramp(x, y) as u16,
        })
        .collect()
}

/// Unit words, motion and references: a picture's, or one of each for every leaf.
struct Said {
    words: Vec<u32>,
    motion: Vec<i16>,
    refs: Vec<i8>,
}

const INTRA: u32 = 1 << 15;
const CODED: u32 = 1 << 24;

impl Said {
    /// Of so many units or leaves.
    fn new(rng: &mut Rng, kind: &Kind, count: usize) -> Said {
        let still = matches!(kind.units, Units::Still | Units::Quiet);
        let intra = if kind.units == Units::Intra { INTRA } else { 0 };
        let mut said = Said {
            words: vec![intra | kind.qp << 16; count],
            motion: (0..4 * count).map(|_| if still { 2 } else { a_motion(rng) }).collect(),
            refs: (0..2 * count).map(|_| if still { 0 } else { rng.pick(&[0, 1]) }).collect(),
        };
        if kind.units == Units::Quiet {
            (0..count).for_each(|k| said.stir(rng, k));
        }
        said
    }

    /// Once in eight leaves this one moves, is intra, which has no motion and no references, or is coded.
    fn stir(&mut self, rng: &mut Rng, k: usize) {
        let (motion, refs) = (&mut self.motion[4 * k..][..4], &mut self.refs[2 * k..][..2]);
        match rng.below(24) {
            0 => motion.iter_mut().for_each(|part| *part = a_motion(rng)),
            1 => {
                self.words[k] |= INTRA;
                motion.fill(0);
                refs.fill(-1);
            }
            2 => self.words[k] |= CODED,
            _ => {}
        }
    }

    /// Each unit has what its leaf has.
    fn spread(&self, leaf_of: &[usize]) -> Said {
        Said {
            words: leaf_of.iter().map(|&k| self.words[k]).collect(),
            motion: leaf_of.iter().flat_map(|&k| &self.motion[4 * k..][..4]).copied().collect(),
            refs: leaf_of.iter().flat_map(|&k| &self.refs[2 * k..][..2]).copied().collect(),
        }
    }
}

/// A part of a motion: two of them differ by 4 or more about as often as not.
fn a_motion(rng: &mut Rng) -> i16 {
    rng.pick(&[-2, 1, 2, 6])
}

/// How many leaves a picture has, and which of them each unit lies in.
fn leaves_of(given: &Picture) -> (usize, Vec<usize>) {
    let leaves =
        walk::leaves(given.w, given.h, walk::cut_by(&given.splits, given.w)).expect("a tree that is accepted");
    let mut own = vec![0; given.words.len()];
    for (k, leaf) in leaves.iter().enumerate() {
        for y in (leaf.y..leaf.y + leaf.high).step_by(4) {
            own[y / 4 * (given.w / 4) + leaf.x / 4..][..leaf.wide / 4].fill(k);
        }
    }
    (leaves.len(), own)
}

/// A square picture of a kind, the same at every size, so that the sizes can be compared.
pub fn drawn(rng: &mut Rng, kind: &Kind, side: usize) -> Picture {
    let given = picture(rng, side, side, kind.taste);
    let table: Vec<i8> = (-12..58).map(|qp: i8| qp.clamp(0, 51)).collect();
    let planes = [(side, 1), (side / 2, 2), (side / 2, 2)].map(|(side, step)| plane(rng, kind.look, side, step));
    let said = if matches!(kind.units, Units::Moving | Units::Quiet) {
        let (count, leaf_of) = leaves_of(&given);
        Said::new(rng, kind, count).spread(&leaf_of)
    } else {
        Said::new(rng, kind, given.words.len())
    };
    Picture {
        planes,
        words: said.words,
        motion: said.motion,
        refs: said.refs,
        tables: [table.clone(), table],
        limit: 6,
        offsets: [0, 0],
        colour: true,
        ..given
    }
}

// ---- the calls

/// What a call may write: the planes and the unit words.
pub type Written = ([Vec<u16>; 3], Vec<u32>);

/// The maps over these units, with these of the split bytes.
fn maps(given: &Picture, units: Range<usize>, splits: Range<usize>) -> lomsakeun::Maps<'_> {
    let tables = given.tables.each_ref().map(|table| &table[..]);
    lomsakeun::Maps {
        splits: &given.splits[splits],
        motion: &given.motion[4 * units.start..4 * units.end],
        refs: &given.refs[2 * units.start..2 * units.end],
        keep: &given.keep[units.clone()],
        tables: given.colour.then_some(tables),
        strengths: &given.strengths,
    }
}

fn settings(given: &Picture) -> lomsakeun::Settings {
    let [u_offset, v_offset] = given.offsets.map(|offset| offset as i8);
    lomsakeun::Settings { limit: 6, u_offset, v_offset }
}

/// The product's call over a picture, by a map of edge rows or by none; the answer is how many edges of units it filtered.
pub fn finish(given: &Picture, rows: &[u8], (planes, words): &mut Written) -> usize {
    let [y, u, v] = planes;
    let planes = Planes { y: &mut y[..], chroma: given.colour.then_some([u, v]) };
    let picture = lomsakeun::Picture { w: given.w, h: given.h, planes, words };
    let maps = maps(given, 0..given.words.len(), 0..given.splits.len());
    let filtered = lomsakeun::deblock_by_rows(picture, maps, rows, settings(given));
    filtered.map(|(vertical, horizontal)| vertical + horizontal).unwrap()
}

/// The same by bands, the rows lent where they lie in the picture.
pub fn finish_by_bands(given: &Picture, (planes, words): &mut Written) -> usize {
    let (wide, bytes) = (given.w / 4, 1024 * given.w.div_ceil(64));
    let mut bands = lomsakeun::Bands::first();
    let mut edges = 0;
    for band in 0..given.h.div_ceil(64) {
        let lent = wide * 16 * band.saturating_sub(1)..wide * (given.h / 4).min(16 * band + 16);
        let [y, u, v] = &mut *planes;
        let chroma = given.colour.then(|| [u, v].map(|plane| &mut plane[4 * lent.start..4 * lent.end]));
        let planes = Planes { y: &mut y[16 * lent.start..16 * lent.end], chroma };
        let part = lomsakeun::Picture { w: given.w, h: given.h, planes, words: &mut words[lent.clone()] };
        let own = maps(given, lent, bytes * band..bytes * (band + 1));
        let (vertical, horizontal) = bands.deblock(band, part, own, settings(given)).unwrap();
        edges += vertical + horizontal;
    }
    edges
}

/// Fills the map of a picture's edge rows.
pub fn fill(given: &Picture, rows: &mut [u8]) {
    lomsakeun::fill_rows(given.w, given.h, &given.words, &given.motion, &given.refs, rows).unwrap();
}

/// The Rust's call over a picture, in its own shapes; its planes are as they were drawn.
pub struct Theirs {
    picture: oracle::deblock::Picture,
    tables: Vec<Vec<i8>>,
    offsets: [i8; 2],
}

impl Theirs {
    pub fn new(given: &Picture) -> Theirs {
        let size = (given.w, given.h);
        let picture = oracle::deblock::Picture::new(size, &given.words, &given.splits, &given.motion, &given.refs);
        let mut new =
            Theirs { picture, tables: given.tables.to_vec(), offsets: given.offsets.map(|offset| offset as i8) };
        new.refill(given);
        new
    }

    fn refill(&mut self, given: &Picture) {
        self.picture.fill(given.planes.each_ref().map(|plane| &plane[..]));
    }

    pub fn run(&mut self) {
        self.picture.run(&self.tables, self.offsets);
    }

    /// Whether it has left what the product has, in the planes that the product's picture has. Over 1024 by 1024, where its unit index wraps, it is not asked.
    pub fn agreed(&mut self, given: &Picture, (planes, words): &Written) -> bool {
        let (mut own, mut own_words) = (given.planes.clone(), given.words.clone());
        self.picture.read(own.each_mut().map(|plane| &mut plane[..]), &mut own_words);
        let same = own.iter().zip(planes).all(|(own, plane)| plane.is_empty() || own == plane);
        given.words.len() > 1 << 16 || same && own_words == *words
    }
}

// ---- the times

/// The samples that the three planes of a picture in colour have.
fn samples_of(given: &Picture) -> f64 {
    1.5 * (given.w * given.h) as f64
}

/// The product's nanoseconds for a picture, in its own format, by a map of edge rows or by none.
fn finished(given: &Picture, rows: &[u8]) -> f64 {
    let mut ours = (given.planes.clone(), given.words.clone());
    let refill = |(planes, words): &mut Written| {
        planes.iter_mut().zip(&given.planes).for_each(|(plane, from)| plane.copy_from_slice(from));
        words.copy_from_slice(&given.words);
    };
    best(&mut ours, refill, |written| {
        finish(given, rows, written);
    })
}

/// The Rust's nanoseconds for a picture.
fn theirs(given: &Picture) -> f64 {
    best(&mut Theirs::new(given), |rust| rust.refill(given), Theirs::run)
}

/// Nanoseconds for each sample of the three planes: the Rust, and the product.
pub fn deblocked(given: &Picture) -> (f64, f64) {
    let count = samples_of(given);
    (theirs(given) / count, finished(given, &[]) / count)
}

/// The product's for the same picture without its colour, over the same count of samples.
pub fn in_grey(given: Picture) -> f64 {
    let count = samples_of(&given);
    finished(&given.grey(), &[]) / count
}

/// Deblocking alone, square pictures of one side, as rows of a table: nanoseconds for each sample of the three planes, the Rust's and the product's;
/// the product's for the same picture without its colour, beside the Rust's and two thirds of it; and both by a map of edge rows.
pub fn deblocking_at(side: usize) -> bool {
    println!(
        "| picture of {side} | Rust, colour | grey | by a map of edge rows, colour | grey |\n|---|---|---|---|---|"
    );
    for kind in kinds() {
        let given = drawn(&mut Rng::new(1), &kind, side);
        let count = samples_of(&given);
        let (rust, ours) = deblocked(&given);
        let mut rows = vec![0; given.words.len()];
        fill(&given, &mut rows);
        let by_map = finished(&given, &rows) / count;
        let given = given.grey();
        let (grey, grey_by_map) = (finished(&given, &[]) / count, finished(&given, &rows) / count);
        println!(
            "| {} | {rust:.2}, {ours:.2}: {:.1} | {grey:.2}: {:.1}, {:.1} | {by_map:.2}: {:.2} | {grey_by_map:.2}: {:.2} |",
            kind.what,
            rust / ours,
            rust / grey,
            rust / grey * 2.0 / 3.0,
            by_map / ours,
            grey_by_map / grey
        );
    }
    true
}
